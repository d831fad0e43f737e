"""The release for aarch64 Linux, under qemu-aarch64, beside the library and programs for x86-64.

The functions of bindings/runtime must do what the kit's do. The C library and `wasmnorm` are compiled for aarch64.
scripts/release makes an archive of them twice, which must be the same bytes. Its library defines and needs certain
names alone, and passes the tests in C. The example in C and `wasmnorm` must end, write and complain as on x86-64, for
the modules of the vectors and of bench/, and for their first halves. `wasmcanon` takes long to prove: if the user's
cache lacks it, a program that does nothing stands in for it. If the compiler or qemu is missing, all is skipped.
"""
import concurrent.futures
import os
import pathlib

from parts import times
from parts.bindings import ARCHIVE, FLAGS, expect, fault_of_example, try_names, try_sanitized
from parts.common import (ROOT, VECTORS, VERSION, CannotRun, kit, lacks, last_lines, program, room, run as run_command,
                          said, text_of)
from parts.kept import keep, sources, take
from parts.proofs import PROGRAMS

MACHINE = "aarch64"
COMPILER, EMULATOR = "aarch64-linux-gnu-gcc", "qemu-aarch64"
SHELL = ["bash", "-euo", "pipefail", "-c"]
COMPILE = """
. scripts/builds.bash
. scripts/targets.bash
choose_machine aarch64
compile_for_machine "$1" "$2"
"""
BUILDS = ("nosgrivel_c", "wasmnorm")
# Files of vectors, some of whose rows begin with `module` and its bytes.
MODULES = ("answers", "cuts", "every_section", "linked", "linked_sections", "passive_elements", "strict", "try_table",
           "worked_answers", "worked_modules")


def try_runtime(report, folder, emulated):
    """Compares the functions of bindings/runtime with those of the kit for x86-64."""
    driver, sources = ROOT / "scripts/parts/runtime.c", sorted((ROOT / "bindings/runtime").glob("*.c"))
    objects = [kit() / "c/libos_c.a", kit() / "c/liblibc_c.a"]
    expect(report, "the kit's runtime: built", "cc", *FLAGS, "-o", folder / "kit", driver, *objects)
    expect(report, "the runtime: built", COMPILER, *FLAGS, "-O2", "-o", folder / "runtime", driver, *sources)
    words = ["", "word", "1234567", "12345678"]
    one, other = (run_command(*command, *words) for command in ([folder / "kit"], [*emulated, folder / "runtime"]))
    same = one.returncode == other.returncode == 0 and one.stdout == other.stdout and len(one.stdout) > 1000
    report.check("the runtime", same, f"{said(one)[-2000:]}, but on {MACHINE} {said(other)[-2000:]}")


def compile_all(report, folder):
    """Puts what is compiled for aarch64 into a cache of its own. Returns the programs that are no stand-ins."""
    how = {"cwd": ROOT, "env": {**os.environ, "speaker": "aarch64", "log": str(folder / "log")}, "stdout": None,
           "stderr": None}
    programs = []
    for crate in (*BUILDS, "wasmcanon"):
        file, known = folder / f"{crate}.o", sources(crate)
        if crate in BUILDS and run_command(*SHELL, COMPILE, "gate", crate, file, **how).returncode:
            raise CannotRun(f"{crate} isn't compiled for aarch64")
        if crate not in BUILDS and not take(f"{crate}-{MACHINE}", known, file):
            expect(report, "a stand-in", COMPILER, "-c", "-x", "c", "-o", file, "-", input=b"int main(void) {}\n")
            report.note(f"{crate}: not tried, because the user's cache lacks it")
        elif crate in PROGRAMS:
            programs.append(crate)
        keep(f"{crate}-{MACHINE}", known, file, env={**os.environ, "XDG_CACHE_HOME": str(folder / "cache")})
    return programs


def unpack_release(report, folder):
    """Makes a release twice, and unpacks it. Returns the folder of its files."""
    environment = {**os.environ, "XDG_CACHE_HOME": str(folder / "cache"), "CC": COMPILER,
                   "SOURCE_DATE_EPOCH": "1700000000"}
    name = f"nosgrivel-{VERSION}-{MACHINE}-linux"
    archives = [folder / time / f"{name}.tar.gz" for time in ("first", "second")]
    for archive in archives:
        ran = run_command(ROOT / "scripts/release", "--target", MACHINE, archive.parent, env=environment, cwd=folder)
        if not report.check(f"the {archive.parent.name} release", ran.returncode == 0, last_lines(said(ran))):
            raise CannotRun("scripts/release failed")
    same = archives[0].read_bytes() == archives[1].read_bytes()
    report.check("the releases are the same", same, "they differ")
    expect(report, "the release is unpacked", "tar", "-xf", archives[0], cwd=folder)
    return folder / name


def emulator():
    """The command that runs a program for aarch64, with the shared libraries of the compiler."""
    library = text_of(run_command(COMPILER, "-print-file-name=libc.so.6").stdout)
    return [EMULATOR, "-L", pathlib.Path(library).resolve().parents[1]]


def bytes_of(text):
    """The bytes of a vector: runs in hex, each with how often it is repeated."""
    runs = (part.partition("*") for part in text.split("+"))
    return b"".join(bytes.fromhex(part) * int(count or 1) for part, _, count in runs)


def inputs():
    """Modules, and the first half of each."""
    rows = [row.split("\t") for name in MODULES for row in (VECTORS / f"{name}.tsv").read_text("utf-8").splitlines()]
    modules = {bytes_of(row[1]) for row in rows if row[0] == "module"}
    modules.update(file.read_bytes() for file in (ROOT / "bench").glob("*.wasm"))
    return sorted({half for module in modules for half in (module, module[:len(module) // 2])})


def compare(report, name, one, other):
    """Gives each input to two commands, which must end, write and complain in the same way."""
    def answers(data):
        both = [run_command(*command, input=data) for command in (one, other)]
        return [(ran.returncode, ran.stdout, ran.stderr) for ran in both]

    given = inputs()
    with concurrent.futures.ThreadPoolExecutor(times.cores()) as pool:
        found = list(pool.map(answers, given))
    wrong = [(data, *both) for data, both in zip(given, found) if both[0] != both[1]]
    report.passed(name, len(given) - len(wrong))
    if wrong:
        data, one, other = (str(it)[:300] for it in wrong[0])
        report.failed(name, f"for {data}: {one}, but on {MACHINE} {other}", len(wrong))
    return {both[0][0] for both in found}


def try_c(report, folder, prefix, emulated):
    """Builds and runs the example and the tests in C with the libraries of the release."""
    library = prefix / "lib/libnosgrivel.a"
    shared = [f"-L{library.parent}", f"-Wl,-rpath,{library.parent}", "-lnosgrivel"]
    try_names(report, folder, library)
    # The sanitizer of leaks doesn't run in an emulator. The tests themselves count what is freed.
    environment = {**os.environ, "ASAN_OPTIONS": "detect_leaks=0"}
    try_sanitized(report, folder, COMPILER, library, emulated, env=environment)
    source, here = ROOT / "bindings/c/example.c", folder / "here"
    for name, words in (("static", [library]), ("shared", shared)):
        expect(report, f"the example, {name}: built", COMPILER, *FLAGS, "-O1", "-o", folder / name, source, *words)
        fault = fault_of_example(*emulated, folder / name)
        report.check(f"the example, {name}", not fault, fault)
    if expect(report, "the example for x86-64: built", "cc", *FLAGS, "-O1", "-o", here, source, ARCHIVE):
        statuses = compare(report, "the example", [here], [*emulated, folder / "static"])
        report.check("the statuses of the example", statuses == {0, 1}, statuses)


def try_programs(report, prefix, emulated, programs):
    """Gives the programs of the release the modules, and no argument or a wrong one."""
    for name in programs:
        words = ["module"] if name == "wasmnorm" else []
        here, there = [program(name)], [*emulated, prefix / "bin" / name]
        compare(report, name, [*here, *words], [*there, *words])
        for more in ([], ["--help"], ["--version"], ["--no-such-option", "x" * 5000], ["", "\N{SNOWMAN}"]):
            one, other = (run_command(*command, *more) for command in (here, there))
            same = (one.returncode, said(one)) == (other.returncode, said(other))
            report.check(f"{name} {more!r:.40}", same, f"{said(one)}, but on {MACHINE} {said(other)}")


def run(report):
    needed = {COMPILER: "install gcc-aarch64-linux-gnu and libc6-dev-arm64-cross", EMULATOR: "install qemu-user",
              "cc": "nothing is compared"}
    if any([lacks(report, tool, why) for tool, why in needed.items()]):
        return
    for file, part in ((ARCHIVE, "bindings"), *((program(name), "proofs") for name in PROGRAMS)):
        if not file.exists():
            raise CannotRun(f"{file.relative_to(ROOT)} not found: `scripts/gate proofs {part}` builds it")
    with room() as folder:
        emulated = emulator()
        try_runtime(report, folder, emulated)
        programs = compile_all(report, folder)
        prefix = unpack_release(report, folder)
        try_c(report, folder, prefix, emulated)
        try_programs(report, prefix, emulated, programs)
