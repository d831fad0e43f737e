"""The static library from C and Rust.

scripts/c-library builds it. The archive defines and needs certain names alone. The header's numbers are those of the
contracts. The example in C runs, also beside a plain normaliser. Every call runs while each allocation fails once,
under the address and undefined-behaviour sanitizers. The Rust crate passes its tests. If a tool is missing, the checks
that need it are skipped.
"""
import os
import re

from parts import proofs
from parts.common import ROOT, CannotRun, kit, lacks, last_lines, room, run as run_command, said, text_of
from parts.kept import keep, sources

OUT = ROOT / "bindings/out"
ARCHIVE = OUT / "libnosgrivel.a"
# What rt built for the archive.
BUILT = OUT / "nosgrivel_c.a"
HEADER = ROOT / "bindings/c/nosgrivel.h"
# The definitions of the numbers that contracts give.
NUMBERS = ROOT / "crates/flat_refusals/specs/FlatRefusals.antt"
# The functions of the heap, and those that the compiler calls to move and to fill bytes.
NEEDED = {"free", "malloc", "memcpy", "memmove", "memset", "realloc"}
SANITIZERS = ["-g", "-fsanitize=address,undefined", "-fno-sanitize-recover=all"]
FLAGS = ["-std=c11", "-Wall", "-Wextra", "-Werror", "-I", ROOT / "bindings/c"]

# A module in a longer encoding, its minimal encoding, and a malformed module: no locals at 12, an unknown opcode at 13.
LONGER = b"\0asm\1\0\0\0" + bytes.fromhex("0186 00014F006000 00 03 8100 80")
MINIMAL = b"\0asm\1\0\0\0" + bytes.fromhex("0104 01600000 03 01 80")
# A memory section with a padded number, after two custom sections, and the canonical form without the first of them.
NAMED = MINIMAL[:8] + b"\0\6\5notes" + b"\0\5\4name" + b"\5\4\1\0\x81\0"
STRIPPED = MINIMAL[:8] + b"\0\5\4name" + b"\5\3\1\0\1"
MALFORMED = b"\0asm\1\0\0\0" + bytes.fromhex("0A05 0103 00 FF 0B")
WHY = "code section, function 0, offset 0xd: unknown opcode 0xFF"


def expect(report, name, *words, **how):
    """Counts whether a command succeeds."""
    ran = run_command(*words, **how)
    return report.check(name, ran.returncode == 0, f"failed{last_lines(said(ran))}")


def try_names(report, folder, archive=ARCHIVE):
    """Lists the names of an archive with the kit's nm, which is its clang by another name."""
    names = folder / "llvm-nm"
    names.symlink_to(kit() / "toolchain/bin/clang")

    def listed(*options):
        lines = run_command(names, *options, "-j", archive).stdout.decode().splitlines()
        return {line for line in lines if line and not line.endswith(":")}

    declared = {found for found in re.findall(r"(nosgrivel_[a-z_]*)\(", HEADER.read_text("utf-8"))}
    differing = sorted(declared ^ listed("--extern-only", "--defined-only"))
    report.check("the names that the archive defines", declared and not differing, f"differ: {differing}")
    more = sorted(listed("--undefined-only") - NEEDED)
    report.check("the names that the archive needs", not more, f"too many: {more}")


def try_numbers(report):
    """Compares the numbers of reasons and of parts in the header with those of the contracts."""
    header, defined = HEADER.read_text("utf-8"), NUMBERS.read_text("utf-8")
    for kind, prefix, line in (
            ("reason", "", r"flat_reason \(?reasons\.(\w+).*\)? = (?:naming|numbers) (\d+)"),
            ("construct", "CONSTRUCT_", r"construct_code constructs\.(\w+) = (\d+)")):
        members = re.search(rf"enum nosgrivel_{kind} {{(.*?)}};", header, re.DOTALL)[1]
        in_header = dict(re.findall(rf"NOSGRIVEL_{prefix}(\w+) = (\d+)", members))
        proved = {constant_name(name): number for name, number in re.findall(line, defined)}
        differing = sorted({it for it in in_header.items() if it[1] != "0"} ^ set(proved.items()))
        report.check(f"the numbers of each {kind} in the header", proved and not differing, f"differ: {differing}")


def constant_name(name):
    """A name of an enum's variant as a constant's name: `InvalidUtf8` is INVALID_UTF8."""
    return re.sub(r"\B(?=[A-Z])", "_", name).upper()


def try_c(report, folder):
    example, plain = folder / "example", folder / "plain"
    expect(report, "the example in C is built",
           "cc", *FLAGS, "-O1", "-o", example, ROOT / "bindings/c/example.c", ARCHIVE)
    fault = fault_of_example(example)
    report.check("the example in C", not fault, fault)
    if not lacks(report, "rustc", "the example isn't compared with the plain normaliser"):
        expect(report, "the plain normaliser is built",
               "rustc", "-C", "opt-level=3", "-o", plain, ROOT / "bench/plain_normaliser.rs")
        fault = fault_beside_plain(example, plain)
        report.check("the example in C and the plain normaliser", not fault, fault)
    try_sanitized(report, folder)


def fault_of_example(*command, **how):
    if not command[-1].exists():
        return "not built"
    words = [*command, ".debug_*", "not*"]
    right, wrong = (run_command(*words, input=data, **how) for data in (NAMED, MALFORMED))
    if (right.returncode, right.stdout) != (0, STRIPPED):
        return f"status {right.returncode}, output {right.stdout!r}, not {STRIPPED!r}"
    refused = run_command(*command, b"\xff", input=NAMED, **how)
    if (refused.returncode, refused.stdout) != (2, b""):
        return f"status {refused.returncode} for a pattern that isn't UTF-8: {said(refused)}"
    if wrong.returncode == 0 or wrong.stdout or text_of(wrong.stderr) != WHY:
        return f"status {wrong.returncode} for a malformed module: {text_of(wrong.stderr)}"
    return ""


def fault_beside_plain(example, plain):
    """Compares the example with the plain normaliser of the benchmark, on a module of two million bytes, in which only
    types and code aren't in their minimal encoding."""
    if not example.exists() or not plain.exists():
        return "not built"
    data = (ROOT / "bench/linked_code.wasm").read_bytes()
    one, two = (run_command(program, input=data) for program in (example, plain))
    statuses = (one.returncode, two.returncode)
    if statuses != (0, 0):
        return f"they end with the statuses {statuses}"
    return "" if one.stdout == two.stdout else "they write different bytes"


def try_sanitized(report, folder, compiler="cc", archive=ARCHIVE, emulator=(), **how):
    """Runs the tests in C under the sanitizers: failing allocations, refusals and their messages, null pointers."""
    (folder / "none.c").write_text("int main(void) { return 0; }\n", "utf-8")
    if run_command(compiler, *SANITIZERS, "-o", folder / "none", folder / "none.c").returncode:
        report.skipped("failing allocations and refusals", f"{compiler} has no sanitizers")
        return
    wrap = "-Wl,--wrap=malloc,--wrap=realloc,--wrap=free"
    for name, program, words in (("failing allocations", "refused_memory", [wrap]), ("refusals", "refusals", []),
                                 ("null pointers", "no_bytes", [])):
        source = ROOT / f"bindings/c/{program}.c"
        if expect(report, f"the program of {name} is built",
                  compiler, *FLAGS, *SANITIZERS, *words, "-o", folder / program, source, archive):
            expect(report, name, *emulator, folder / program, **how)


def try_rust(report):
    environment = {**os.environ, "NOSGRIVEL_LIB_DIR": str(OUT), "CARGO_TARGET_DIR": str(OUT / "target")}
    how = {"cwd": ROOT / "bindings/rust", "env": environment}
    expect(report, "the tests in Rust", "cargo", "test", "--offline", **how)
    if run_command("cargo", "clippy", "--version").returncode:
        report.skipped("clippy", "cargo clippy not found")
    else:
        expect(report, "clippy", "cargo", "clippy", "--offline", "--all-targets", "--", "-D", "warnings", **how)
    how["env"] = {**environment, "RUSTDOCFLAGS": "-D warnings"}
    expect(report, "the Rust crate's pages", "cargo", "doc", "--offline", "--no-deps", **how)


def run(report, words):
    if run_command(ROOT / "scripts/c-library", *words, OUT, stdout=None, stderr=None).returncode:
        raise CannotRun("scripts/c-library failed")
    if words and proofs.proved.get("nosgrivel_c") == sources("nosgrivel_c"):
        keep("nosgrivel_c", proofs.proved["nosgrivel_c"], BUILT)
    with room() as folder:
        try_names(report, folder)
        try_numbers(report)
        if not lacks(report, "cc", "the tests in C"):
            try_c(report, folder)
        if not lacks(report, "c++", "the header in C++"):
            expect(report, "the header in C++",
                   "c++", "-Wall", "-Wextra", "-Werror", "-fsyntax-only", "-x", "c++", HEADER)
    if not lacks(report, "cargo", "the tests in Rust"):
        try_rust(report)
