"""scripts/install into an empty folder: the programs, pages, libraries, C and Rust, with no clone beside them.

It runs in a copy of the tree and proves nothing, because the cache there holds what `rt ci` and the part `bindings`
built. The copy is removed before what was installed is tried. scripts/release makes an archive twice, which must be the
same bytes; its program runs in an empty environment, and its files are removed.
"""
import os
import shutil

from parts.bindings import BUILT, FLAGS, LONGER, MINIMAL, expect, fault_of_example
from parts.common import (ROOT, VERSION, CannotRun, copy_tree, help_of, lacks, last_lines, program, room,
                          run as run_command, said, text_of)
from parts.kept import keep, sources, take
from parts.proofs import PROGRAMS

# The proved builds, by their crates.
BUILDS = {**{name: program(name) for name in PROGRAMS}, "nosgrivel_c": BUILT}
WASM = "nosgrivel_wasm"
FILES = [*(f"bin/{name}" for name in PROGRAMS), *(f"share/man/man1/{name}.1" for name in PROGRAMS),
         "share/bash-completion/completions/wasmcanon", "share/zsh/site-functions/_wasmcanon",
         "share/fish/vendor_completions.d/wasmcanon.fish", "include/nosgrivel.h", "lib/libnosgrivel.a",
         "lib/libnosgrivel.so", f"lib/libnosgrivel.so.{VERSION}",
         f"lib/libnosgrivel.so.{VERSION.rpartition('.')[0]}", "lib/pkgconfig/nosgrivel.pc",
         "lib/cmake/nosgrivel/nosgrivel-config.cmake", "lib/cmake/nosgrivel/nosgrivel-config-version.cmake",
         "share/nosgrivel/example.c", "share/nosgrivel/files", "share/nosgrivel/uninstall",
         "share/doc/nosgrivel/LICENSE", "share/doc/nosgrivel/CHANGELOG.md"]
# A memory section with a padded number, and its canonical form.
PADDED, CANONICAL = MINIMAL[:8] + b"\5\4\1\0\x81\0", MINIMAL[:8] + b"\5\3\1\0\1"


class Prefix:
    """An installation, and the report on it."""

    def __init__(self, report, folder):
        self.report, self.room, self.prefix = report, folder, folder / "prefix"

    def expect(self, name, *words, **how):
        return expect(self.report, name, *words, **how)

    def move(self):
        """Moves the folder."""
        self.prefix = self.prefix.rename(self.room / "moved")

    def answers(self, name, words, output, **how):
        ran = run_command(*words, **how)
        right = (ran.returncode, ran.stdout) == (0, output)
        self.report.check(name, right, f"status {ran.returncode}, output {ran.stdout[:200]}, {text_of(ran.stderr)}")


def keep_module(report, folder, tree, environment):
    """Puts the library of the WebAssembly module, which scripts/release links, into the cache of the tree."""
    made = folder / "javascript"
    expect(report, "the WebAssembly module", ROOT / "scripts/wasm-module", made)
    library = made / "library.a"
    if not take(f"{WASM}-wasm64", sources(WASM), library):
        raise CannotRun("the user's cache lacks the WebAssembly module")
    keep(f"{WASM}-wasm64", sources(WASM, cwd=tree), library, cwd=tree, env=environment)


def install(report, folder):
    """Installs from a copy of the tree, twice, once below DESTDIR. Removes the copy."""
    for crate, file in BUILDS.items():
        if not file.exists():
            raise CannotRun(f"{file.relative_to(ROOT)} not found: `scripts/gate proofs bindings` builds it")
    tree = folder / "tree"
    copy_tree(tree)
    environment = {**os.environ, "XDG_CACHE_HOME": str(folder / "cache")}
    for crate, file in BUILDS.items():
        keep(crate, sources(crate, cwd=tree), file, cwd=tree, env=environment)
    keep_module(report, folder, tree, environment)
    words = {"into a folder": (folder / "prefix", {}), "again": (folder / "prefix", {}),
             "below DESTDIR": ("/usr", {"DESTDIR": str(folder / "root")})}
    for name, (prefix, more) in words.items():
        ran = run_command(tree / "scripts/install", prefix, env={**environment, **more}, cwd=folder)
        report.check(name, ran.returncode == 0, f"status {ran.returncode}{last_lines(said(ran))}")
        report.check(f"{name}: no proof", "proving" not in said(ran), said(ran))
    (folder / "file").touch()
    ran = run_command(tree / "scripts/install", folder / "file/prefix", env=environment, cwd=folder)
    right = ran.returncode == 1 and f"{folder}/file: not a folder that can be written to" in said(ran)
    report.check("into a file", right, f"status {ran.returncode}{last_lines(said(ran))}")
    for script, argument in (("install", "PREFIX"), ("release", "FOLDER")):
        for words, status in (([], 2), (["--help"], 0), (["--force"], 2), (["a", "b"], 2)):
            ran = run_command(tree / "scripts" / script, *words, cwd=folder)
            right = ran.returncode == status and f"usage: {script} [--target MACHINE] {argument}" in said(ran)
            report.check(f"{script}: words {words}", right, f"status {ran.returncode}{last_lines(said(ran))}")
        ran = run_command(tree / "scripts" / script, "--target", "riscv64", "a", cwd=folder)
        right = ran.returncode == 2 and "unknown target 'riscv64': expected aarch64 or x86_64" in said(ran)
        report.check(f"{script}: an unknown target", right, f"status {ran.returncode}{last_lines(said(ran))}")
    try_release(report, folder, tree, {**environment, "SOURCE_DATE_EPOCH": "1700000000"})
    shutil.rmtree(tree)


CMAKE = """cmake_minimum_required(VERSION 3.10)
project(example C)
find_package(nosgrivel {version} REQUIRED)
add_executable(shared {example})
target_link_libraries(shared nosgrivel::nosgrivel)
add_executable(static {example})
target_link_libraries(static nosgrivel::static)
"""


def try_release(report, folder, tree, environment):
    """Makes a release twice, unpacks it, runs a program of it in an empty environment, and removes what it holds."""
    for name in ("first", "second"):
        ran = run_command(tree / "scripts/release", folder / name, env=environment, cwd=folder)
        report.check(f"the {name} release", ran.returncode == 0, f"status {ran.returncode}{last_lines(said(ran))}")
    archive = f"nosgrivel-{VERSION}-x86_64-linux"
    one, two = (folder / name / f"{archive}.tar.gz" for name in ("first", "second"))
    if not one.exists() or not two.exists():
        return
    report.check("the releases are the same", one.read_bytes() == two.read_bytes(), "they differ")
    packages = [archive.parent / f"nosgrivel-{VERSION}.tgz" for archive in (one, two)]
    listed = text_of(run_command("tar", "-tf", packages[0]).stdout).split()
    report.check("the package", "package/nosgrivel.wasm" in listed and "package/LICENSE" in listed, f"holds {listed}")
    same = all(it.exists() for it in packages) and len({it.read_bytes() for it in packages}) == 1
    report.check("the packages are the same", same, "they differ")
    ran = run_command("sha256sum", "--check", "--strict", "SHA256SUMS", cwd=one.parent)
    report.check("the digest of a release", ran.returncode == 0, said(ran))
    run_command("tar", "-xf", one, cwd=folder)
    ran = run_command("env", "-i", folder / archive / "bin/wasmcanon", input=PADDED)
    report.check("a program of a release", (ran.returncode, ran.stdout) == (0, CANONICAL), said(ran))
    (folder / archive / "bin/another").touch()
    ran = run_command("env", "-i", "PATH=/bin:/usr/bin", folder / archive / "share/nosgrivel/uninstall")
    left = sorted(str(file.relative_to(folder / archive)) for file in (folder / archive).rglob("*"))
    report.check("a release is removed", ran.returncode == 0 and left == ["bin", "bin/another"], f"{left}{said(ran)}")


def try_files(it):
    """Compares the lists of files."""
    def below(folder):
        found = {str(file.relative_to(folder)) for file in folder.rglob("*") if not file.is_dir()}
        return sorted(name for name in found if not name.startswith("share/nosgrivel/rust/"))

    for folder in (it.prefix, it.room / "root/usr"):
        it.report.check(f"the files below {folder.name}", below(folder) == sorted(FILES), below(folder))


def try_programs(it):
    for name in PROGRAMS:
        file = it.prefix / "bin" / name
        told = run_command(file, "--version").stdout
        version = told.decode().partition(", written for ")[0].strip()  # wasmcanon also names the logic
        it.report.check(f"{name} --version", version == f"{name} {VERSION}", told)
        it.answers(f"{name} --help", [file, "--help"], f"{help_of(name)}\n".encode())
        page = it.prefix / "share/man/man1" / f"{name}.1"
        it.report.check(f"the options in {page.name}", options(help_of(name)) == options(unescaped(page)), "differ")
        if not lacks(it.report, "groff", "the manual pages aren't checked"):
            ran = run_command("groff", "-man", "-ww", "-z", page)
            it.report.check(f"the marks of {page.name}", not said(ran), said(ran))
    it.answers("wasmnorm", [it.prefix / "bin/wasmnorm", "module"], MINIMAL, input=LONGER)
    it.answers("wasmcanon", [it.prefix / "bin/wasmcanon"], CANONICAL, input=PADDED)


def try_completion(it):
    """Completes words of the command line in bash. Each option that the help names must be found."""
    script = it.prefix / "share/bash-completion/completions/wasmcanon"
    (it.room / "module.wasm").touch()
    complete = '. "$1"; COMP_WORDS=(wasmcanon "${@:2}"); COMP_CWORD=$(($# - 1)); _wasmcanon; echo "${COMPREPLY[*]}"'
    listed = {word.partition("=")[0].strip("'") for word in options(help_of("wasmcanon"))}
    told = run_command("bash", "-c", complete, "bash", script, "--", cwd=it.room).stdout.decode().split()
    it.report.check("completed options", set(told) == listed, f"differ: {sorted(set(told) ^ listed)}")
    for words, wanted in ((["--li"], "--list"), (["--check", "mod"], "module.wasm"), (["-o", "mod"], "module.wasm"),
                          (["--strip", "mod"], "")):
        it.answers(f"completed {' '.join(words)}", ["bash", "-c", complete, "bash", script, *words],
                   f"{wanted}\n".encode(), cwd=it.room)
    zsh = it.prefix / "share/zsh/site-functions/_wasmcanon"
    if not lacks(it.report, "zsh", "its completion isn't read"):
        it.answers("zsh -n", ["zsh", "-n", zsh], b"")
    fish = it.prefix / "share/fish/vendor_completions.d/wasmcanon.fish"
    if not lacks(it.report, "fish", "its completion isn't tried"):
        it.answers("fish: wasmcanon --li", ["fish", "-c", f"source {fish}; complete -C 'wasmcanon --li'"], b"--list\n")


def try_cmake(it, environment):
    """Builds the example against both libraries by CMake, and asks for versions that there aren't."""
    source, made = it.room / "cmake", it.room / "cmake/made"
    source.mkdir()
    for wanted, is_there in (("0.0.9", False), (VERSION, True), ("0.2", False), (VERSION.rpartition(".")[0], True)):
        text = CMAKE.format(version=wanted, example=it.prefix / "share/nosgrivel/example.c")
        (source / "CMakeLists.txt").write_text(text, "utf-8")
        ran = run_command("cmake", "-S", source, "-B", made, f"-DCMAKE_PREFIX_PATH={it.prefix}", env=environment)
        it.report.check(f"cmake: version {wanted}", (ran.returncode == 0) == is_there, said(ran))
    if it.expect("the examples by cmake", "cmake", "--build", made):
        for kind in ("shared", "static"):
            fault = fault_of_example(made / kind, env=environment)
            it.report.check(f"the example by cmake, {kind}: its answers", not fault, fault)


def options(text):
    return {word.strip("[]`,.;:") for word in text.split() if word.startswith("--")}


def unescaped(page):
    text = page.read_text("utf-8")
    for mark, plain in (("\\fB", ""), ("\\fR", ""), ("\\-", "-"), ("\\e", "\\")):
        text = text.replace(mark, plain)
    return text


def try_c(it):
    """Builds the example against both libraries, as C and as C++, with the words of pkg-config. The folder was moved
    after the installation."""
    library = it.prefix / "lib"
    found = {name: value for name, value in os.environ.items() if name != "LD_LIBRARY_PATH"}
    found["PKG_CONFIG_PATH"] = str(library / "pkgconfig")
    words = [f"-I{it.prefix}/include", f"-L{library}", f"-Wl,-rpath,{library}", "-lnosgrivel"]
    if not lacks(it.report, "pkg-config", "the words for the compiler aren't checked"):
        it.answers("pkg-config --modversion", ["pkg-config", "--modversion", "nosgrivel"], f"{VERSION}\n".encode(),
                   env=found)
        asked = run_command("pkg-config", "--cflags", "--libs", "nosgrivel", env=found)
        told = [word.replace("/lib/pkgconfig/../..", "") for word in text_of(asked.stdout).split()]
        it.report.check("pkg-config --cflags --libs", told == words, said(asked))
    archive = [words[0], it.prefix / "lib/libnosgrivel.a"]
    for compiler, language in (("cc", "c"), ("c++", "c++")):
        if lacks(it.report, compiler, f"the example isn't built by {compiler}"):
            continue
        flags = FLAGS[1:-2] + (["-std=c11"] if language == "c" else [])
        source = ["-x", language, it.prefix / "share/nosgrivel/example.c", "-x", "none"]
        for kind, linked in (("shared", words), ("static", archive)):
            name, example = f"the example in {language}, {kind}", it.room / f"example-{language}-{kind}"
            if it.expect(name, compiler, *flags, "-o", example, *source, *linked):
                fault = fault_of_example(example, env=found)
                it.report.check(f"{name}: its answers", not fault, fault)
    if not lacks(it.report, "cmake", "its package isn't tried"):
        try_cmake(it, found)
    if not lacks(it.report, "readelf", "the shared library isn't read"):
        read = text_of(run_command("readelf", "-Wd", "--dyn-syms", it.prefix / "lib/libnosgrivel.so").stdout)
        named = f"soname: [libnosgrivel.so.{VERSION.rpartition('.')[0]}]" in read
        it.report.check("the name in the shared library", named, read[:2000])
        ours = {line.split()[7] for line in read.splitlines() if " GLOBAL DEFAULT " in line and " UND " not in line}
        others = sorted(name for name in ours if not name.startswith("nosgrivel_"))
        it.report.check("the names of the shared library", ours and not others, f"others: {others}")


def try_rust(it):
    """Tests the installed crate where it is, and runs a crate that depends on it."""
    target = {**os.environ, "CARGO_TARGET_DIR": str(it.room / "target")}
    target.pop("NOSGRIVEL_LIB_DIR", None)
    crate, user = it.prefix / "share/nosgrivel/rust", it.room / "user"
    it.expect("the tests in Rust", "cargo", "test", "--offline", "--tests", cwd=crate, env=target)
    (user / "src").mkdir(parents=True)
    (user / "Cargo.toml").write_text('[package]\nname = "user"\nversion = "0.0.0"\nedition = "2021"\n\n'
                                     f'[dependencies]\nnosgrivel = {{ path = "{crate}" }}\n', "utf-8")
    shutil.copy(crate / "examples/normalise.rs", user / "src/main.rs")
    (it.room / "longer.wasm").write_bytes(LONGER)
    it.answers("a program in Rust", ["cargo", "run", "--offline", "--quiet", "--", it.room / "longer.wasm"], MINIMAL,
               cwd=user, env=target)


def run(report):
    with room() as folder:
        it = Prefix(report, folder)
        install(report, folder)
        try_files(it)
        try_programs(it)
        try_completion(it)
        it.move()
        try_c(it)
        if not lacks(report, "cargo", "the tests in Rust"):
            try_rust(it)
