"""The launchers bin/wasmnorm and bin/wasmcanon, and scripts/c-library: when they prove, their messages and arguments.

They run in a small repository of their own, with stand-ins for rt and scripts/trial that prove nothing: they log their
calls, and build a program that writes its first argument and its sources.
"""
import os
import pty
import re
import shutil
import time

from parts.common import HELP, ROOT, VERSION, help_of, kit, lacks, read_terminal, room, run as run_command

USAGE = "usage: wasmnorm calls|types|module"
# The status of a launcher that can't build its program.
NOT_BUILT = 125
# Seconds after which stamps are kept: by the launcher's clock of whole seconds, they are then more than one second old.
UNTIL_STAMPS_ARE_KEPT = 2.1

# The stand-in for rt. It sources the file `edit` during a build, if that file exists.
STAND_IN = r"""#!/bin/bash
room='{room}'
echo "$1 ${{PWD##*/}}" >>"$room/calls"
sources() {{ cat src/main.rt ../low/src/*.rt | tr -d '\n'; }}
case $1 in
    version) cat "$room/kit/version" ;;
    doc) echo "{kit}/START-HERE.md" ;;
    lib)
        [ ! -e "$room/no_proof" ] || {{ echo "not proved"; exit 1; }}
        [ "${{PWD##*/}}" = nosgrivel_c ] || exit 0
        echo "int nosgrivel_call(void) {{ return 0; }}" | cc -x c -c -o out/one.o -
        ar rcs out/libnosgrivel_c.a out/one.o
        [ ! -e "$room/edit" ] || . "$room/edit" ;;
    run)
        mkdir -p out
        printf '#!/bin/sh\ncat >/dev/null\necho "$1 of %s"\n' "$(sources)" >"out/${{PWD##*/}}"
        chmod +x "out/${{PWD##*/}}"
        [ ! -e "$room/edit" ] || . "$room/edit" ;;
esac
"""

# The stand-in for scripts/trial --keep. It keeps nothing if it is to say why.
TRIAL = r"""#!/bin/bash
room='{room}'
echo "try $3" >>"$room/calls"
echo "$*" >"$room/try"
cd "crates/$3"
if [ -s "$room/trial.err" ]; then
    cat "$room/trial.err" >&2
    exit 1
fi
sources=$(cat src/main.rt ../low/src/*.rt | tr -d '\n')
printf '#!/bin/sh\necho "unproved %s: $*: $PWD: $(cat)"\nexit 7\n' "$sources" >"$2"
chmod 755 "$2"
[ ! -e "$room/edit" ] || . "$room/edit"
"""

# The files of the small repository, beside copies of the launchers and of what they read.
FILES = {
    "bench/linked_json.wasm": "a module",
    "crates.txt": "low: thiserror\nwasmnorm: low\nwasmcanon: low clap\nother: low\n",
    "crates/wasmnorm/src/main.rt": "A",
    "crates/low/src/lib.rt": "1",
    "crates/low/specs/Lib.antt": "definition",
    "crates/low/proofs/Lib.antt": "law",
    "crates/other/src/lib.rt": "X",
    "crates/wasmcanon/src/main.rt": "C",
    "crates/nosgrivel_c/src/lib.rt": "S",
}
COPIED = ["bin/launch.bash", "bin/stamps.sh", "bin/wasmnorm", "bin/wasmcanon", "scripts/builds.bash",
          "scripts/c-library", "scripts/targets.bash", "VERSION", *HELP.values()]


class Launchers:
    """The small repository, and the last run of a launcher: its status, its outputs, and the calls of rt."""

    def __init__(self, report, folder):
        self.report, self.room, self.root = report, folder, folder / "clone"
        # The user's cache, which is emptied before each run unless keeps_cache is set.
        self.cache, self.keeps_cache = folder / "cache", False
        self.path = f"{folder}/kit:{os.environ['PATH']}"
        self.status, self.out, self.err, self.calls = 0, "", "", []
        self.put(folder / "kit/version", "kit 1 logic 1\n")
        self.put(folder / "kit/rt", STAND_IN.format(room=folder, kit=kit()))
        self.write("scripts/trial", TRIAL.format(room=folder))
        for file in (folder / "kit/rt", self.root / "scripts/trial"):
            file.chmod(0o755)
        self.refuses("")
        for name, text in FILES.items():
            self.write(name, text)
        for name in COPIED:
            (self.root / name).parent.mkdir(parents=True, exist_ok=True)
            shutil.copy(ROOT / name, self.root / name)

    def put(self, file, text):
        file.parent.mkdir(parents=True, exist_ok=True)
        file.write_text(text, "utf-8")

    def write(self, name, text):
        self.put(self.root / name, text)

    def refuses(self, text):
        """Sets why scripts/trial keeps no program."""
        self.put(self.room / "trial.err", text)

    def launch(self, *words, program="wasmnorm", launcher=None, **more):
        """Runs a launcher in the room, with `more` in its environment."""
        calls = self.room / "calls"
        calls.write_text("", "utf-8")
        if not self.keeps_cache:
            shutil.rmtree(self.cache, ignore_errors=True)
        environment = {**os.environ, "PATH": self.path, "PWD": str(self.room), "XDG_CACHE_HOME": str(self.cache)}
        command = launcher or self.root / "bin" / program
        ran = run_command(command, *words, input=b"bytes", cwd=self.room, env={**environment, **more})
        self.status, self.calls = ran.returncode, calls.read_text("utf-8").splitlines()
        self.out, self.err = (text.decode("utf-8", "replace").rstrip("\n") for text in (ran.stdout, ran.stderr))

    def check(self, name, right):
        why = f"status {self.status}, output {self.out!r}, error {self.err!r}, rt: {'; '.join(self.calls)}"
        self.report.check(name, right, why)

    def answers(self, name, status, out):
        self.check(name, (self.status, self.out) == (status, out))

    def says(self, name, text):
        self.check(name, re.search(text, self.err, re.MULTILINE))

    def complains(self, name, text):
        self.check(name, self.err == text)

    def is_silent(self, name):
        self.check(name, not self.calls)

    def proves(self, name):
        self.check(name, any(call.startswith(("lib", "run")) for call in self.calls))

    def proves_nothing(self, name):
        self.check(name, not any(call.startswith(("lib", "run")) for call in self.calls))

    def builds(self, name, *calls):
        """Checks the calls of rt, in their order, without those that ask for its version."""
        self.check(name, [call for call in self.calls if "version" not in call] == list(calls))

    def tried(self, name, program):
        """Checks the words of scripts/trial."""
        words = f"--keep {self.root}/crates/{program}/out/unproved/next {program}"
        self.check(name, (self.room / "try").read_text("utf-8").rstrip("\n") == words)

    def leaves_nothing(self, name):
        self.check(name, not list((self.root / "crates/wasmnorm/out").rglob("*next*")))

    def fits(self, name):
        self.check(name, all(len(line) <= 80 for line in self.out.splitlines()))

    def stays(self, name, sources):
        """Runs the program, which has these sources, without a proof before it."""
        self.launch("calls")
        self.answers(name, 0, f"calls of {sources}")
        self.proves_nothing(f"{name}: no proof")

    def proves_again(self, name, sources):
        """Runs the program, which has these sources, with a proof before it."""
        self.launch("calls")
        self.answers(name, 0, f"calls of {sources}")
        self.proves(f"{name}: a proof")


def words(it):
    for program in ("wasmnorm", "wasmcanon"):
        for option in ("--help", "-h"):
            it.launch(option, program=program)
            name = f"{program} {option}"
            it.check(name, it.status == 0)
            it.check(f"{name}: the text of the source", begins_with_help_of_the_source(it, program))
            it.check(f"{name}: the usage", re.search(f"^Usage: {program} .*$", it.out, re.MULTILINE))
            it.check(f"{name}: the statuses", re.search("^  [45]  .*\n  125  .*$", it.out, re.MULTILINE))
            it.check(f"{name}: no code", not re.search('";$|^const', it.out, re.MULTILINE))
            it.fits(f"{name}: lines of 80 columns")
            it.is_silent(f"{name}: no rt")
        for option in ("--version", "-V"):
            it.launch(option, program=program)
            it.answers(f"{program} {option}", 0, f"{program} {VERSION}, not built yet")
            it.is_silent(f"{program} {option}: no rt")
    for wrong in ([], [""], ["instructions"], ["calls", "calls"], ["calls", "x"], ["x", "calls"], [b"\xff"],
                  ["--help", "calls"], ["--unproved"], ["--unproved", "x"], ["calls", "--unproved"],
                  ["--unproved", "calls", "x"], ["--unproved calls"]):
        it.launch(*wrong)
        it.answers(f"words {wrong}", 2, "")
        it.complains(f"words {wrong}: the usage", USAGE)
        it.is_silent(f"words {wrong}: no rt")


def begins_with_help_of_the_source(it, program):
    text = help_of(program).splitlines()
    return len(text) > 20 and it.out.splitlines()[:len(text)] == text


def first_use(it):
    it.put(it.room / "no_proof", "")
    it.launch("calls")
    it.answers("a failed proof", NOT_BUILT, "")
    it.says("a failed proof: the output of rt", "not proved")
    (it.room / "no_proof").unlink()
    it.launch("calls")
    it.answers("the first use", 0, "calls of A1")
    it.builds("the first use: the crates in order", "lib low", "run wasmnorm")
    it.says("the first use: how long", "15 minutes")
    it.says("the first use: progress", "^wasmnorm: 1 of 2: low\nwasmnorm: 2 of 2: wasmnorm$")
    it.launch("types")
    it.answers("the second use", 0, "types of A1")
    it.complains("the second use: nothing said", "")
    it.proves_nothing("the second use: no proof")
    it.launch("--version")
    it.answers("--version once built", 0, f"wasmnorm {VERSION}, proved with kit 1 logic 1")


def unchanged(it):
    """Once the stamps are kept, rt isn't called at all."""
    time.sleep(UNTIL_STAMPS_ARE_KEPT)
    it.stays("old times are noted", "A1")
    it.launch("calls")
    it.answers("unchanged", 0, "calls of A1")
    it.is_silent("unchanged: no rt")
    it.root = it.root.rename(it.room / "moved")
    it.launch("calls")
    it.answers("a moved clone", 0, "calls of A1")
    it.is_silent("a moved clone: no rt")
    moved, it.root = it.root, it.room / "copy"
    run_command("cp", "-r", moved, it.root, check=True)
    it.stays("a copied clone", "A1")
    it.root = moved
    (it.room / "link").symlink_to(it.root / "bin/wasmnorm")
    it.launch("calls", launcher=it.room / "link")
    it.answers("through a link", 0, "calls of A1")
    for file in [*it.root.glob("crates/*/src/*.rt"), it.root / "crates.txt"]:
        file.touch()
    it.stays("touched files", "A1")
    shutil.copy(it.root / "crates/low/src/lib.rt", it.room / "new")
    (it.room / "new").replace(it.root / "crates/low/src/lib.rt")
    it.stays("an equal file in the place of a file", "A1")
    it.write("crates/other/src/lib.rt", "Y")
    it.stays("a file of another crate", "A1")
    with (it.root / "crates.txt").open("a") as listed:
        listed.write("# a comment\n")
    it.stays("a comment in crates.txt", "A1")


def same_time(text, it):
    """A file with this text and the times of a source."""
    (it.room / "old").write_text(text, "utf-8")
    shutil.copystat(it.root / "crates/low/src/lib.rt", it.room / "old")
    return it.room / "old"


def changed_files(it):
    low = it.root / "crates/low/src/lib.rt"
    it.write("crates/wasmnorm/src/main.rt", "B")
    it.proves_again("a changed file", "B1")
    low.write_text("2", "utf-8")
    os.utime(low, (978307200, 978307200))
    it.proves_again("a changed file that is older", "B2")
    time.sleep(UNTIL_STAMPS_ARE_KEPT)
    it.stays("old times again", "B2")
    run_command("cp", "-p", same_time("3", it), low, check=True)
    it.proves_again("a file that is restored with the same time and length", "B3")
    time.sleep(UNTIL_STAMPS_ARE_KEPT)
    it.stays("old times once more", "B3")
    same_time("4", it).replace(low)
    it.proves_again("a file that is moved in with the same time and length", "B4")


def changed_trees(it):
    it.write("crates/low/src/more.rt", "5")
    it.proves_again("an added file", "B45")
    (it.root / "crates/low/src/more.rt").unlink()
    it.proves_again("a removed file", "B4")
    (it.root / "crates/low/specs/Lib.antt").rename(it.root / "crates/low/specs/More.antt")
    it.proves_again("a renamed file", "B4")
    it.write("crates/low/proofs/Lib.antt", "another law")
    it.stays("another proof of what was proved", "B4")
    it.write("crates.txt", "low: thiserror\nwasmnorm: low other\nwasmcanon: low clap\nother: low\n")
    it.proves_again("a crate more", "B4")
    it.check("a crate more: it is proved", "lib other" in it.calls)
    it.put(it.room / "kit/version", "kit 2 logic 1\n")
    (it.room / "kit/rt").touch()
    it.proves_again("another kit", "B4")
    it.put(it.room / "edit", "printf 6 >../low/src/lib.rt\n")
    it.write("crates/low/src/lib.rt", "5")
    it.launch("calls")
    it.answers("an edit during the proof", NOT_BUILT, "")
    (it.room / "edit").unlink()
    it.proves_again("after an edit during the proof", "B6")


def changes_of_stamps(it):
    """Once the stamps are kept, a change of the trees is seen all the same."""
    added, handles = it.root / "crates/low/src/it's more.rt", it.root / "HANDLES"
    definition = it.root / "crates/low/specs/More.antt"
    for name, change, before, after in (
            ("a file that is added beside kept stamps", lambda: added.write_text("5"), "B6", "B56"),
            ("HANDLES that is added beside kept stamps", lambda: handles.write_text("none"), "B56", "B56"),
            ("a file that is removed beside kept stamps", added.unlink, "B56", "B6"),
            ("a definition that changes beside kept stamps", lambda: definition.write_text("other"), "B6", "B6")):
        time.sleep(UNTIL_STAMPS_ARE_KEPT)
        it.stays(f"before {name}", before)
        it.launch("calls")
        it.is_silent(f"before {name}: no rt")
        change()
        it.proves_again(name, after)
    handles.unlink()
    it.proves_again("HANDLES that is removed", "B6")


def without_kit(it):
    path, it.path = it.path, "/usr/bin:/bin"
    if not shutil.which("rt", path=it.path):
        it.launch("calls")
        it.answers("without the kit", 0, "calls of B6")
        it.write("crates/low/src/lib.rt", "7")
        it.launch("calls")
        it.answers("changed, without the kit", NOT_BUILT, "")
    it.path = path


def unproved(it):
    """Runs bin/wasmnorm without proof. The launcher exits with the program's status, which is 7."""
    it.write("crates/low/src/lib.rt", "6")
    it.launch("--unproved", "module")
    it.answers("unproved, the first use", 7, f"unproved B6: module: {it.room}: bytes")
    it.says("unproved, the first use: it says so", "without proof: running the sources as they are")
    it.says("unproved, the first use: what it does", "building all crates without proof")
    it.builds("unproved, the first use: no proof", "try wasmnorm")
    it.tried("unproved, the first use: the trial", "wasmnorm")
    it.leaves_nothing("unproved, the first use: no other file is left")
    it.launch("--unproved", "types")
    it.answers("unproved, the second use", 7, f"unproved B6: types: {it.room}: bytes")
    it.complains("unproved, the second use: it says so", "wasmnorm: without proof: running the sources as they are")
    it.proves_nothing("unproved, the second use: no build")
    it.stays("proved, once it ran without proof", "B6")
    it.write("crates/low/src/lib.rt", "7")
    it.launch("--unproved", "calls")
    it.answers("unproved, a changed file", 7, f"unproved B7: calls: {it.room}: bytes")
    it.builds("unproved, a changed file: a build", "try wasmnorm")
    it.proves_again("proved, after a build without proof", "B7")


def failures_unproved(it):
    it.write("crates/low/src/lib.rt", "8")
    it.refuses("error: a name\nrun=none proved=no\n")
    fails_unproved(it, "a refused crate")
    it.says("unproved, a refused crate: the output of rt", "error: a name")
    it.refuses("")
    it.put(it.room / "edit", "printf 9 >../low/src/lib.rt\n")
    fails_unproved(it, "an edit during the build")
    (it.room / "edit").unlink()
    it.launch("--unproved", "calls")
    it.answers("unproved, after an edit during the build", 7, f"unproved B9: calls: {it.room}: bytes")


def fails_unproved(it, name):
    it.launch("--unproved", "calls")
    it.answers(f"unproved, {name}", NOT_BUILT, "")
    it.builds(f"unproved, {name}: no proof", "try wasmnorm")
    it.leaves_nothing(f"unproved, {name}: no other file is left")


def runs_of_wasmcanon(it):
    """The launcher passes all arguments, and runs the program in the folder of the caller."""
    it.launch("--check", "file", program="wasmcanon")
    it.answers("wasmcanon, the first use", 0, "--check of C9")
    it.builds("wasmcanon, the first use: the crates in order", "lib low", "run wasmcanon")
    it.write("crates/wasmcanon/out/kept/wasmcanon", '#!/bin/sh\npwd\necho "$#: $2: $GLIBC_TUNABLES"\n')
    it.launch("a", "b c", "", program="wasmcanon")
    it.answers("wasmcanon, its arguments and its folder", 0, f"{it.room}\n3: b c: glibc.malloc.hugetlb=1")
    it.launch("a", "b c", program="wasmcanon", GLIBC_TUNABLES="")
    it.answers("wasmcanon, another environment", 0, f"{it.room}\n2: b c: ")
    it.proves_nothing("wasmcanon, the second use: no proof")
    it.complains("wasmcanon, the second use: no message", "")
    it.launch("--unproved", "--diff", "a b", "-", program="wasmcanon")
    it.answers("wasmcanon unproved, the first use", 7, f"unproved C9: --diff a b -: {it.room}: bytes")
    it.builds("wasmcanon unproved, the first use: no proof", "try wasmcanon")
    it.tried("wasmcanon unproved, the first use: the trial", "wasmcanon")
    it.launch("--unproved", program="wasmcanon")
    it.answers("wasmcanon unproved, no arguments", 7, f"unproved C9: : {it.room}: bytes")
    it.proves_nothing("wasmcanon unproved, the second use: no build")
    it.launch("a", "--unproved", "b", program="wasmcanon")
    it.answers("wasmcanon, a later --unproved", 0, f"{it.room}\n3: --unproved: glibc.malloc.hugetlb=1")


def caches(it):
    """Another clone takes what one clone proved. Nothing else is taken."""
    it.keeps_cache = True
    it.put(it.root / "HANDLES", "Handles allowed: none.\n")
    it.proves_again("a first clone", "B9")
    first, it.root = it.root, it.room / "second"
    shutil.copytree(first, it.root, ignore=shutil.ignore_patterns("out"))
    it.stays("a second clone", "B9")
    it.says("a second clone: it says so", "^wasmnorm: taken from the cache: .* with kit 2 logic 1$")
    it.builds("a second clone: no call of rt")
    it.launch("--version")
    it.answers("a second clone: the kit", 0, f"wasmnorm {VERSION}, proved with kit 2 logic 1")
    it.launch("--check", program="wasmcanon")
    it.proves("another program of the second clone: a proof")
    it.write("crates/low/src/lib.rt", "0")
    it.proves_again("a changed clone", "B0")
    it.write("crates/low/src/lib.rt", "9")
    it.stays("the clone as it was", "B9")
    it.put(it.root / "HANDLES", "Handles allowed: Threads.\n")
    it.proves_again("other handles", "B9")
    it.put(it.room / "kit/version", "kit 3 logic 1\n")
    (it.room / "kit/rt").touch()
    it.proves_again("another kit for the clone", "B9")
    found = [sorted(file.name for file in entry.iterdir()) for entry in (it.cache / "nosgrivel").iterdir()]
    it.check(f"complete entries of the cache: {found}", found == [["build", "sources"]] * 5)


def damaged_caches(it):
    third = it.room / "third"
    for name, damage in {"cut": lambda entry: os.truncate(entry / "build", 20),
                         "of other sources": lambda entry: it.put(entry / "sources", "kit 3 logic 1\n0\n0\n"),
                         "without sources": lambda entry: (entry / "sources").unlink()}.items():
        for entry in (it.cache / "nosgrivel").glob("wasmnorm-*"):
            damage(entry)
        clone(it, third)
        it.proves_again(f"an entry of the cache that is {name}", "B9")
        clone(it, third)
        it.stays(f"an entry of the cache that was {name}", "B9")
    shutil.rmtree(it.cache)
    it.put(it.cache, "a file")
    clone(it, third)
    it.proves_again("no folder for a cache", "B9")
    clone(it, third)
    it.launch("calls", XDG_CACHE_HOME="", HOME=str(it.room / "home"))
    it.check("the cache in the home", len(list(it.room.glob("home/.cache/nosgrivel/wasmnorm-*"))) == 1)
    clone(it, third)
    it.launch("calls", XDG_CACHE_HOME="cache", HOME=str(it.room / "home"))
    it.proves_nothing("a relative folder of caches: the home")
    it.cache.unlink()
    it.put(it.room / "edit", "printf 7 >../low/src/lib.rt\n")
    clone(it, third)
    it.launch("calls")
    it.check("an edit during the proof: no entry of the cache", it.status == NOT_BUILT and not it.cache.exists())
    (it.room / "edit").unlink()
    it.launch("--unproved", "calls")
    it.check("unproved: no entry of the cache", it.status == 7 and not it.cache.exists())


def libraries(it):
    """scripts/c-library takes what another clone proved, too."""
    if lacks(it.report, "cc", "the cache of scripts/c-library"):
        return
    with (it.room / "second/crates.txt").open("a") as listed:
        listed.write("nosgrivel_c staticlib: low\n")

    def build():
        it.launch("lib", launcher=it.root / "scripts/c-library")
        return it.status == 0 and (it.room / "lib/libnosgrivel.a").stat().st_size > 0

    clone(it, it.room / "third")
    it.put(it.room / "edit", "printf 5 >../low/src/lib.rt\n")
    it.check("c-library: an edit during the proof", not build() and not list(it.cache.rglob("build")))
    (it.room / "edit").unlink()
    it.check("c-library", build())
    it.builds("c-library: a proof", "doc third", "lib nosgrivel_c")
    clone(it, it.room / "fourth")
    it.write("crates/low/src/lib.rt", "5")
    it.check("c-library in another clone", build())
    it.builds("c-library in another clone: no proof", "doc fourth")
    it.says("c-library in another clone: it says so", "^c-library: taken from the cache: .* with kit 3 logic 1$")
    it.write("crates/nosgrivel_c/src/lib.rt", "T")
    it.check("c-library in a changed clone", build())
    it.proves("c-library in a changed clone: a proof")
    for words, status, message in ((["--help"], 0, ""), (["--force"], 2, "usage: c-library"),
                                   (["a", "b"], 2, "usage: c-library"), (["--target"], 2, "usage: c-library"),
                                   (["--target", "riscv64"], 2, "unknown target 'riscv64': expected aarch64 or x86_64"),
                                   (["--target=aarch64"], 1, "missing not found: name a C compiler for aarch64 in CC")):
        it.launch(*words, launcher=it.root / "scripts/c-library", CC="missing")
        it.check(f"c-library {words}", it.status == status and message in it.err)
        it.proves_nothing(f"c-library {words}: no proof")


def clone(it, root):
    """Makes a new clone of the second one."""
    shutil.rmtree(root, ignore_errors=True)
    shutil.copytree(it.room / "second", root, ignore=shutil.ignore_patterns("out"))
    it.root = root


def on_a_terminal(it):
    """On a terminal, progress is a line that is written again each second."""
    shutil.rmtree(it.root / "crates/wasmnorm/out", ignore_errors=True)
    terminal, error = pty.openpty()
    environment = {**os.environ, "PATH": it.path, "XDG_CACHE_HOME": str(it.cache)}
    run_command(it.root / "bin/wasmnorm", "--unproved", "calls", stderr=error, env=environment)
    os.close(error)
    it.err = read_terminal(terminal).decode("utf-8", "replace")
    line = r"\rwasmnorm: building all crates without proof: "
    it.says("progress on a terminal", rf"{line}0 s({line}\d+ s)*\r\n")


def run(report):
    with room() as folder:
        it = Launchers(report, folder)
        for use in (words, first_use, unchanged, changed_files, changed_trees, changes_of_stamps, without_kit, unproved,
                    failures_unproved, runs_of_wasmcanon, caches, damaged_caches, libraries, on_a_terminal):
            use(it)
