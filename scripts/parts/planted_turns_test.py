"""Cases for the choice by turns: the choice from names and numbers, and what landings say of a small repository."""
import shutil

from parts.common import CannotRun, room, run
from parts.landed import add
from parts.planted_kit import Fault
from parts.planted_turns import LANDINGS, TURNS, Turn, by_turns, group_of, landings_of, turn_of

NAMES = {f"crate_{number}": number + 1 for number in range(40)}
GIT = ["git", "-c", "user.name=Test", "-c", "user.email=test@example.org", "-c", "commit.gpgsign=false",
       "-c", "core.hooksPath=/dev/null"]
UNKNOWN = "0123456789" * 4
FILES = {
    ".gitignore": "*.orig\n",
    "crates.txt": "# Crates.\nlow:\nmid: low\ntop: mid low\n",
    "crates/low/src/lib.rt": "//! The lowest crate.\n",
    "crates/mid/src/lib.rt": "//! The crate in the middle.\n",
    "crates/top/src/main.rt": "fn main() {}\n",
    "crates/top/stdout": "",
    "scripts/gate": "",
}
# Changes since a landing, each a file and its text, and the crates that changed.
CHANGES = [
    ("crates/low/src/lib.rt", "//! Another text.\n", {"low"}),
    ("crates/mid/src/more/new.rt", "", {"mid"}),
    ("crates/mid/specs/Lib.antt", "", {"mid"}),
    ("crates/low/proofs/Laws.antt", "", {"low"}),
    ("crates/top/planted.edits", "", {"top"}),
    ("crates/top/must-fail/one.edit", "", {"top"}),
    ("crates.txt", "# Crates.\nlow:\nmid:\ntop: mid low\n", {"mid"}),
    ("crates.txt", "# Other words.\nlow:  # The lowest.\nmid: low\ntop: mid low\n", set()),
    ("crates/top/stdout", "1\n", set()),
    ("crates/low/src/lib.rt.orig", "", set()),
    ("scripts/new", "", set()),
]


class Repository:
    """A repository in a temporary folder."""

    def __init__(self, root):
        self.root = root
        for path, text in FILES.items():
            self.write(path, text)
        self.git("init", "-q")

    def git(self, *words):
        ran = run(*GIT, *words, cwd=self.root, check=True)
        return ran.stdout.decode("utf-8").strip()

    def write(self, path, text):
        (self.root / path).parent.mkdir(parents=True, exist_ok=True)
        (self.root / path).write_text(text, "utf-8")

    def commit(self):
        """Commits all files, and returns the hash."""
        self.git("add", "-A")
        self.git("commit", "-q", "--allow-empty", "-m", "A commit")
        return self.git("rev-parse", "HEAD")

    def land(self, *landings):
        self.write(LANDINGS, "\n".join(["# Landings.", *landings, ""]))

    def why_all(self):
        return turn_of(self.root).why_all


def fault_of(kind, call, *words):
    """What the call says is wrong, if it says so."""
    try:
        call(*words)
    except kind as fault:
        return str(fault)
    return ""


def choices():
    """The cases for the choice from names and numbers, each a name and whether it is right."""
    for first in range(TURNS):
        tried = [by_turns(NAMES, (), landings) for landings in range(first, first + TURNS)]
        yield f"each crate once in {TURNS} turns from {first}", sorted(sum(tried, [])) == sorted(NAMES)
        yield f"crates in turn {first}", tried[0] != []
        some, fewer = {"crate_3", "crate_4", "crate_5"}, [name for name in NAMES if name != "crate_7"]
        yield f"changed crates in turn {first}", some <= {*by_turns(NAMES, some, first)}
        yield f"a new crate moves no other in turn {first}", by_turns(fewer, (), first) == [
            name for name in tried[0] if name != "crate_7"]
    yield "all crates if nothing can be compared", Turn(why_all="why").chosen(NAMES) == [*NAMES]
    yield "no line on the others if all crates are tried", not Turn(why_all="why").left(NAMES)
    turn = Turn(8, UNKNOWN, frozenset({"crate_3"}))
    left = [name for name in NAMES if name not in turn.chosen(NAMES)]
    line = turn.left(NAMES)
    yield "the line names each other crate", all((f"{it} ({NAMES[it]})" in line) == (it in left) for it in NAMES)
    yield "the line counts the edits", line.startswith(f"not tried: {sum(NAMES[it] for it in left)} edits; ")
    next_ones = ", ".join(f"{it} ({NAMES[it]})" for it in left if group_of(it) == 9 % TURNS)
    yield "the line says when", f"; after 1 landing at the latest: {next_ones}; after 2 " in line
    yield "the line says how to try all", line.endswith("; `scripts/gate planted --all` tries all")
    yield "a landing that is no hash", fault_of(Fault, landings_of, f"# No\n{UNKNOWN}\n{UNKNOWN[:12]}\n") == (
        f"{LANDINGS}:3: expected the full hash of a commit, found {UNKNOWN[:12]}")


def comparisons(folder):
    """The cases for what changed since the last landing."""
    it = Repository(folder / "one")
    yield "no landings", it.why_all() == f"{LANDINGS} lists no landing"
    base = it.commit()
    it.land(UNKNOWN, base)
    it.commit()
    found = turn_of(it.root)
    yield "nothing changed", (found.landings, found.base, found.changed, found.why_all) == (2, base, frozenset(), "")
    for path, text, changed in CHANGES:
        it.write(path, text)
        yield f"{path} changed", turn_of(it.root).changed == changed
        it.commit()
        yield f"{path} changed by a commit", turn_of(it.root).changed == changed
        it.git("reset", "-q", "--hard", "HEAD~1")
    shutil.move(it.root / "crates/low/src/lib.rt", it.root / "crates/mid/src/low.rt")
    yield "a moved file", turn_of(it.root).changed == {"low", "mid"}
    it.commit()
    yield "a moved file in a commit", turn_of(it.root).changed == {"low", "mid"}
    run("git", "clone", "-q", "--depth", "1", f"file://{it.root}", folder / "shallow", check=True)
    why = f"{base}, the last line of {LANDINGS}, isn't a commit of this clone"
    yield "a shallow clone", turn_of(folder / "shallow").why_all == why
    other = it.git("commit-tree", "-m", "Another commit", "HEAD^{tree}")
    it.land(base, other)
    yield "a commit beside HEAD", it.why_all() == f"{other}, the last line of {LANDINGS}, isn't an ancestor of HEAD"


def additions(folder):
    """The cases for landings that the gate adds."""
    it = Repository(folder / "two")
    first = it.commit()
    it.write("crates/low/src/lib.rt", "")
    yield "a landing beside a change", "uncommitted" in fault_of(CannotRun, add, it.root)
    it.git("reset", "-q", "--hard")
    yield "the first landing", (add(it.root), landings_of((it.root / LANDINGS).read_text("utf-8"))) == (first, [first])
    second = it.commit()
    yield "the second landing", (add(it.root), turn_of(it.root).landings, turn_of(it.root).base) == (second, 2, second)
    yield "a landing that is listed", fault_of(CannotRun, add, it.root) == f"{LANDINGS}: {second} is listed already"


def cases():
    """The cases, each a name and whether it is right."""
    yield from choices()
    with room() as folder:
        for name in ("one", "two"):
            (folder / name).mkdir()
        yield from comparisons(folder)
        yield from additions(folder)
