"""Whose planted edits are tried: those of the crates that changed since the last landing, and the others by turns.

A landing is a commit of main that the gate passed. scripts/landings lists the landings, oldest first.
"""
import dataclasses
import pathlib
import re
import zlib

from parts.common import run, text_of
from parts.planted_kit import Fault

LANDINGS = "scripts/landings"
# After so many landings, each crate has had its turn.
TURNS = 5
# Goes in front of a crate's name. With this number, the turns have about as many edits each. Another number would move
# crates out of their turn.
SALT = 281
# A crate has changed if one of these files or folders has, or its line of crates.txt.
WATCHED = ("src", "specs", "proofs", "planted.edits", "must-fail")


def landings_of(text):
    """The commits that the file of landings lists."""
    rows = [(number, row) for number, row in enumerate(text.splitlines(), 1) if row and not row.startswith("#")]
    for number, row in rows:
        if not re.fullmatch("[0-9a-f]{40}", row):
            raise Fault(f"{LANDINGS}:{number}: expected the full hash of a commit, found {row}")
    return [row for _, row in rows]


def group_of(name):
    """The turn of a crate, from 0. It depends on the name alone, so a new crate moves no other one."""
    return zlib.crc32(f"{SALT}{name}".encode()) % TURNS


def landings_until(name, landings):
    """How many landings come before the turn of a crate, after so many."""
    return (group_of(name) - landings) % TURNS


def by_turns(names, changed, landings):
    """The crates to try after so many landings: those that changed, and those whose turn it is."""
    return [it for it in names if it in changed or not landings_until(it, landings)]


def crate_lines(text):
    """The lines of crates.txt, by the names of their crates."""
    rows = (row.partition("#")[0].strip() for row in text.splitlines())
    return {re.match(r"[^\s:]*", row)[0]: row for row in rows if row}


def git(root, *words):
    """What git prints in a folder, or None if it fails."""
    try:
        ran = run("git", *words, cwd=root)
    except OSError:
        return None
    return None if ran.returncode else text_of(ran.stdout)


def why_not_since(root, base):
    """Why nothing says which crates changed since a commit. Empty if git does."""
    if git(root, "cat-file", "-e", f"{base}^{{commit}}") is None:
        return f"{base}, the last line of {LANDINGS}, isn't a commit of this clone"
    if git(root, "merge-base", "--is-ancestor", base, "HEAD") is None:
        return f"{base}, the last line of {LANDINGS}, isn't an ancestor of HEAD"
    return ""


def paths_of(root, *words):
    """The paths that a command of git lists with -z, each as its parts."""
    listed = git(root, *words)
    if listed is None:
        raise Fault(f"`git {' '.join(words)}` fails")
    return [path.split("/") for path in listed.split("\0")]


def changed_since(root, base):
    """The crates that differ between a commit and the working tree, and those of them whose edits do."""
    paths = paths_of(root, "diff", "--name-only", "--relative", "--no-renames", "-z", base, "--", "crates")
    paths += paths_of(root, "ls-files", "--others", "--exclude-standard", "-z", "--", "crates")
    before = crate_lines(git(root, "show", f"{base}:./crates.txt") or "")
    now = crate_lines(pathlib.Path(root, "crates.txt").read_text("utf-8"))
    files = {path[1] for path in paths if len(path) > 2 and path[2] in WATCHED}
    edited = frozenset(path[1] for path in paths if path[2:] == ["planted.edits"])
    return frozenset(files | {name for name, row in now.items() if row != before.get(name)}), edited


@dataclasses.dataclass
class Turn:
    """What the landings say: how many there are, the last one, the crates that changed since, and those whose edits did.
    `why_all` says why all crates are tried, if they are."""

    landings: int = 0
    base: str = ""
    changed: frozenset = frozenset()
    edited: frozenset = frozenset()
    why_all: str = ""

    def chosen(self, names):
        """Those of the crates that are tried."""
        return list(names) if self.why_all else by_turns(names, self.changed, self.landings)

    def urgency(self, name):
        """A key that sorts crates whose edits are new before others that changed, and these before the rest."""
        return name not in self.edited, name not in self.changed

    def about(self, names):
        """The line that says which of the crates are tried, and why."""
        if self.why_all:
            return f"all crates are tried: {self.why_all}"
        changed = [it for it in names if it in self.changed]
        by_turn = [it for it in self.chosen(names) if it not in changed]
        return (f"changed since {self.base[:12]}: {', '.join(changed) or 'no crate'}; "
                f"by turn: {', '.join(by_turn) or 'no crate'}")

    def left(self, edits):
        """The line on the crates that aren't tried, from the number of edits of each crate. Empty if all are tried."""
        tried, later = self.chosen(edits), {}
        for name in edits:
            if name not in tried:
                later.setdefault(landings_until(name, self.landings), []).append(name)
        if not later:
            return ""
        told = [f"after {count} landing{'s' * (count > 1)} at the latest: "
                + ", ".join(f"{name} ({edits[name]})" for name in later[count]) for count in sorted(later)]
        total = sum(edits[name] for names in later.values() for name in names)
        return f"not tried: {total} edits; {'; '.join(told)}; `scripts/gate planted --all` tries all"


def turn_of(root):
    """What the landings of a repository say of its working tree."""
    file = pathlib.Path(root, LANDINGS)
    landings = landings_of(file.read_text("utf-8")) if file.is_file() else []
    if not landings:
        return Turn(why_all=f"{LANDINGS} lists no landing")
    why = why_not_since(root, landings[-1])
    changed, edited = (frozenset(), frozenset()) if why else changed_since(root, landings[-1])
    return Turn(len(landings), landings[-1], changed, edited, why)
