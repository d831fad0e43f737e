"""Adds HEAD to scripts/landings, the commits of main that the gate passed. A session begins with it."""
from parts.common import ROOT, CannotRun
from parts.planted_kit import Fault
from parts.planted_turns import LANDINGS, git, landings_of


def add(root):
    """Adds HEAD to the landings of a repository, and returns its hash."""
    file, head = root / LANDINGS, git(root, "rev-parse", "--verify", "HEAD")
    if not head:
        raise CannotRun("git finds no commit HEAD here")
    text = file.read_text("utf-8") if file.is_file() else ""
    if head in landings_of(text):
        raise CannotRun(f"{LANDINGS}: {head} is listed already")
    if git(root, "status", "--porcelain"):
        raise CannotRun("the tree has uncommitted changes: add a landing before the first change")
    file.write_text("\n".join([*text.splitlines(), head, ""]), "utf-8")
    return head


def run(report):
    try:
        head = add(ROOT)
    except Fault as fault:
        raise CannotRun(fault) from fault
    report.note(f"{LANDINGS} has {head} now: commit it with the first change")
    report.passed(LANDINGS)
