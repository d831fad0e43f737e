"""Planted edits: the lines of crates/NAME/planted.edits, and the functions that each edit changes.

    # A comment.
    [name_of_the_edit]
    clause: the clause that must refuse it, or no such line
    file: src/lib.rt
    old: a text that occurs once in the file
    new: the text in its place
"""
import dataclasses
import pathlib
import re

from parts.common import ROOT
from parts.planted_kit import Fault, kit
from parts.planted_sources import Sources

FILE = "planted.edits"


@dataclasses.dataclass
class Entry:
    """An edit as its file has it."""

    name: str
    clause: str = ""
    lines: list = dataclasses.field(default_factory=list)


def parse(text, where):
    """The entries of a file, by their names."""
    entries, entry = {}, None
    for number, line in enumerate(text.split("\n"), 1):
        heading = re.fullmatch(r"\[(\w+)\]", line)
        clause = re.fullmatch(r"clause: (\w+)", line)
        if heading and heading[1] in entries:
            raise Fault(f"{where}:{number}: a second edit named {heading[1]}")
        elif heading:
            entry = entries[heading[1]] = Entry(heading[1])
        elif not line or line.startswith("#"):
            continue
        elif not entry:
            raise Fault(f"{where}:{number}: a line before the first edit: expected [NAME], found {line}")
        elif clause and not entry.clause:
            entry.clause = clause[1]
        elif re.match(r"file: |old: |new:", line):
            entry.lines.append(line)
        else:
            raise Fault(f"{where}:{number}: expected a line of an edit, found {line}")
    return entries


def entries_of(folder):
    """The entries of a crate, by their names."""
    file = pathlib.Path(folder, FILE)
    return parse(file.read_text("utf-8"), f"crates/{file.parent.name}/{FILE}") if file.is_file() else {}


@dataclasses.dataclass
class Edit:
    name: str
    texts: dict  # the changed files by their paths in the crate
    functions: frozenset  # one of them must not be proved; none: any function of the crate
    lines: frozenset  # the changed lines, as (path, number)
    constants: frozenset = frozenset()  # the changed constants, if nothing else is changed
    fault: str = ""  # why it can't be applied
    clause: str = ""  # the clause that must refuse it by itself
    unanswered: frozenset = frozenset()  # the answers that the search must do without
    copied: "Edit | None" = None  # the edit that this one lays into copies of what it changes
    copies: tuple = ()  # of these functions and constants, each a kind, a name and the copy's name


def read_edit(entry, sources):
    """The edit, with what it changes, or why it can't be applied."""
    texts, fault = kit().edited("\n".join(entry.lines), str(sources.folder))
    if fault:
        return Edit(entry.name, {}, frozenset(), frozenset(), fault=fault)
    differ = [sources.differing(path, text) for path, text in texts.items()]
    changed = [sources.users_of(it) for it in differ]
    names = [name for it in differ for kind, name in it if kind == "const"]
    constants = names if len(names) == sum(map(len, differ)) else []
    functions = frozenset().union(*changed) if all(changed) else frozenset()
    lines = {(path, at) for path, text in texts.items() for at in changed_lines(sources.folder / path, text)}
    edit = Edit(entry.name, texts, functions, frozenset(lines), frozenset(constants))
    return with_clause(edit, entry.clause, sources) if entry.clause else edit


def changed_lines(file, text):
    pairs = zip(file.read_text("utf-8").split("\n"), text.split("\n"))
    return [number for number, (before, after) in enumerate(pairs, 1) if before != after]


def with_clause(edit, clause, sources):
    """The edit with the clause that must refuse it, or why it has none."""
    laid = dataclasses.replace(edit, clause=clause)
    function = next(iter(edit.functions), "")
    if edit.constants or not copied(laid, 0, sources):
        why = "it names a clause, but doesn't change one function that can stand twice"
    elif not re.search(rf"^ +ensures {clause} \{{", sources.inherent("fn", function)[1], re.MULTILINE):
        why = f"{function} has no clause {clause}"
    elif sources.answers_at_once(function):
        why = f"it names a clause, but the proof of {function} answers all at once"
    else:
        return laid
    return dataclasses.replace(edit, fault=why)


# How many functions that name a constant are copied with it. More would be checked, and few of them refuse an edit.
MOST_COPIED = 3


def copied(edit, number, sources):
    """The edit laid into a copy of the one function that it changes, or of constants and of functions that name them.
    None if these can't stand twice. Contracts name public constants, so these aren't copied."""
    functions = sorted(filter(sources.can_stand_twice, edit.functions))
    if edit.constants:
        functions = sorted(functions, key=lambda it: sources.inherent("fn", it)[0] not in edit.texts)[:MOST_COPIED]
    elif len(edit.functions) > 1:
        return None
    constants = [sources.inherent("const", it) for it in edit.constants]
    if not functions or not all(constants) or any(text.startswith("pub ") for _, text in constants):
        return None
    copies = [("const", it, f"{it}_COPY{number}") for it in sorted(edit.constants)]
    copies += [("fn", it, f"{it}_copy{number}") for it in functions]
    names = frozenset(copy for kind, _, copy in copies if kind == "fn")
    return dataclasses.replace(edit, functions=names, copied=edit, copies=tuple(copies))


def as_written(edit):
    """The edit laid into the function itself."""
    return edit.copied or edit


def by_itself(edit):
    """The edit as it is laid where it is tried alone: into its function, unless it names a clause."""
    return edit if edit.clause else as_written(edit)


def without_change(edit, sources):
    """The right functions that an edit would change."""
    return dataclasses.replace(as_written(edit), texts=sources.texts, lines=frozenset())


def rounds_of(edits, sources):
    """Rounds of edits no two of which change one function. An edit that may change any function has a round of its own,
    and so has a constant that can't be copied."""
    rounds, alone = [], []
    for edit in edits:
        if not edit.functions or edit.constants and not copied(edit, 0, sources):
            alone.append([edit])
            continue
        for others in rounds:
            laid = laid_beside(others, edit, sources)
            if laid:
                others.append(laid)
                break
        else:
            rounds.append([laid_beside([], edit, sources)])
    return [*rounds, *alone]


def laid_beside(others, edit, sources):
    """The edit, laid into a copy if others of its round change its function, or it has constants or a clause."""
    taken = frozenset().union(*(it.functions for it in others))
    is_copied = edit.constants or edit.clause or taken & edit.functions
    return copied(edit, len(others), sources) if is_copied else edit


def run(report):
    """Checks that each edit of each crate can be applied, which needs no proof."""
    for file in sorted(ROOT.glob(f"crates/*/{FILE}")):
        for edit in edits_of(file.parent, entries_of(file.parent))[1]:
            report.check(f"{file.parent.name}:{edit.name}", not edit.fault, edit.fault)


def edits_of(folder, names):
    """The sources of a crate, and its edits of these names."""
    sources, entries = Sources(folder), entries_of(folder)
    return sources, [read_edit(entry, sources) for name, entry in entries.items() if name in names]
