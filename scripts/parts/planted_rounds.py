"""The rounds in which the edits of a crate are tried, and the verdict on each."""
import dataclasses
import math
import re
import subprocess
import time

from parts.common import room as temporary_room
from parts.planted_checks import Checked, is_proved
from parts.planted_edits import Edit, as_written, by_itself, rounds_of, without_change
from parts.planted_kit import kit
from parts.planted_room import Room

REFUSED, NOT_REFUSED, BAD, UNTRIED = "refused", "NOT REFUSED", "BAD EDIT", "NOT TRIED"

# How an edit is refused: the search doesn't prove a goal, or only answers fail, which may be for their names alone.
BY_SEARCH, BY_ANSWER, BY_NAMES = "by the search", "by an answer", "by an answer's names"
# How the second try ends, without these answers: the search proves more goals of the right function, or no more.
BY_BOTH, BY_ANSWER_ALONE = "by an answer, and by the search", "by an answer alone, which the right function needs"


@dataclasses.dataclass
class Verdict:
    edit: Edit
    kind: str
    why: str
    alone: bool = True  # whether it was tried by itself
    how: str = ""  # if it is refused
    is_proved: bool = False  # whether each function is proved with the edit
    unfound: frozenset = frozenset()  # the goals that the search didn't prove
    unfit: frozenset = frozenset()  # the answers that antt refused
    is_kept: bool = False  # whether an earlier run came to it

    def __str__(self):
        return f"{self.kind}{' ' * bool(self.how)}{self.how}{', kept' * self.is_kept}: {self.why[:240]}"


class Trial:
    """The rounds of a crate, each over what those before it proved, in a folder of this run. None begins after `until`,
    by the monotonic clock."""

    def __init__(self, crate, sources, kept, jobs, until=math.inf):
        self.crate, self.sources, self.kept, self.jobs, self.until = crate, sources, kept, jobs, until
        self.rounds = 0

    def verdicts(self, edits):
        bad = [Verdict(it, BAD, it.fault) for it in edits if it.fault]
        rounds = rounds_of([it for it in edits if not it.fault], self.sources)
        return [*bad, *(it for edits in rounds for it in self.round(edits))]

    def round(self, edits):
        if time.monotonic() > self.until:
            return [Verdict(it, UNTRIED, "no time is left") for it in edits]
        self.rounds += 1
        checked = self.check(edits)
        if checked.is_stale:
            return [Verdict(it, BAD, "the kept work of a library could not be used") for it in edits]
        if checked.unread:
            return self.without_the_unread(edits, checked)
        if len(edits) > 1 and self.strays(edits, checked):
            return self.apart([[it] for it in edits])
        judged = [self.judge(it, checked, len(edits) == 1) for it in edits]
        return [it or next(iter(self.apart([[edit]]))) for edit, it in zip(edits, judged)]

    def apart(self, rounds):
        """Tries these rounds."""
        rounds = [[by_itself(it) for it in edits] if len(edits) == 1 else edits for edits in rounds if edits]
        return [it for edits in rounds for it in self.round(edits)]

    def without_the_unread(self, edits, checked):
        """Tries the edits whose lines can't be read by themselves, and the others together."""
        if len(edits) == 1:
            return [Verdict(edits[0], BAD, f"it can't be read: {checked.unread[0]}")]
        places = (re.match(r"(?:\./)?(\S+?):(\d+):", it) for it in checked.unread)
        lines = {(it[1], int(it[2])) for it in places if it}
        wrong = [it for it in edits if it.lines & lines]
        plain = [it for it in edits if not it.copied]
        if not wrong and 0 < len(plain) < len(edits):
            return self.apart([plain, *rounds_of([it.copied for it in edits if it.copied], self.sources)])
        if not wrong:
            half = len(edits) // 2
            return self.apart([edits[:half], edits[half:]])
        return self.apart([[it] for it in wrong] + [[it for it in edits if it not in wrong]])

    def strays(self, edits, checked):
        """The functions that no edit changes and that aren't proved by themselves."""
        if not all(it.functions for it in edits):
            return []
        own = {name for it in edits for name in it.functions for name in checked.of(name)}
        return [it for it in checked.failed(checked.functions) if it not in own]

    def judge(self, edit, checked, alone):
        """The verdict. None if the edit must be tried by itself."""
        names = edit.functions or checked.functions
        failed = checked.failed(names)
        strays = self.strays([edit], checked) if alone else []
        if strays:
            return Verdict(edit, NOT_REFUSED, f"{strays[0]} isn't proved, which it doesn't change", alone)
        if failed:
            return self.refusal(edit, checked, failed, alone)
        said = {name: verdict for it in names for name, verdict in checked.of(it).items()}
        if not alone and edit.constants:
            return None
        if alone or said and all(map(is_proved, said.values())):
            told = [f"{name}: {verdict}" for name, verdict in said.items() if not is_proved(verdict)]
            proved = f"{', '.join(sorted(edit.functions)) or 'all'}: proved"
            return Verdict(edit, NOT_REFUSED, next(iter(told), proved), alone, is_proved=not told)
        return None

    def refusal(self, edit, checked, failed, alone):
        """The verdict on an edit since these functions aren't proved."""
        first = next((it for it in failed if checked.unfound(it)), failed[0])
        is_answer = all(checked.errors_in_proof(it) and not checked.unfound(it) for it in failed)
        is_name = is_answer and all(map(checked.names_what_is_gone, failed))
        how = BY_NAMES if is_name else BY_ANSWER if is_answer else BY_SEARCH
        unfound, unfit = (frozenset().union(*map(of, failed)) for of in (checked.unfound, checked.unfit))
        why = f"{self.crate.name}::{first}: {checked.reason(first)}"
        return Verdict(edit, REFUSED, why, alone, how, unfound=unfound, unfit=unfit)

    def check(self, edits):
        """Checks the functions that these edits change in a copy of the crate, over the contracts of the others."""
        names = sorted({name for it in edits for name in it.functions})
        flags = [word for name in names for word in ("--only", name)] + ["--allow-holes"] * bool(names)
        with temporary_room() as folder:
            room = Room(self.crate, self.sources, folder)
            if names:
                room.take_for_proved(self.sources.functions().keys() - names - self.sources.lending())
            texts = room.lay(edits)
            words = self.crate.words(["--jobs", str(self.jobs), *flags], keeps=False)
            command = [*kit().rtlib.guarded(), kit().rtlib.RATTLE, "check", *words, "--incremental", self.kept]
            ran = subprocess.run(command, cwd=folder, stdin=subprocess.DEVNULL, stdout=subprocess.PIPE,
                                 stderr=subprocess.STDOUT, errors="replace")
        return Checked(self.crate, ran.stdout, texts)

    def searched(self, verdicts):
        """The verdicts after a second try of the edits that only answers refuse, and of the right functions. Both are
        tried without these answers, so that the search looks for the proofs."""
        pending = [it for it in verdicts if it.how in (BY_ANSWER, BY_NAMES) and it.unfit]
        wrong = {it.edit.name: dataclasses.replace(as_written(it.edit), unanswered=it.unfit) for it in pending}
        right = {name: dataclasses.replace(without_change(it, self.sources), name="") for name, it in wrong.items()}
        distinct = {the_same(it): it for it in right.values()}
        tried = self.verdicts([*wrong.values(), *distinct.values()])
        of_right = {the_same(it.edit): it for it in tried if not it.edit.name}
        of_wrong = {it.edit.name: it for it in tried if it.edit.name}
        again = {}
        for first in pending:
            name = first.edit.name
            again[name] = decided(first, of_wrong[name], of_right[the_same(right[name])])
        return [again.get(it.edit.name, it) for it in verdicts]


def the_same(edit):
    """A key that two edits share if their right functions are tried without the same answers."""
    written = as_written(edit)
    return written.functions, written.constants, edit.clause, edit.unanswered


def decided(first, wrong, right):
    """The verdict on an edit by its first try, its second one, and that of the right function. The first verdict stays
    if a second try decides nothing."""
    if wrong.is_proved:
        return dataclasses.replace(wrong, why=f"{wrong.why}, without the answers that don't fit: {first.why}")
    if wrong.how != BY_SEARCH or not right.is_proved and right.how != BY_SEARCH:
        return first
    return dataclasses.replace(wrong, how=BY_BOTH if wrong.unfound - right.unfound else BY_ANSWER_ALONE)
