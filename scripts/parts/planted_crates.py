"""The crates whose edits are tried, and what is printed of each."""
import collections
import dataclasses
import math
import pathlib
import shutil
import threading
import time

from parts.common import room
from parts.planted_edits import FILE, edits_of, entries_of, without_change
from parts.planted_kept import Kept
from parts.planted_kit import Fault, kit
from parts.planted_rounds import NOT_REFUSED, REFUSED, UNTRIED, Trial
from parts.planted_turns import turn_of


@dataclasses.dataclass
class Options:
    """What to try, and how, as the command line says."""

    edits: list = dataclasses.field(default_factory=list)  # CRATE or CRATE:EDIT; none: by turns
    all: bool = False
    anew: bool = False
    after_gate: bool = False
    clauses: bool = False
    searched: bool = False
    verbose: bool = False
    self_test: bool = False
    seconds: float = math.inf
    begun: float = dataclasses.field(default_factory=time.monotonic)

    @property
    def until(self):
        """When the last round may begin, by the monotonic clock."""
        return self.begun + self.seconds

    @property
    def by_turns(self):
        """Whether the landings choose the crates."""
        return not (self.edits or self.all or self.clauses)

    @property
    def expected(self):
        """The kind of verdict that passes."""
        return NOT_REFUSED if self.clauses else REFUSED

    @property
    def tells_all(self):
        """Whether to print each verdict."""
        return self.verbose or any(":" in it for it in self.edits)


def named(crates, words):
    """The names of the edits to try of each crate. Without words, those of all edits."""
    by_name = {it.name: it for it in crates if entries_of(it.folder)}
    found = {}
    for word in words or by_name:
        name, _, edit = word.partition(":")
        entries = entries_of(by_name[name].folder) if name in by_name else {}
        if not entries or edit and edit not in entries:
            raise Fault(f"{word}: no such edits: expected CRATE or CRATE:EDIT of crates/CRATE/{FILE}")
        found.setdefault(by_name[name], set()).update([edit] if edit else entries)
    return found


def chosen(root, options):
    """The names of the edits to try of each crate of a repository, and a line on the edits that aren't tried."""
    edits = named(kit().rtlib.crates_below(str(root)), options.edits)
    if not options.by_turns:
        return edits, ""
    turn, counts = turn_of(root), {crate.name: len(names) for crate, names in edits.items()}
    print(f"planted: {turn.about(counts)}", flush=True)
    tried = sorted(turn.chosen(counts), key=turn.urgency)
    by_name = {crate.name: crate for crate in edits}
    return {by_name[name]: edits[by_name[name]] for name in tried}, turn.left(counts)


def prepare_libraries(crates, after_gate):
    """Builds the libraries below these crates that aren't kept, unless rt ci has just left them."""
    below = list(dict.fromkeys(it for crate in crates for it in crate.below()))
    built = [pathlib.Path(it.rlib) for it in below]
    if after_gate and all(it.is_dir() and not (it.parent / "stamp").exists() for it in built):
        return
    for library in below:
        if library.build_rlib(["--jobs", "2"], anew=False):
            raise Fault(f"the library {library.name} isn't proved")


class Work:
    """The edits to try of a crate, and the verdicts that earlier runs kept."""

    def __init__(self, crate, names, options):
        self.crate, self.options = crate, options
        self.kept = None if options.clauses else Kept(crate, options.searched)
        self.known = self.kept.verdicts(names) if self.kept and not options.anew else []
        self.pending = names - {it.edit.name for it in self.known}

    def run(self, jobs):
        """The verdicts on the edits without a kept one, and the number of rounds."""
        sources, edits = edits_of(self.crate.folder, self.pending)
        if self.options.clauses:
            edits = [without_change(it, sources) for it in edits if it.clause or it.fault]
        with room() as folder:
            if self.crate.has_kept() and not self.options.after_gate:
                incremental = f"{self.crate.folder}/{kit().rtlib.KEPT[1]}"
                shutil.copytree(incremental, folder, dirs_exist_ok=True, copy_function=shutil.copyfile)
            trial = Trial(self.crate, sources, folder, jobs, self.options.until)
            verdicts = trial.verdicts(edits)
            if self.options.searched and not self.options.clauses:
                verdicts = trial.searched(verdicts)
        if self.kept:
            self.kept.keep(verdicts)
        return verdicts, trial.rounds

    def report(self, tried, rounds):
        """Prints the verdicts that aren't as expected, or all, and how many there are of each kind. Returns them."""
        verdicts = [*self.known, *tried]
        for it in verdicts:
            if self.options.tells_all or it.kind not in (self.options.expected, UNTRIED):
                print(f"planted {self.crate.name}:{it.edit.name}: {it}")
        kept = f", {len(self.known) if tried else 'all'} kept from earlier runs on this machine" * bool(self.known)
        tried = f"{f', {len(tried)} tried' * bool(kept)} in {rounds} rounds" * bool(tried)
        print(f"{self.crate.name}: {len(verdicts)} edits{kept}{tried}: {counted(verdicts)}", flush=True)
        return verdicts


def counted(verdicts):
    """How many verdicts there are of each kind."""
    kinds = collections.Counter(f"{it.kind} {it.how}".strip() for it in verdicts)
    return "; ".join(f"{count} {kind}" for kind, count in sorted(kinds.items())) or "no edits"


def try_all(edits, options):
    """The verdicts on these edits of crates, side by side as processors and memory allow."""
    works = [Work(crate, names, options) for crate, names in edits.items()]
    verdicts = [it for work in works if not work.pending for it in work.report([], 0)]
    works = [it for it in works if it.pending]
    return [*verdicts, *try_pending(works, options.after_gate)] if works else verdicts


def try_pending(works, after_gate):
    """The verdicts on the edits of crates that have edits without a kept verdict. The crates are begun in this order.

    The locks last as long as the process, so a process calls this once."""
    crates = [it.crate for it in works]
    held = kit().rtlib.lock(list(dict.fromkeys(it for crate in crates for it in [*crate.below(), crate])))
    prepare_libraries(crates, after_gate)
    kit().rtlib.guarded()
    printing, tasks = threading.Lock(), {}
    for place, work in enumerate(works):
        def task(given, jobs, work=work):
            tried, rounds = work.run(jobs)
            with printing:
                return work.report(tried, rounds)
        tasks[work.crate.name, "rounds"] = ([], -place, kit().need(work.crate), task)
    verdicts = [it for found in kit().in_lanes(tasks).values() for it in found]
    del held
    return verdicts
