"""Cases for kept verdicts: two crates that nothing checks, whose verdicts are made up, and temporary caches."""
import contextlib
import io
import os
import pathlib
import types
import unittest.mock

from parts import planted_crates, planted_kept
from parts.common import room
from parts.planted_crates import Options, Work, try_all
from parts.planted_edits import FILE, Edit
from parts.planted_kept import Kept, cache
from parts.planted_rounds import BAD, BY_SEARCH, NOT_REFUSED, REFUSED, Verdict

NAMES = {"one", "two", "three"}
ENTRIES = "".join(f"[{name}]\nfile: src/lib.rt\nold: {name}\nnew: 1\n" for name in sorted(NAMES))
FILES = {
    "low/src/lib.rt": "//! The lower crate.\n",
    "low/specs/Lib.antt": "pub mod Low\n",
    "low/proofs/Laws.antt": "-- A law.\n",
    "low/proofs/one/Answers.antt": "-- An answer.\n",
    f"low/{FILE}": "",
    "top/src/lib.rt": "//! The upper crate.\n",
    "top/specs/Lib.antt": "pub mod Top\n",
    "top/proofs/two/Answers.antt": "-- An answer.\n",
    f"top/{FILE}": ENTRIES,
}
# The files that verdicts on the upper crate don't stand on as a whole.
APART = ("low/proofs/one/Answers.antt", f"low/{FILE}", f"top/{FILE}")
# Texts that are no kept verdict.
DAMAGED = ["", "[", "{}", "1", "[1]", '["refused", ""]', '["NOT REFUSED", "", ""]']
KEPT = "kept from earlier runs on this machine"


class Crate(types.SimpleNamespace):
    """A crate, as far as kept verdicts look at it."""

    __hash__ = object.__hash__


class Crates:
    """Two crates in a folder, the upper one above the lower one."""

    def __init__(self, folder):
        self.folder = folder
        for path, text in FILES.items():
            self.write(path, text)
        self.low = Crate(name="low", folder=f"{folder}/low", said={"name": "low"}, below=list)
        self.top = Crate(name="top", folder=f"{folder}/top", said={"name": "top"}, below=lambda: [self.low])

    def write(self, path, text):
        (self.folder / path).parent.mkdir(parents=True, exist_ok=True)
        (self.folder / path).write_text(text, "utf-8")

    @contextlib.contextmanager
    def changed(self, path, text):
        """Has another text in a file for a while."""
        self.write(path, text)
        yield
        self.write(path, FILES[path])

    def found(self, is_searched=False):
        """The edits of the upper crate that have a kept verdict."""
        return {it.edit.name for it in Kept(self.top, is_searched).verdicts(NAMES)}

    def keep(self):
        """Keeps verdicts on the upper crate."""
        Kept(self.top, False).keep(VERDICTS)

    def tried(self, names=NAMES, **options):
        """The edits that a run would try, and what it prints."""
        works = []
        with unittest.mock.patch.object(planted_crates, "try_pending", lambda given, _: works.extend(given) or []):
            with contextlib.redirect_stdout(io.StringIO()) as printed:
                try_all({self.top: names}, Options(**options))
        return {name for it in works for name in it.pending}, printed.getvalue()


def verdict(name, kind, how=""):
    return Verdict(Edit(name, {}, frozenset(), frozenset()), kind, f"why {name}", how=how)


VERDICTS = [verdict("one", REFUSED, BY_SEARCH), verdict("two", REFUSED), verdict("three", NOT_REFUSED),
            verdict("four", BAD)]


def changes(it):
    """The cases for what a verdict stands on, each a name and whether it is right."""
    yield "nothing is kept at first", it.found() == set()
    it.keep()
    yield "verdicts that pass are kept", it.found() == {"one", "two"}
    first = Kept(it.top, False).verdict("one")
    yield "a kept verdict", str(first) == f"{REFUSED} {BY_SEARCH}, kept: why one"
    for path, text in FILES.items():
        with it.changed(path, f"{text}\n"):
            yield f"{path} changed", it.found() == ({"one", "two"} if path in APART else set())
    with it.changed(f"top/{FILE}", ENTRIES.replace("old: two", "old: 2")):
        yield "an entry changed", it.found() == {"one"}
    it.write("top/proofs/New.antt", "")
    yield "a new file", it.found() == set()
    (it.folder / "top/proofs/New.antt").unlink()
    for crate in (it.low, it.top):
        with unittest.mock.patch.object(crate, "said", {**crate.said, "status": 1}):
            yield f"another line of {crate.name} in crates.txt", it.found() == set()
    with unittest.mock.patch.object(planted_kept, "sum_of_tool", lambda: "another"):
        yield "another kit or tool", it.found() == set()
    yield "--searched", it.found(is_searched=True) == set()
    yield "all as it was", it.found() == {"one", "two"}


def runs(it):
    """The cases for which edits a run tries."""
    it.keep()
    yield "a run tries what isn't kept", it.tried() == ({"three"}, "")
    line = f"top: 2 edits, all {KEPT}: 1 {REFUSED}; 1 {REFUSED} {BY_SEARCH}\n"
    yield "a run tries nothing if all is kept", it.tried({"one", "two"}) == (set(), line)
    yield "--anew", it.tried(anew=True) == (NAMES, "")
    yield "--clauses", it.tried(clauses=True) == (NAMES, "")
    with it.changed("top/src/lib.rt", ""):
        yield "a file of the crate changed", it.tried() == (NAMES, "")
    with it.changed(f"top/{FILE}", ENTRIES.replace("new: 1", "new: 2", 1)):
        yield "the first entry changed", it.tried({"one", "two"}) == ({"one"}, "")
    with contextlib.redirect_stdout(io.StringIO()) as printed:
        verdicts = Work(it.top, NAMES, Options()).report([verdict("three", REFUSED)], 1)
    line = f"top: 3 edits, 2 {KEPT}, 1 tried in 1 rounds: 2 {REFUSED}; 1 {REFUSED} {BY_SEARCH}\n"
    yield "kept verdicts pass", (len(verdicts), printed.getvalue()) == (3, line)


def environment(**given):
    """The environment with these variables for a while."""
    return unittest.mock.patch.dict(os.environ, given)


def caches(it):
    """The cases for caches that are damaged or can't be written."""
    it.keep()
    for text in DAMAGED:
        for file in cache().iterdir():
            file.write_text(text, "utf-8")
        yield f"a damaged cache: {text}", it.found() == set()
    it.keep()
    yield "a cache that was damaged", it.found() == {"one", "two"}
    with environment(XDG_CACHE_HOME="cache", HOME="/home/user"):
        yield "a relative folder of caches", cache() == pathlib.Path("/home/user/.cache/nosgrivel/planted")
    with environment(XDG_CACHE_HOME="", HOME=""):
        it.keep()
        yield "no folder of caches", (cache(), it.found()) == (None, set())
    it.write("file", "")
    with environment(XDG_CACHE_HOME=str(it.folder / "file")):
        it.keep()
        yield "a file for a folder of caches", it.found() == set()
    with environment(XDG_CACHE_HOME=str(it.folder / "empty")):
        kept = Kept(it.top, False)
        with it.changed("low/src/lib.rt", ""):
            kept.keep(VERDICTS)
        yield "a change during the run", it.found() == set() and not cache().exists()


def cases():
    """The cases, each a name and whether it is right."""
    for some in (changes, runs, caches):
        with room() as folder, environment(XDG_CACHE_HOME=str(folder / "cache")):
            yield from some(Crates(folder))
