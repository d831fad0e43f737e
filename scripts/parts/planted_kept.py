"""The verdicts that runs on this machine keep in the user's cache: an edit that was refused isn't tried again.

The name of an entry is the checksum of all that its verdict stands on, so an entry never goes stale. An entry that
can't be read counts for nothing. Only verdicts that pass are kept.
"""
import contextlib
import dataclasses
import functools
import hashlib
import json
import os
import pathlib
import tempfile

from parts.common import run, text_of
from parts.planted_edits import Edit, entries_of
from parts.planted_kit import Fault, kit
from parts.planted_rounds import REFUSED, Verdict

# The proof files of functions. Other crates cite laws, and no such file.
OF_FUNCTIONS = ("Answers.antt", "Invariants.antt")


def cache():
    """The folder of the user's cache for verdicts, beside the builds of scripts/builds.bash. None if there is none."""
    folder = os.environ.get("XDG_CACHE_HOME", "")
    if not folder.startswith("/"):
        folder = os.path.join(os.environ.get("HOME", ""), ".cache")
    return pathlib.Path(folder, "nosgrivel/planted") if folder.startswith("/") else None


def sum_of(*parts):
    return hashlib.sha256(repr(parts).encode()).hexdigest()


def files_in(folder, names, left_out=()):
    """The paths and checksums of all files in these subfolders of a folder, but for files of some names."""
    files = sorted(file for name in names for file in (folder / name).rglob("*"))
    files = [it for it in files if it.is_file() and it.name not in left_out]
    return [(str(it.relative_to(folder)), sum_of(it.read_bytes())) for it in files]


@functools.lru_cache(maxsize=None)
def sum_of_tool():
    """The checksum of the kit's line and of the files that try edits."""
    files = sorted(pathlib.Path(__file__).parent.glob("planted*.py"))
    texts = [(it.name, it.read_bytes()) for it in files if not it.stem.endswith("_test")]
    return sum_of(text_of(run("rt", "version", check=True).stdout), texts)


def sum_of_crate(crate):
    """The checksum of a crate and its line of crates.txt, and of what it can read of the crates below it."""
    parts = kit().rtlib.PARTS
    below = [(it.said, files_in(pathlib.Path(it.folder), parts, OF_FUNCTIONS)) for it in crate.below()]
    return sum_of(crate.said, files_in(pathlib.Path(crate.folder), parts), below)


class Kept:
    """The kept verdicts on the edits of a crate."""

    def __init__(self, crate, is_searched):
        self.crate, self.is_searched, self.folder = crate, is_searched, cache()
        self.keys = self.keys_now()

    def keys_now(self):
        """The names of the entries, by the names of the edits."""
        rests_on = sum_of_tool(), sum_of_crate(self.crate), self.is_searched
        entries = entries_of(self.crate.folder)
        return {name: sum_of(rests_on, dataclasses.astuple(entry)) for name, entry in entries.items()}

    def verdicts(self, names):
        """The kept verdicts on the edits of these names."""
        return [verdict for name in names for verdict in [self.verdict(name)] if verdict]

    def verdict(self, name):
        """The kept verdict on an edit, or None."""
        if not self.folder:
            return None
        try:
            kind, how, why = json.loads((self.folder / self.keys[name]).read_text("utf-8"))
        except (OSError, ValueError, TypeError):
            return None
        edit = Edit(name, {}, frozenset(), frozenset())
        return Verdict(edit, REFUSED, str(why), how=str(how), is_kept=True) if kind == REFUSED else None

    def keep(self, verdicts):
        """Keeps the verdicts that pass, unless something that they stand on has changed meanwhile. A cache that can't
        be written is no error."""
        passed = [it for it in verdicts if it.kind == REFUSED]
        with contextlib.suppress(OSError, Fault):
            if not self.folder or not passed or self.keys_now() != self.keys:
                return
            self.folder.mkdir(parents=True, exist_ok=True)
            for it in passed:
                write(self.folder / self.keys[it.edit.name], json.dumps([it.kind, it.how, it.why]))


def write(file, text):
    """Writes a file apart and renames it, so no other run reads a part of it."""
    number, room = tempfile.mkstemp(dir=file.parent)
    try:
        with open(number, "w", encoding="utf-8") as it:
            it.write(text)
        os.replace(room, file)
    except OSError:
        os.unlink(room)
        raise
