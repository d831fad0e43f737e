"""The vectors of one file, without proof.

`gate replay FILE [NAME]` replays a file of crates/replay/data, or one of the same shape. NAME is a file of that folder
with such lines; without it, FILE's own name says what its lines are. `replay` reads all files: the others are empty.
"""
import pathlib
import re

from parts.common import ROOT, CannotRun, VECTORS, last_lines, room, said
from parts.trial import data_words, try_crate


def file_names():
    """The names of the files that `replay` reads, in its order."""
    counts = (ROOT / "crates/replay/stdout").read_text("utf-8")
    return re.findall(r"^(\S+): \d+ vectors", counts, re.MULTILINE)


def chosen(words):
    """The file to replay, and the name by which `replay` reads it."""
    if len(words) not in (1, 2):
        raise CannotRun("usage: gate replay FILE [NAME]")
    file = pathlib.Path(words[0])
    file = file if file.exists() else VECTORS / words[0]
    name = words[-1] if len(words) == 2 else file.name
    if name not in file_names():
        raise CannotRun(f"{name}: expected a name of crates/replay/data: {', '.join(file_names())}")
    if not file.is_file():
        raise CannotRun(f"{words[0]} not found")
    return file.resolve(), name


def replayed(folder, file, name):
    """Runs `replay` over this file alone."""
    empty = folder / "empty"
    empty.touch()
    files = {other: file if other == name else empty for other in file_names()}
    return try_crate(folder, "replay", *data_words(files))


def run(report, words):
    file, name = chosen(words)
    with room() as folder:
        ran = replayed(folder, file, name)
    output = ran.stdout.decode("utf-8", "replace")
    counts = re.search(rf"^{re.escape(name)}: (\d+) vectors, (\d+) differ$", output, re.MULTILINE)
    if not counts:
        report.failed(name, "not run" + last_lines(said(ran)))
        return
    for line, why in re.findall(rf"^{re.escape(name)}:(\d+): (.*)$", output, re.MULTILINE):
        report.failed(f"{file}:{line}", why)
    report.passed(name, int(counts[1]) - int(counts[2]))
