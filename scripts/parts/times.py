"""What a run of the gate takes: the elapsed and the processor time of its parts and of each crate's proofs."""
import collections
import datetime
import json
import os
import pathlib
import re
import resource
import time

from parts.common import ROOT, kit_line
from parts.trial import declared_crates

# The page with the tables, and the lines around each.
PAGE = ROOT / "docs/CONTRIBUTING.md"
BEGIN, END = "<!-- {}: written by scripts/gate -->", "<!-- end of {} -->"
# Programs whose first proof has a row: it is that of the program and of all libraries below it. The last only writes.
FIRST = ("wasmnorm", "wasmcanon", "example_hello")


class Clock:
    """Measures a piece of work. The processor time is that of this process and of commands that have ended."""

    def __init__(self):
        self.began, self.used = time.monotonic(), processor_seconds()

    def elapsed(self):
        return time.monotonic() - self.began

    def processor(self):
        return processor_seconds() - self.used


def processor_seconds():
    uses = (resource.getrusage(who) for who in (resource.RUSAGE_SELF, resource.RUSAGE_CHILDREN))
    return sum(use.ru_utime + use.ru_stime for use in uses)


def cores():
    return len(os.sched_getaffinity(0))


def machine():
    """The processors, the kit and the date of a measurement, as a line below a table says them."""
    model = re.search(r"^model name\s*: (.*)$", pathlib.Path("/proc/cpuinfo").read_text("utf-8"), re.MULTILINE)
    name = model[1].strip() if model else "an unknown processor"
    return f"{cores()} cores of {name}, {kit_line()}, {datetime.date.today():%d %B %Y}".replace(", 0", ", ")


def table(heading, rows):
    """A table in Markdown. The columns but the first are aligned to the right."""
    lines = [heading, ["---", *["---:"] * (len(heading) - 1)], *rows]
    return "\n".join(f"| {' | '.join(map(str, line))} |" for line in lines)


def seconds(number):
    return f"{number:,.0f}"


def parts_table(timed):
    """The table of the parts of a run, each a name with elapsed and processor seconds. Quick parts are one row."""
    slow = [it for it in timed if it[1] >= 5]
    quick = [it for it in timed if it[1] < 5]
    rows = [[f"`{name}`", seconds(elapsed), seconds(used)] for name, elapsed, used in slow]
    for name, of in ((f"{len(quick)} quicker ones", quick), ("all", timed)):
        rows.append([name, seconds(sum(it[1] for it in of)), seconds(sum(it[2] for it in of))])
    return table(["part", "elapsed s", "processor s"], rows)


def crates_table(calls):
    """The table of the processor seconds that rattle takes for each crate in `rt ci`."""
    kinds = ("proof", "tests", "compile")
    used = collections.defaultdict(collections.Counter)
    for call in calls:
        used[call["crate"]][call["kind"]] += call["processor"]
    order = sorted(used, key=lambda it: -sum(used[it].values()))
    rows = [[f"`{crate}`", *(seconds(used[crate][kind]) if used[crate][kind] else "" for kind in kinds)]
            for crate in order]
    for program in FIRST:
        names = below(program)
        if names <= set(used):
            rows.append([f"`{program}` and its libraries", seconds(sum(used[it]["proof"] for it in names)), "", ""])
    return table(["crate", *(f"{kind} s" for kind in kinds)], rows)


def below(crate):
    """A crate of the repository, and those below it."""
    declared, found, left = declared_crates(), set(), [crate]
    while left:
        name = left.pop()
        if name in declared and name not in found:
            found.add(name)
            left += declared[name]
    return found


def calls_of(file):
    """The calls of rattle that a timed run of `rt ci` noted."""
    return [json.loads(line) for line in file.read_text("utf-8").splitlines()] if file.exists() else []


def find(page, name):
    """The lines of this name in the page, with those that enclose them."""
    begin, end = BEGIN.format(name), END.format(name)
    found = re.search(rf"{re.escape(begin)}\n.*?{re.escape(end)}", page, re.DOTALL)
    if not found:
        raise SystemExit(f"{PAGE.name}: no lines {begin} and {end}")
    return found


def read(name):
    """What the page has between the lines of this name."""
    return find(PAGE.read_text("utf-8"), name)[0]


def write(name, text):
    """Puts a text into the page between the lines of this name."""
    page = PAGE.read_text("utf-8")
    found = find(page, name)
    begin, end = BEGIN.format(name), END.format(name)
    PAGE.write_text(f"{page[:found.start()]}{begin}\n\n{text}\n\n{end}{page[found.end():]}", "utf-8")
