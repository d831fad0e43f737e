"""Which functions and law files take the prover longest.

Each crate is proved from nothing by one process, as many crates at a time as there are processors. The prover writes a
file when it has checked a module, so the times of these files say what each module took. A function's modules are its
contract, the borrow checker's part, and its proof.

With --after-gate it takes the libraries that `rt ci` left, and otherwise first proves those that aren't kept. If it
measures some crates only, the tables keep the rows of the others. They then end at the function that took least in the
table before, since faster ones of other crates aren't known.
"""
import collections
import concurrent.futures
import dataclasses
import pathlib
import re
import subprocess
import sys

from parts import times
from parts.common import ROOT, room
from parts.planted_crates import prepare_libraries
from parts.planted_kit import Fault, kit

# How many functions and law files the table names.
MOST = 20
AFTER_GATE = "--after-gate"
CRATES_HEADING = ["crate", "functions", "processor s"]
THINGS_HEADING = ["function or law file", "s"]
CRATES, THINGS = (f"| {' | '.join(heading)} |\n" for heading in (CRATES_HEADING, THINGS_HEADING))
RUN = "import resource, subprocess, sys; subprocess.run(sys.argv[1:]); " \
      "print('processor', sum(resource.getrusage(resource.RUSAGE_CHILDREN)[:2]))"


@dataclasses.dataclass
class Cost:
    """What the prover took for a crate: processor seconds, the number of functions, and the seconds of each thing."""

    crate: str
    processor: float
    functions: int
    things: collections.Counter


def measure(crate):
    """Proves a crate, and reads what each of its modules took."""
    with room() as kept:
        words = crate.words(["--jobs", "1"], tests=crate.has_tests(), keeps=False)
        check = [kit().rtlib.RATTLE, "check", *words, "--progress", "--incremental", str(kept)]
        said = subprocess.run([sys.executable, "-c", RUN, *check], cwd=crate.folder, stdin=subprocess.DEVNULL,
                              stdout=subprocess.PIPE, stderr=subprocess.STDOUT, text=True, errors="replace").stdout
        if not re.search(r"^logic=proved", said, re.MULTILINE):
            raise Fault(f"{crate.name} isn't proved: {said[-300:]}")
        names = re.findall(r"^checked \w+?::(\S+), \d+ of", said, re.MULTILINE)
        functions = {name.replace("::", ".") for name in names}
        things = things_of(crate, functions, modules_in(kept))
    return Cost(crate.name, float(re.search(r"^processor (\S+)", said, re.MULTILINE)[1]), len(functions), things)


def modules_in(folder):
    """The modules that the prover wrote below a folder, each with its seconds, in their order."""
    found = (file for file in folder.rglob("*.oantt") if file.parent.name != "records")
    files = sorted((file.stat().st_mtime, file.stem) for file in found)
    starts = [files[0][0], *(written for written, _ in files)] if files else []
    return [(name, written - start) for (written, name), start in zip(files, starts)]


def things_of(crate, functions, modules):
    """The seconds of the functions and law files of a crate, by what the table calls them."""
    things = collections.Counter()
    for name, took in modules:
        found = re.match(rf"Rattle-{crate.name}-(specs|proofs)\.(.*)", name)
        if found:
            things[thing(crate, functions, *found.groups())] += took
    return things


def thing(crate, functions, part, name):
    """What a module belongs to: a function, or a file of specs/ or proofs/."""
    words = name.removeprefix("contracts.").split(".")
    for count in range(len(words), 0, -1):
        path = ".".join(words[:count])
        if path in functions:
            return f"{crate.name}::{path.replace('.', '::')}"
    file = pathlib.Path(crate.folder, part, *words).with_suffix(".antt")
    return f"crates/{crate.name}/{part}/{'/'.join(words)}.antt" if file.exists() else f"{crate.name}: types"


def rows_in(page, heading):
    """The rows of a table of the page that was written before, by their first cell."""
    lines = page.partition(heading)[2].partition("\n\n")[0].splitlines()[1:]
    cells = [[cell.strip() for cell in line.strip("| ").split("|")] for line in lines]
    return {row[0].strip("`"): [float(cell.replace(",", "")) for cell in row[1:]] for row in cells if row[0] != "all"}


def crates_table(costs, before):
    """The table of crates. Those that weren't measured keep their rows."""
    rows = rows_in(before, CRATES)
    rows.update({it.crate: [it.functions, it.processor] for it in costs})
    ordered = sorted(rows.items(), key=lambda it: -it[1][1])
    ordered.append(("all", [sum(row[number] for row in rows.values()) for number in range(2)]))
    names = (name if name == "all" else f"`{name}`" for name, _ in ordered)
    cells = [[name, times.seconds(row[0]), times.seconds(row[1])] for name, (_, row) in zip(names, ordered)]
    return times.table(CRATES_HEADING, cells)


def things_table(costs, before):
    """The table of functions and law files. Those of crates that weren't measured keep their rows."""
    measured = {it.crate for it in costs}
    kept = {name: row[0] for name, row in rows_in(before, THINGS).items() if crate_of(name) not in measured}
    least = min(kept.values(), default=0)
    things = sum((it.things for it in costs), collections.Counter(kept))
    rows = [[f"`{name}`", f"{took:.0f}"] for name, took in things.most_common(MOST) if took >= least]
    return times.table(THINGS_HEADING, rows)


def crate_of(name):
    """The crate of a row of functions and law files."""
    return re.match(r"(?:crates/)?(\w+)", name)[1]


def run(report, words):
    """Measures the crates that the words name, or all, and writes the tables into the page."""
    names = [word for word in words if word != AFTER_GATE]
    crates = [it for it in kit().rtlib.crates_below(str(ROOT)) if not names or it.name in names]
    held = kit().rtlib.lock(list(dict.fromkeys(it for crate in crates for it in [*crate.below(), crate])))
    prepare_libraries(crates, AFTER_GATE in words)
    longest = sorted(crates, key=lambda it: -it.count(rb"\n"))
    with concurrent.futures.ThreadPoolExecutor(times.cores()) as pool:
        costs = list(pool.map(measure, longest))
    del held
    for cost in costs:
        report.passed(cost.crate)
    before = times.read("costs")
    text = "\n\n".join([crates_table(costs, before), things_table(costs, before), f"{times.machine()}."])
    times.write("costs", text)
