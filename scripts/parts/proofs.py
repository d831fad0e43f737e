"""Every proof, test, must-fail edit, program and vector: `rt ci`.

kit_ci.py shares out the processors.
"""
import os
import sys

from parts import times
from parts.common import ROOT, counted, program, room
from parts.kept import keep, sources

PROGRAMS = ("wasmcanon", "wasmnorm")
# The static libraries that scripts compile.
STATIC = ("nosgrivel_c", "nosgrivel_wasm")
# The sources that this run of the gate proved, by the crates that are built from them.
proved = {}
# The calls of rattle in a timed run.
calls = []


def run(report, is_timed=False):
    """If all is proved, the user's cache keeps the programs, so that launchers and scripts/install prove nothing."""
    before = {crate: sources(crate) for crate in (*PROGRAMS, *STATIC)}
    if is_timed:
        prove_timed(report)
    else:
        counted(report, "rt ci", KIT_CI)
    if not report.counts["failed"]:
        proved.update({crate: known for crate, known in before.items() if sources(crate) == known})
    for crate, known in proved.items():
        # Until the next run removes it, this says that the libraries below the crate are as they were proved.
        folder = ROOT / "crates" / crate / "out"
        folder.mkdir(exist_ok=True)
        (folder / "proved").write_text(f"{known}\n", "utf-8")
    for crate in PROGRAMS:
        if crate in proved and program(crate).exists():
            keep(crate, proved[crate], program(crate))


# Runs `rt ci`.
KIT_CI = [sys.executable, str(ROOT / "scripts/parts/kit_ci.py")]


def prove_timed(report):
    """Does the same, and notes what each call of rattle takes."""
    with room() as folder:
        file = folder / "calls"
        counted(report, "rt ci", KIT_CI, env={**os.environ, "RATTLE_TIMES": str(file)})
        calls.extend(times.calls_of(file))
