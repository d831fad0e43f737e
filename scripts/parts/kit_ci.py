"""Runs `rt ci` with these words, and shares out the processors in another way.

The kit gives a crate fewer processors if other crates could be proved beside it. Most libraries wait for those below
them, so here these come first, and nothing runs beside a library that all others wait for. The kit also counts the
tests of each crate as a second proof, even if there are none, and plans with two to four times the memory that proofs
take here. If RATTLE_TIMES names a file, timed_rattle.py adds a line on each call of rattle.
"""
import os
import pathlib
import sys

sys.path.insert(0, str(pathlib.Path(__file__).resolve().parents[1]))
from parts.planted_kit import kit  # noqa: E402

# Libraries that are proved with those below them before others: all those of a group before the next group.
FIRST = (("wasm_encoder",), ("wasm_listing", "flat_refusals"))


def after_first(tasks):
    """For each task, the proofs of the groups before it."""
    waits, before = {}, []
    for group in FIRST:
        tops = [(name, "proof") for name in group if (name, "proof") in tasks]
        for key in {below for top in tops for below in (top, *tasks[top][0])}:
            waits.setdefault(key, before)
        before = [*before, *tops]
    return {key: waits.get(key, before) for key in tasks}


def in_lanes(tasks, kits=kit().in_lanes):
    """Does the tasks as the kit does. Tests also wait for their crate's proof, and others for the first libraries."""
    first = after_first(tasks)
    own = {key: [(key[0], "proof")] if key[1] == "tests" else [] for key in tasks}
    return kits({key: ([*waits, *first[key], *own[key]], *more) for key, (waits, *more) in tasks.items()})


def need(crate, kits=kit().need):
    """The memory that a proof is likely to take, in bytes."""
    return max(kits(crate) // 2, 1_500_000_000)


def main():
    kit().in_lanes, kit().need = in_lanes, need
    if "RATTLE_TIMES" in os.environ:
        os.environ["RATTLE"] = kit().rtlib.RATTLE
        kit().rtlib.RATTLE = str(pathlib.Path(__file__).resolve().with_name("timed_rattle.py"))
    return kit().main(["ci", *sys.argv[1:]])


if __name__ == "__main__":
    sys.exit(main())
