"""Tries planted edits of crates/NAME/planted.edits, by turns: the proof must refuse each.

Without names, it tries the edits of the crates that changed since the last landing, and of a fifth of the others. A
landing is a commit of main that the gate passed. Their number in scripts/landings says whose turn it is, so each crate
is tried within five landings. The output names the crates that aren't tried. If the clone lacks the last landing, all
crates are tried.

The user's cache keeps the verdict on an edit that was refused, by the checksum of all that it stands on: the kit, this
tool, the edit, its crate, and the code, definitions and laws of the crates below. A later run takes it from there.

The edits of a crate are laid into one copy of it, which is checked once: the first edit of a function into the
function, each further one into a copy of the function beside it. An edit of a constant is laid into copies of the
constant and of a few functions that name it. Methods of traits can't be copied, so a crate takes as many such rounds
as one of them has edits. An edit is refused if its own function isn't proved by itself. A function that only calls
one that isn't proved is tried again alone. An edit that can't be applied or read is bad.

An edit with a line `clause: NAME` is laid into a copy of its function that promises nothing else: that clause must
refuse it.

An edit is refused by the search if the search doesn't prove a goal of the function. It is refused by an answer if
only answers fail, the proof terms in Answers.antt, which says less: a name in one may be gone.

With --seconds, no round begins later than so many seconds after the start. Crates with changed edits come first, then
others that changed. The output tells how many edits are left untried; they count as neither passed nor failed.

The libraries below a crate are those that rt lib keeps. With --after-gate, they are those that rt ci left. If rt ci
restored libraries of earlier runs, rt lib checks by their stamps whether they are up to date.
"""
import argparse
import sys

from parts.common import ROOT, counted_here
from parts.planted_crates import Options, chosen, counted, try_all
from parts.planted_kit import Fault
from parts.planted_rounds import UNTRIED
from parts.planted_self_test import self_test


def options_of(arguments):
    parser = argparse.ArgumentParser(prog="gate planted", description=__doc__,
                                     formatter_class=argparse.RawTextHelpFormatter)
    parser.add_argument("edits", nargs="*", metavar="CRATE or CRATE:EDIT", help="the edits to try [default: by turns]")
    parser.add_argument("--all", action="store_true", help="try the edits of all crates")
    parser.add_argument("--anew", action="store_true", help="try edits whose verdict is kept once more")
    parser.add_argument("--after-gate", action="store_true", help="take the libraries that rt ci left")
    parser.add_argument("--clauses", action="store_true",
                        help="try the right functions, by default of all crates: each clause that an edit names must "
                             "be proved by itself")
    parser.add_argument("--searched", action="store_true",
                        help="try an edit that only answers refuse once more without these answers")
    parser.add_argument("--seconds", type=float, metavar="N", help="begin no round after N seconds")
    parser.add_argument("--verbose", action="store_true", help="print the verdict on each edit")
    parser.add_argument("--self-test", action="store_true", help="try a small crate of which every verdict is known")
    options = parser.parse_args(arguments, Options())
    if options.all and options.edits:
        parser.error("--all takes no names of edits")
    return options


def main(arguments):
    """Tries the edits as the arguments say, and returns the exit status."""
    options = options_of(arguments)
    if options.self_test:
        return self_test()
    try:
        edits, left = chosen(ROOT, options)
        verdicts = try_all(edits, options)
    except Fault as fault:
        print(f"planted: {fault}", file=sys.stderr)
        return 2
    passed = sum(it.kind == options.expected for it in verdicts)
    untried = sum(it.kind == UNTRIED for it in verdicts)
    print(f"in all: {counted(verdicts)}")
    if left:
        print(left)
    failed = len(verdicts) - passed - untried
    print(f"{passed} passed, {failed} failed")
    return int(failed > 0)


def run(report, words):
    counted_here(report, "planted", main, words)
