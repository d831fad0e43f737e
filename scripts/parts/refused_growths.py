"""Tests and programs while allocations fail.

`rt ci` built them, and refused_requests.c intercepts their calls. Each test of
crates/conformance/src/tests/refused_memory runs while its first request is refused, then while its second is, and so
on, until none is. It must pass in each of these runs; it prints `refused` if a request of its own was refused. The
program that replays vectors runs 200 times while one in 31 requests is refused by chance, another one each time. A
vector may then differ for lack of memory, and for nothing else. wasmcanon runs as each test does: it must report lack
of memory, perhaps after its message, or give the right answer. The checks are the tests, the runs of `replay`, and the
ways in which wasmcanon is called.
"""
import concurrent.futures
import os
import re

from parts.common import VECTORS, room
from parts.interposed import Interposed

CODE = "refused_requests.c"
EVERY = 31
RUNS = 200
MOST = 10_000

# A module with longer encodings, a section `name` whose contents have some among them, and its canonical form.
NAMES = b"\0\x0A\4name\0\x83\0\1m"
MODULE = b"\0asm\1\0\0\0\1\x86\0\1\x4f\0\x60\0\0\5\4\1\0\x81\0" + NAMES
CANONICAL = b"\0asm\1\0\0\0\1\4\1\x60\0\0\5\3\1\0\1" + NAMES
REFUSED = "a request was refused\n"
CALLS = [[], ["--strip-offsets"], ["--strip", "a*"], ["--names"], ["--check"], ["--check", "--json"], ["--hash"],
         ["--report"], ["--report", "--json"], ["--diff"]]
NO_MEMORY = "error: out of memory\n"
# What is printed if memory runs out: nothing, or the failure of the module as JSON.
NOTHING = ("", '[{"error":"out of memory","file":"module"}]\n')


def told(program, *words, folder=None, **refused):
    """Runs a program while requests are refused, and returns its status and what it prints."""
    return program.run(*words, numbers=refused, cwd=folder, encoding="latin-1")


def sweep(program, test):
    """Runs a test while each of its requests is refused in turn: how many were, how many were its own, and a fault."""
    own = 0
    for number in range(1, MOST):
        ran = told(program, test, refused=number)
        own += ran.stdout.count("refused\n")
        if ran.returncode or not ran.stdout.endswith("test result: ok\n"):
            return number, own, f"request {number} refused: {ran.stdout}{ran.stderr}"
        if not ran.stderr:
            return number - 1, own, ""
    return MOST, own, "its requests don't end"


def sweep_tests(report, program, pool):
    listed = told(program, "--list", refused=0).stdout
    tests = re.findall(r"^(\S*\brefused_memory::\S+): test$", listed, re.MULTILINE)
    for test, (requests, own, fault) in zip(tests, pool.map(lambda it: sweep(program, it), tests)):
        text = fault or f"{requests} requests refused, {own} of its own"
        if report.check(test, not fault and (own > 0 or requests == 0), text):
            report.note(f"{test}: {text}")


def replay_faults(program, seed):
    """The lines in which vectors differ for something else than memory, and how many differ for lack of memory."""
    ran = told(program, seed=seed, every=EVERY, folder=VECTORS)
    lines = ran.stdout.splitlines()
    refused = sum(it.endswith(": no memory") for it in lines)
    wrong = [it for it in lines if not re.search(r": no memory$|: \d+ vectors, \d+ differ$", it)]
    if ran.returncode or not refused:
        wrong.append(f"status {ran.returncode}, {refused} vectors without memory: {ran.stderr.splitlines()[-1:]}")
    return wrong, refused


def replay_by_chance(report, program, pool):
    runs = list(pool.map(lambda it: replay_faults(program, it), range(1, RUNS + 1)))
    for seed, (wrong, _) in enumerate(runs, 1):
        report.check(f"replay, seed {seed}", not wrong, "\n    ".join(wrong[:3]))
    report.note(f"replay: {len(runs)} runs, {sum(refused for _, refused in runs)} vectors without memory")


def canonical_faults(program, folder, words):
    """Runs wasmcanon while each of its requests is refused in turn: how often there was no memory, and a fault."""
    files = ["module", "canonical"] if words == ["--diff"] else ["module"]
    right, without_memory = told(program, *words, *files, refused=0, folder=folder), 0
    if not words and right.stdout.encode("latin-1") != CANONICAL:
        return 0, "another canonical form is written"
    for number in range(1, MOST):
        ran = told(program, *words, *files, refused=number, folder=folder)
        error = ran.stderr.replace(REFUSED, "", 1)
        # Memory can run out after the message, while the result is made as JSON.
        told_so = error in (NO_MEMORY, right.stderr + NO_MEMORY)
        if ran.returncode == 3 and told_so and ran.stdout in NOTHING:
            without_memory += 1
        elif (ran.returncode, ran.stdout, error) != (right.returncode, right.stdout, right.stderr):
            return without_memory, f"request {number} refused: status {ran.returncode}: {ran.stderr}"
        if error == ran.stderr:
            return without_memory, "" if without_memory else "its requests aren't refused"
    return without_memory, "its requests don't end"


def canonicalise(report, program, folder):
    (folder / "module").write_bytes(MODULE)
    (folder / "canonical").write_bytes(CANONICAL)
    for words in CALLS:
        without_memory, fault = canonical_faults(program, folder, words)
        name = " ".join(["wasmcanon", *words])
        if report.check(name, not fault, fault):
            report.note(f"{name}: {without_memory} runs without memory")


def run(report):
    with room() as folder, concurrent.futures.ThreadPoolExecutor(os.cpu_count()) as pool:
        sweep_tests(report, Interposed("conformance_tests", CODE, folder), pool)
        replay_by_chance(report, Interposed("replay", CODE, folder), pool)
        canonicalise(report, Interposed("wasmcanon", CODE, folder), folder)
