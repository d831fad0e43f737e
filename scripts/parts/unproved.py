"""All that runs without proof: tests of crates, programs with vectors and examples, `wasmnorm` at its edges, launchers,
long modules.

It runs two tasks at a time, and builds as few programs as it can: most of a build is the libraries. It proves nothing:
that is for `rt check` and the gate.
"""
import concurrent.futures
import difflib
import re
import subprocess
import time

from parts import launcher, long_modules, one_build
from parts.common import HELP, ROOT, kit, last_lines, room, run as run_command, said, text_of
from parts.program_runs import CASES
from parts.report import Report
from parts.trial import declared_crates, try_crate

TASKS_AT_A_TIME = 2


def has_tests(crate):
    files = (ROOT / "crates" / crate / "src").rglob("*.rt")
    return any(re.search(r"^ *#\[test\]", file.read_text("utf-8"), re.MULTILINE) for file in files)


def tasks():
    """What is run, each task with the title of its report: those that take longest first."""
    yield "programs", run_programs
    yield "built by launchers", run_launched
    for crate in filter(has_tests, declared_crates()):
        yield f"tests of {crate}", lambda report, crate=crate: run_tests(report, crate)
    yield "launchers of bin", launcher.run


def run_programs(report):
    """Runs the programs that have no launcher."""
    programs = [crate for crate in declared_crates() if (ROOT / "crates" / crate / "stdout").exists()]
    with room() as folder:
        faults = one_build.faults(folder, [crate for crate in programs if crate not in HELP])
    for crate, why in faults.items():
        program = Report(f"program of {crate}", report.verbose)
        program.check(crate, not why, why)
        report.add(program)


def run_launched(report):
    """Runs what needs the programs that the launchers build without proof. Long modules are the first use of each."""
    for title, task in (("long modules of bin", long_modules.run), ("edges of wasmnorm", run_edges),
                        ("program of wasmcanon", run_wasmcanon)):
        report.add(timed(title, task, report.verbose))


def run_tests(report, crate):
    with room() as folder:
        ran = try_crate(folder, crate, "--test", stderr=subprocess.STDOUT)
    results = re.findall(r"^test result: .* (\d+) passed; (\d+) failed;", said(ran), re.MULTILINE)
    report.passed(crate, sum(int(passed) for passed, _ in results))
    failed = sum(int(failed) for _, failed in results)
    if failed or not results:
        report.failed(crate, f"tests failed{last_lines(said(ran), 40)}", failed or 1)


def differences(expected, found):
    lines = [text.decode("utf-8", "replace").splitlines() for text in (expected, found)]
    return last_lines("\n".join(difflib.unified_diff(*lines, "expected", "found", lineterm="", n=0)), 40)


def run_wasmcanon(report):
    """Gives wasmcanon the input of the gate."""
    folder = ROOT / "crates/wasmcanon"
    ran = run_command(ROOT / "bin/wasmcanon", "--unproved", input=(folder / "stdin").read_bytes())
    expected = (folder / "stdout").read_bytes()
    why = f"status {ran.returncode}{differences(expected, ran.stdout)}{last_lines(text_of(ran.stderr))}"
    report.check("wasmcanon", (ran.returncode, ran.stdout) == (0, expected), why)


def run_edges(report):
    """Runs the cases of program_runs, which the launcher of wasmnorm refuses in part."""
    built = run_command(ROOT / "bin/wasmnorm", "--unproved", "calls")
    if built.returncode:
        report.failed("wasmnorm", f"not built{last_lines(said(built))}", len(CASES))
        return
    program, wrong = ROOT / "crates/wasmnorm/out/unproved/wasmnorm", []
    for case in CASES:
        ran = run_command(program, *case.words, input=case.input, env={})
        if (ran.returncode, ran.stdout, ran.stderr) != (case.status, case.output, case.error):
            found = f"status {ran.returncode}, output {ran.stdout[:80]!r}, error {ran.stderr[-300:]!r}"
            wrong.append(f"{case.name}: {found}")
    report.passed("wasmnorm", len(CASES) - len(wrong))
    if wrong:
        report.failed("wasmnorm", f"its answers differ{last_lines(chr(10).join(wrong))}", len(wrong))


def timed(title, task, verbose):
    """Runs a task with a report of its own."""
    report, began = Report(title, verbose), time.monotonic()
    task(report)
    report.note(f"{report.total()}, {time.monotonic() - began:.0f} s")
    return report


def run(report):
    kit()  # or nothing can run
    with concurrent.futures.ThreadPoolExecutor(TASKS_AT_A_TIME) as pool:
        for done in [pool.submit(timed, title, task, report.verbose) for title, task in tasks()]:
            report.add(done.result())
