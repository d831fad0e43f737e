"""The package for JavaScript and its page, over the module that scripts/wasm-module builds.

The tests of the package run in node, and those of the page in a headless Chromium. The calls of the package must return
what `wasmcanon --any-order` writes and says, for the modules of the vectors, of bench/ and of linked/, and for their
first halves. If node or its 64-bit memories are missing, all is skipped, and without Chromium the page.
"""
import concurrent.futures
import hashlib
import json
import re

from parts import times
from parts.aarch64 import inputs
from parts.common import ROOT, CannotRun, lacks, last_lines, program, room, run as run_command, said, text_of

PACKAGE = ROOT / "bindings/js"
TESTS = ("test/package.test.js", "test/calls.test.js", "page/page.test.mjs")
# Ends with status 0 if node has 64-bit memories, at least by its flag.
PROBE = """
require("v8").setFlagsFromString("--experimental-wasm-memory64");
process.exit(WebAssembly.validate(Uint8Array.of(0, 97, 115, 109, 1, 0, 0, 0, 5, 3, 1, 4, 0)) ? 0 : 1);
"""
# The protocol TAP for TAP below, and for the reader a report that ends with the failing tests.
REPORTERS = ["--test-reporter=tap", "--test-reporter-destination=stdout", "--test-reporter=spec",
             "--test-reporter-destination=stderr"]
# A line of TAP: whether a test failed, its name, and why it was skipped.
TAP = re.compile(r"^ *(not )?ok \d+ - (.*?)(?: # SKIP ?(.*))?$", re.MULTILINE)
# The exit status of `wasmcanon --check` if a module isn't canonical.
NOT_CANONICAL = 5


def try_tests(report, file):
    """Runs a file of tests, and counts each of them."""
    ran = run_command("node", "--test", *REPORTERS, file, cwd=PACKAGE)
    for wrong, name, skipped in TAP.findall(text_of(ran.stdout)):
        if skipped:
            report.skipped(f"{file}: {name}", skipped)
        else:
            report.check(f"{file}: {name}", not wrong, "failed")
    report.check(file, ran.returncode == 0, f"status {ran.returncode}{last_lines(text_of(ran.stderr), 60)}")


def linked(report, folder):
    """The object files and modules that clang and wasm-ld make of the programs of linked/."""
    if any([lacks(report, tool, "no module of linked/ is compared") for tool in ("clang", "wasm-ld")]):
        return
    for source in sorted((ROOT / "linked").glob("*.c")):
        for level in ("-O0", "-O2"):
            compiled, module = folder / "compiled.o", folder / "linked.wasm"
            for words in (["clang", "--target=wasm32", level, "-ffreestanding", "-c", "-o", compiled, source],
                          ["wasm-ld", "--no-entry", "-o", module, compiled]):
                ran = run_command(*words)
                report.check(f"{source.name} {level}: {words[0]}", ran.returncode == 0, said(ran))
            yield from (file.read_bytes() for file in (compiled, module) if file.exists())


def corpus(report, folder):
    """The modules that are compared, by the names of their files in the folder."""
    modules = {half for module in linked(report, folder) for half in (module, module[:len(module) // 2])}
    files = {f"{number}.wasm": module for number, module in enumerate(sorted({*inputs(), *modules}))}
    given = folder / "given"
    given.mkdir()
    for name, module in files.items():
        (given / name).write_bytes(module)
    return given, files


def fault_of(wasmcanon, module, answer):
    """What is wrong with the answer of the package for a module, or an empty text."""
    refusal = answer["refusal"]
    if not answer["agrees"]:
        return "check, explain and isCanonical disagree"
    written = run_command(wasmcanon, "--any-order", "--force", input=module)
    checked = run_command(wasmcanon, "--any-order", "--check", input=module)
    status = 0 if not refusal else 1 if refusal["malformed"] else NOT_CANONICAL
    if (written.returncode, checked.returncode) != (int(status == 1), status):
        return f"expected {refusal}, but wasmcanon ends with {written.returncode}, --check with {checked.returncode}"
    if status != 1:
        digest = hashlib.sha256(written.stdout).hexdigest()
        if (answer["length"], answer["sha256"], answer["hash"]) != (len(written.stdout), digest, digest):
            return f"another canonical form than the {len(written.stdout)} bytes of wasmcanon: {answer}"
    return "" if is_said(refusal, status, checked) else f"another message than `{said(checked)}`: {refusal}"


def is_said(refusal, status, checked):
    """Whether `wasmcanon --check` says the message of the refusal in its first line."""
    if not refusal:
        return True
    marks = "error: standard input: " + "not canonical: " * (status == NOT_CANONICAL)
    return text_of(checked.stderr).partition("\n")[0] == marks + refusal["message"]


def compare(report, folder):
    """Compares the package with the native program."""
    wasmcanon = program("wasmcanon")
    if not wasmcanon.exists():
        report.skipped("the native program", "crates/wasmcanon isn't built: nothing is compared")
        return
    given, files = corpus(report, folder)
    ran = run_command("node", PACKAGE / "test/answers.js", given)
    if not report.check("the answers of the package", ran.returncode == 0, last_lines(said(ran))):
        return
    answers = json.loads(ran.stdout)
    with concurrent.futures.ThreadPoolExecutor(times.cores()) as pool:
        faults = pool.map(lambda name: (name, fault_of(wasmcanon, files[name], answers[name])), files)
    for name, fault in faults:
        start = files[name][:60].hex()
        report.check(f"the answers for {len(files[name])} bytes, {start}", not fault, fault)
    kinds = [answer["refusal"] and answer["refusal"]["malformed"] for answer in answers.values()]
    counts = f"{kinds.count(None)} canonical, {kinds.count(False)} not, {kinds.count(True)} malformed"
    report.check("the kinds of modules", all(kind in kinds for kind in (None, False, True)), counts)
    report.note(f"{len(files)} modules compared: {counts}")


def run(report):
    if lacks(report, "node", "the package isn't tested"):
        return
    if run_command("node", "-e", PROBE).returncode:
        report.skipped("the package", "this node has no 64-bit memories")
        return
    if run_command(ROOT / "scripts/wasm-module", PACKAGE, stdout=None, stderr=None).returncode:
        raise CannotRun("scripts/wasm-module failed")
    for file in TESTS:
        try_tests(report, file)
    with room() as folder:
        compare(report, folder)
