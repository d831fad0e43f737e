"""What the parts share: the repository, the kit, a temporary room, and how programs run."""
import contextlib
import io
import os
import pathlib
import re
import shutil
import subprocess
import sys
import tempfile

from documentation.sources import ROOT

VECTORS = ROOT / "crates/replay/data"
VERSION = (ROOT / "VERSION").read_text("utf-8").strip()
# The sources of the help texts.
HELP = {"wasmnorm": "crates/wasmnorm/src/texts.rt", "wasmcanon": "crates/canon_cli/src/options.rt"}
LAST_LINE = re.compile(r"(\d+) passed, (\d+) failed(?:, \d+ skipped)?$")


class CannotRun(Exception):
    """Why a part can't run, such as wrong words or a program that isn't built."""


@contextlib.contextmanager
def room():
    """A temporary folder, which is removed at the end."""
    with tempfile.TemporaryDirectory(prefix="gate-") as folder:
        yield pathlib.Path(folder).resolve()


def kit():
    """The folder of the kit."""
    page = subprocess.run(["rt", "doc"], capture_output=True, text=True, check=True).stdout
    return pathlib.Path(page.strip()).parent


def kit_line():
    """The kit's line of itself."""
    return subprocess.run(["rt", "version"], capture_output=True, text=True, check=True).stdout.strip()


def run(*words, **how):
    """Runs a command, and returns its status and outputs. Without `input` or `stdin`, it has no input."""
    if "input" not in how:
        how.setdefault("stdin", subprocess.DEVNULL)
    how.setdefault("stdout", subprocess.PIPE)
    how.setdefault("stderr", subprocess.PIPE)
    return subprocess.run(words, **how)


def under(setting, *words):
    """The words of a command that a shell runs after this setting of its own, such as a limit."""
    return ["sh", "-c", f'{setting}; exec "$@"', "sh", *words]


def said(ran):
    """What a command printed, as text."""
    return "\n".join(filter(None, [text_of(ran.stdout), text_of(ran.stderr)]))


def text_of(output):
    return (output or b"").decode("utf-8", "replace").strip()


def read_terminal(ours):
    """Reads a terminal from our side, which is then closed, until no program has the other side open."""
    text = bytearray()
    try:
        while more := os.read(ours, 1 << 16):
            text += more
    except OSError:  # the end of a terminal
        pass
    os.close(ours)
    return text


def last_lines(text, count=20):
    """The last lines of a text, indented below the line that they explain."""
    return "".join(f"\n    {line}" for line in text.splitlines()[-count:])


def copy_tree(folder):
    """Copies what git has of the tree, and what it doesn't ignore, to a folder. Links become files."""
    listed = subprocess.check_output(["git", "ls-files", "-z", "-co", "--exclude-standard"], cwd=ROOT)
    for name in listed.decode().split("\0"):
        if name and (ROOT / name).is_file():
            (folder / name).parent.mkdir(parents=True, exist_ok=True)
            shutil.copy2(ROOT / name, folder / name)


def lacks(report, tool, why):
    """Whether the machine lacks a tool. Then counts as skipped what needs it."""
    if shutil.which(tool):
        return False
    report.skipped(tool, f"not found: {why}")
    return True


def program(name):
    """The program of a crate, as `rt ci` builds it with LLVM."""
    return ROOT / "crates" / name / "out" / name


def help_of(name):
    """The help text of a program, from its source."""
    source = (ROOT / HELP[name]).read_text("utf-8")
    return re.search(r'^const HELP.*\n((?:.*\n)*?.*)";$', source, re.MULTILINE)[1]


def both_programs(report, name):
    """The programs of a crate that `rt ci` builds, with LLVM and with Rattle's own compiler. A missing one fails."""
    for file in (program(name), program(name).with_name(f"{name}.by-rattle")):
        if os.access(file, os.X_OK):
            yield file
        else:
            report.failed(file.relative_to(ROOT), "not found: rt ci builds it")


class Echo(io.TextIOBase):
    """Passes on what is written, and keeps the last line."""

    def __init__(self, output):
        self.output, self.last = output, ""

    def write(self, text):
        self.output.write(text)
        self.output.flush()
        lines = (self.last + text).splitlines(True)
        full = [line for line in lines if line.strip()]
        self.last = full[-1] if full else ""
        return len(text)


def counted(report, name, words, **how):
    """Runs a command that counts its own checks: shows its output, and adds the counts of its last line."""
    echo = Echo(sys.stdout)
    with subprocess.Popen(words, stdin=subprocess.DEVNULL, stdout=subprocess.PIPE, text=True, errors="replace",
                          cwd=ROOT, **how) as process:
        for line in process.stdout:
            echo.write(line)
    add_counts(report, name, echo.last, process.returncode)


def counted_here(report, name, main, words):
    """Does as `counted` with a function that takes words and returns a status. It may print its usage and exit."""
    with contextlib.redirect_stdout(Echo(sys.stdout)) as echo:
        try:
            status = main(words)
        except SystemExit as stop:
            status = stop.code
            if not status:
                return
    add_counts(report, name, echo.last, status)


def add_counts(report, name, last, status):
    """Adds the counts of the last line that a command printed. Without such a line it failed."""
    found = LAST_LINE.match(last)
    if found:
        report.passed(name, int(found[1]))
    if found and int(found[2]):
        report.failed(name, f"{found[2]} failed", int(found[2]))
    elif not found or status:
        report.failed(name, f"ended with status {status}: {last.strip()}")
