"""Exit statuses and messages of `wasmnorm`, also with failing streams and too little memory.

`rt ci` builds two programs, with LLVM and with Rattle's own compiler; this part runs both.
"""
import dataclasses
import os

from parts.common import VERSION, both_programs, help_of, room, run as run_command, under

USAGE = b"usage: wasmnorm calls|types|module\n"
HELP_LINES = f"{help_of('wasmnorm')}\n".encode()
VERSION_LINE = f"wasmnorm {VERSION}\n".encode()
HEADER = b"\0asm\1\0\0\0"


@dataclasses.dataclass
class Case:
    """A run of the program: its input and arguments, and the expected status and outputs."""

    name: str
    words: list
    input: bytes
    status: int
    output: bytes = b""
    error: bytes = b""


CASES = [
    Case("instructions", [b"calls"], b"\x20\xC2\x80\0", 0, b"\x20\x42"),
    Case("nothing", [b"calls"], b"", 0),
    Case("a type section", [b"types"], b"\1\x4F\0\x60\0\0", 0, b"\1\x60\0\0"),
    Case("a module", [b"module"], HEADER + b"\0\x81\0\x2A", 0, HEADER + b"\0\1\x2A"),
    Case("instructions that are minimally encoded", [b"calls"], b"\x20\x42", 0, b"\x20\x42"),
    Case("a module of no sections", [b"module"], HEADER, 0, HEADER),
    Case("malformed instructions", [b"calls"], b"\x20\0\xFF", 1, error=b"refused at 2\n"),
    Case("a number that is no opcode", [b"calls"], b"\x0B\x0B\x16", 1, error=b"refused at 2\n"),
    Case("a byte after the entries", [b"types"], b"\1\x60\0\0\0", 1, error=b"refused at 4\n"),
    Case("no count of entries", [b"types"], b"", 1, error=b"refused at 0\n"),
    Case("no header", [b"module"], b"", 1, error=b"refused at 0\n"),
    Case("a section that is cut", [b"module"], HEADER + b"\1\x86\0\1\x4F\0\x60\0\0\3\x81\0", 1,
         error=b"refused at 17\n"),
    Case("a malformed type section", [b"types"], b"\1\xFF", 1, error=b"refused at 1\n"),
    Case("a malformed module", [b"module"], b"hello", 1, error=b"refused at 0\n"),
    Case("no argument", [], b"\1", 2, error=USAGE),
    Case("another word", [b"instructions"], b"\1", 2, error=USAGE),
    Case("a longer word", [b"modules"], b"\1", 2, error=USAGE),
    Case("a word in capitals", [b"Calls"], b"\1", 2, error=USAGE),
    Case("a word with a space", [b"calls "], b"\1", 2, error=USAGE),
    Case("an empty word", [b""], b"\1", 2, error=USAGE),
    Case("a word before the mode", [b"x", b"calls"], b"\1", 2, error=USAGE),
    Case("a word after the mode", [b"calls", b"x"], b"\1", 2, error=USAGE),
    Case("a mode twice", [b"calls", b"calls"], b"\1", 2, error=USAGE),
    Case("the help", [b"--help"], b"\xFF", 0, HELP_LINES),
    Case("the help by a letter", [b"-h"], b"", 0, HELP_LINES),
    Case("the version", [b"--version"], b"", 0, VERSION_LINE),
    Case("the version by a letter", [b"-V"], b"", 0, VERSION_LINE),
    Case("the help with a mode", [b"--help", b"calls"], b"\1", 2, error=USAGE),
    Case("an argument that isn't UTF-8", [b"\xFF"], b"\1", 2, error=USAGE),
]

# Limits in KiB: the first that is tried, the step, and those at which a search ends.
FIRST_LIMIT, STEP, HIGHEST_FIRST, HIGHEST = 1024, 256, 262144, 524288


def shown(output):
    """The first bytes of an output."""
    return repr(output[:80])


class Runs:
    """Runs of one program, and the report on them."""

    def __init__(self, report, program, folder):
        self.report, self.program, self.room = report, program, folder

    def judge(self, name, ran, status, output=b"", error=b""):
        """Compares a run with what is expected."""
        found = (ran.returncode, ran.stdout or b"", ran.stderr or b"")
        why = f"status {found[0]}, not {status}; output {shown(found[1])}, not {shown(output)}; error {shown(found[2])}"
        self.report.check(f"{self.program.name}: {name}", found == (status, output, error), why)

    def on_file(self, data, *words, **how):
        """Runs the program with standard input from a file."""
        (self.room / "in").write_bytes(data)
        with open(self.room / "in", "rb") as source:
            return run_command(self.program, *words, stdin=source, **how)


def try_cases(runs):
    for case in CASES:
        runs.judge(case.name, runs.on_file(case.input, *case.words), case.status, case.output, case.error)


def try_streams(runs):
    if os.path.exists("/dev/full"):
        with open("/dev/full", "wb") as full:
            ran = runs.on_file(b"\x20\0", "calls", stdout=full)
        runs.judge("a device that is full", ran, 4, error=b"write failed\n")
        for word in ("--help", "--version"):
            with open("/dev/full", "wb") as full:
                ran = run_command(runs.program, word, stdout=full)
            runs.judge(f"a device that is full, {word}", ran, 4, error=b"write failed\n")
    ran = run_command(*under("exec >&-", runs.program, "calls"), input=b"\x20\0")
    runs.judge("a closed output", ran, 4, error=b"write failed\n")
    ran = run_command(*under("exec <&-", runs.program, "calls"))
    runs.judge("a closed input", ran, 4, error=b"read failed\n")
    folder = os.open(runs.room, os.O_RDONLY)
    ran = run_command(runs.program, "calls", stdin=folder)
    os.close(folder)
    runs.judge("an input that can't be read", ran, 4, error=b"read failed\n")
    ran = run_command(*under("exec 2>&-", runs.program, "calls"), input=b"\xFF")
    runs.judge("an error message that nobody reads", ran, 1)
    runs.judge("a pipe", run_command(runs.program, "types", input=b"\1\x60\0\0"), 0, b"\1\x60\0\0")


def limited(runs, limit, mode, file):
    with open(file, "rb") as source:
        return run_command(*under(f"ulimit -v {limit}", runs.program, mode), stdin=source)


def try_without_memory(runs, mode, file):
    """Runs the program with more and more memory, from too little for an empty input. It must report lack of memory and
    write nothing, until it writes all of the output."""
    with open(file, "rb") as source:
        normal = run_command(runs.program, mode, stdin=source).stdout
    limit = FIRST_LIMIT
    while limit < HIGHEST_FIRST and limited(runs, limit, "calls", os.devnull).returncode:
        limit += STEP
    refusals = 0
    ran = limited(runs, limit, mode, file)
    while ran.returncode == 3 and limit < HIGHEST:
        runs.judge(f"{mode} in {limit} KiB", ran, 3, error=b"no memory\n")
        refusals += 1
        limit += STEP
        ran = limited(runs, limit, mode, file)
    runs.judge(f"{mode} in {limit} KiB", ran, 0, normal)
    runs.report.check(f"{runs.program.name}: {mode}: memory was too small", refusals > 3, f"{refusals} times")


def long_inputs():
    """Inputs of two million bytes and more: instructions, types, a module. Each has a longer encoding at its end."""
    types = b"\xC0\x84\x3D" + b"\x60\0\0" * 999_999 + b"\x4F\0\x60\0\0"
    return {"calls": b"\1" * 2_000_000 + b"\x20\x80\0", "types": types, "module": HEADER + b"\1\xC5\x8D\xB7\1" + types}


def run(report):
    with room() as folder:
        files = {mode: folder / mode for mode in ("calls", "types", "module")}
        for mode, data in long_inputs().items():
            files[mode].write_bytes(data)
        for program in both_programs(report, "wasmnorm"):
            runs = Runs(report, program, folder)
            try_cases(runs)
            try_streams(runs)
            for mode, file in files.items():
                try_without_memory(runs, mode, file)
