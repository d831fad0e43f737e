"""`wasmnorm` while reads and writes fail.

`rt ci` built the program, and failed_streams.c intercepts its calls. Each mode gets an input in a longer encoding, byte
by byte. The first read fails, then the second, and so on, until none does: after a failed read nothing is written. The
same holds for writes, which also may write no byte: after a failed write the bytes before it are written. An
interrupted call is a failed call. Long inputs take many calls.
"""
import errno

from parts.common import room
from parts.interposed import Interposed

# An input of each mode and its minimal encoding, worked out by hand.
SAMPLES = {
    "calls": (bytes.fromhex("20C28000"), bytes.fromhex("2042")),
    "types": (bytes.fromhex("014F00600000"), bytes.fromhex("01600000")),
    "module": (
        b"\0asm\1\0\0\0" + bytes.fromhex("018600014F00600000" "03810080"),
        b"\0asm\1\0\0\0" + bytes.fromhex("010401600000" "030180"),
    ),
}
READ_FAILED = (4, "read failed\n")
WRITE_FAILED = (4, "write failed\n")


class Runs:
    """Runs of the program, and the report on them."""

    def __init__(self, report, program):
        self.report, self.program = report, program

    def holds(self, name, mode, data, wanted, output, **numbers):
        """Runs the program, and compares its status, its standard error and its output."""
        ran = self.program.run(mode, numbers=numbers, input=data)
        found = (ran.returncode, ran.stderr.decode())
        why = f"{found}, not {wanted}; output {ran.stdout[:40]!r}, not {output[:40]!r}"
        self.report.check(f"{mode}, {name}, {numbers}", (found, ran.stdout) == (wanted, output), why)


def try_reads(runs, mode, data, normal):
    # The last read finds the end of the input.
    for reads in range(len(data) + 1):
        for error in (errno.EPIPE, errno.EINTR):
            runs.holds("a read fails", mode, data, READ_FAILED, b"", step=1, reads=reads, read_error=error)
    runs.holds("no read fails", mode, data, (0, ""), normal, step=1, reads=len(data) + 1)


def try_writes(runs, mode, data, normal):
    for step in (1, 3):
        calls = -(-len(normal) // step)
        for writes in range(calls):
            for error in (errno.EPIPE, errno.EINTR, 0):
                begun = normal[:writes * step]
                runs.holds("a write fails", mode, data, WRITE_FAILED, begun, step=step, writes=writes,
                           write_error=error)
        runs.holds("no write fails", mode, data, (0, ""), normal, step=step, writes=calls)


def try_long_inputs(runs):
    for length, step in ((100_000, 1), (200_000, 65_536), (3_000_000, 1_000_000)):
        runs.holds("a long input", "calls", b"\1" * length, (0, ""), b"\1" * length, step=step)


def run(report):
    with room() as folder:
        runs = Runs(report, Interposed("wasmnorm", "failed_streams.c", folder))
        for mode, (data, normal) in SAMPLES.items():
            try_reads(runs, mode, data, normal)
            try_writes(runs, mode, data, normal)
        try_long_inputs(runs)
