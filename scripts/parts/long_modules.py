"""Modules of several megabytes through both tools without proof, which `rt try` limits to 1 MiB of output."""
from parts.common import ROOT, room, run as run_command, said

HEADER = b"\0asm\1\0\0\0"
COUNT = 250_000
CUSTOM = b"\1a" + bytes(4_999_998)


def leb(number):
    """The minimal encoding of a number."""
    digits = []
    while number > 127:
        digits.append(number & 127 | 128)
        number >>= 7
    return bytes([*digits, number])


def sized(content):
    return leb(len(content)) + content


def module(local_get, size):
    """A module of a function with COUNT times this `local.get`, and of CUSTOM after this size."""
    body = b"\0" + local_get * COUNT + b"\x0B"
    code = b"\x0A" + sized(b"\1" + sized(body))
    return HEADER + b"\1\4\1\x60\0\0" + b"\3\2\1\0" + code + b"\0" + size + CUSTOM


def run(report):
    normal = module(b"\x20\0", leb(len(CUSTOM)))
    with room() as folder:
        file, out = folder / "long.wasm", folder / "out"
        file.write_bytes(module(b"\x20\x80\0", b"\xC0\x96\xB1\x82\0"))
        with open(file, "rb") as source:
            ran = run_command(ROOT / "bin/wasmnorm", "--unproved", "module", stdin=source)
        report.check("wasmnorm", (ran.returncode, ran.stdout) == (0, normal), said(ran)[-300:])
        ran = run_command(ROOT / "bin/wasmcanon", "--unproved", file, "-o", out)
        written = ran.returncode == 0 and out.read_bytes() == normal
        report.check("wasmcanon", written, said(ran)[-300:])
