#!/usr/bin/env python3
"""Measures the peak memory of a program for inputs that hold millions of the shortest or of padded items.

usage: hostile.py WASMNORM            prints a line for each input: its length, the peak, their ratio, seconds and status
       hostile.py WASMCANON WORD..    the same for each module, such as: hostile.py bin/wasmcanon --any-order --report
"""
import pathlib
import subprocess
import sys
import tempfile

COUNT = 4_000_000
PADDED = b"\x80\x80\x80\x80\x00"
HEADER = b"\0asm\1\0\0\0"


def u32(number):
    digits = bytearray()
    while number >= 0x80:
        digits.append(0x80 | number & 0x7F)
        number >>= 7
    return bytes([*digits, number])


def sized(body):
    return u32(len(body)) + body


def list_of(item):
    return u32(COUNT) + item * COUNT


def type_section(body):
    return HEADER + b"\x01" + sized(body)


def code_section(body):
    return HEADER + b"\x0a" + sized(body)


def function(code):
    return code_section(b"\x01" + sized(code))


def inputs():
    n = COUNT
    yield "types 60 00 00", "module", type_section(list_of(b"\x60\0\0"))
    yield "types with padded counts", "module", type_section(list_of(b"\x60\x80\0\x80\0"))
    yield "types 4F 00 5D 00", "module", type_section(list_of(b"\x4f\0\x5d\0"))
    yield "a function type", "module", type_section(b"\1\x60" + u32(4 * n) + b"\x7f" * (4 * n) + b"\0")
    yield "a recursion group", "module", type_section(b"\1\x4e" + u32(n) + b"\x5e\x7f\0" * n)
    yield "a structure of shared types", "module", type_section(b"\1\x5f" + u32(n) + b"\x63\x65\x6e\0" * n)
    yield "code bodies 02 00 0B", "module", code_section(list_of(b"\x02\0\x0b"))
    yield "code bodies with padded sizes", "module", code_section(list_of(b"\x82\x80\x80\x80\x00\0\x0b"))
    yield "locals", "module", function(u32(n) + b"\1\x7f" * n + b"\x0b")
    yield "padded locals", "module", function(u32(n) + b"\x81\0\x7f" * n + b"\x0b")
    yield "nop", "module", function(b"\0" + b"\1" * (8 * n) + b"\x0b")
    yield "padded indexes", "module", function(b"\0" + (b"\x20" + PADDED) * n + b"\x0b")
    yield "one in two padded", "module", function(b"\0" + b"\x20\x80\0\x1a" * n + b"\x0b")
    yield "a br_table", "module", function(b"\0\x0e" + u32(4 * n) + b"\1" * (4 * n) + b"\0\x0b")
    yield "a padded br_table", "module", function(b"\0\x0e" + u32(n) + PADDED * n + b"\0\x0b")
    yield "empty sections", "module", HEADER + b"\0\0" * (2 * n)
    yield "empty sections with padded sizes", "module", HEADER + (b"\0" + PADDED) * n
    yield "empty code sections", "module", HEADER + b"\x0a\1\0" * n
    yield "a raw section", "module", HEADER + b"\0" + sized(b"\0" * (8 * n))
    yield "a raw section with a padded size", "module", HEADER + b"\0\x80\x80\xa1\x8f\x00" + b"\0" * 0x1E8_4000
    yield "sections, and a refusal", "module", HEADER + b"\0\0" * (2 * n) + b"\1"
    yield "nop", "calls", b"\1" * (8 * n)
    yield "padded i32.const", "calls", b"\x41\x80\x80\x80\x80\x00" * n
    yield "padded i64.const", "calls", (b"\x42" + b"\x80" * 9 + b"\0") * n
    yield "memory 0 named", "calls", b"\x28\x42\0\x80\0" * n
    yield "v128.const", "calls", (b"\xfd\x0c" + b"\1" * 16) * (n // 2)
    yield "padded opcodes", "calls", b"\xfe\x80\x00\2\0" * n
    yield "try_table", "calls", b"\x1f\x40\x01\x00\x00\x00" * n
    yield "select with a type", "calls", b"\x1c\x01\x63\x70" * n
    yield "ref.null of padded indexes", "calls", b"\xd0\x80\x00" * n
    yield "nop, and a refusal", "calls", b"\1" * (8 * n) + b"\xff"
    yield "60 00 00", "types", list_of(b"\x60\0\0")
    yield "60 00 00, and a refusal", "types", list_of(b"\x60\0\0") + b"\1"


def measure(program, words, data, room):
    (room / "input").write_bytes(data)
    with open(room / "input", "rb") as given, open(room / "output", "wb") as output:
        command = ["/usr/bin/time", "-f", "%M %e", program, *words]
        ran = subprocess.run(command, stdin=given, stdout=output, stderr=subprocess.PIPE, text=True)
    peak, seconds = ran.stderr.split("\n")[-2].split()
    return int(peak) * 1024, seconds, ran.returncode


def main():
    if len(sys.argv) < 2:
        sys.exit(__doc__)
    program, *words = sys.argv[1:]
    with tempfile.TemporaryDirectory() as room:
        for name, mode, data in inputs():
            if words and mode != "module":
                continue
            peak, seconds, status = measure(program, words or [mode], data, pathlib.Path(room))
            beyond = (peak - len(data)) / 1e6
            print(f"{mode}, {name}: {len(data) / 1e6:.1f} MB and {beyond:.1f}, {peak / len(data):.2f} times, {seconds} s, status {status}")


if __name__ == "__main__":
    main()
