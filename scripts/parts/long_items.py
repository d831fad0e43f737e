"""Modules with one long item: cases of wasmcanon_runs.py."""
from parts.long_modules import leb, sized
from parts.wasmcanon_cases import FUNCTION, HEADER, TYPE

# Length of the item, of which a copy would be noticed.
LENGTH = 3_000_000


def section(number, body):
    return bytes([number]) + sized(body)


def code(instructions):
    """A module of one function with these instructions."""
    return HEADER + TYPE + FUNCTION + section(10, b"\1" + sized(b"\0" + instructions + b"\x0B"))


def group(end, begin=b"\x60\1\x7F\1"):
    """A recursion group of function types, which begin with these bytes; the last ends with `end`."""
    count = LENGTH // (len(begin) + 1)
    types = (begin + b"\x7E") * (count - 1) + begin + end
    return HEADER + section(1, b"\1\x4E" + leb(count) + types)


def indexes(last, digits=b"\0"):
    """As many indexes as have the length, after their number; `last` is the last."""
    count = LENGTH // len(digits)
    return leb(count) + digits * (count - 1) + last


def expressions(last):
    count = LENGTH // 3
    return leb(count) + b"\xD2\0\x0B" * (count - 1) + b"\xD2" + last + b"\x0B"


def names(last):
    count = LENGTH // 9
    namings = b"".join(leb(at) + b"\5n%04x" % (at % 65536) for at in range(count - 1)) + leb(count - 1) + last
    return HEADER + section(0, b"\4name\1" + sized(leb(count) + namings))


def long_items():
    """Each kind of item, with two modules. They differ in the last byte or name of it, or the second lacks it."""
    yield "group of types", group(b"\x7E"), group(b"\x7D")
    yield "padded group of types", *(group(end, b"\x60\x81\0\x7F\1") for end in (b"\x7E", b"\x7D"))
    yield "br_table", *(code(b"\x41\0\x0E" + indexes(last) + b"\0") for last in (b"\0", b"\1"))
    yield "padded br_table", *(
        code(b"\x41\0\x0E" + indexes(last, b"\x80\0") + b"\0") for last in (b"\x80\0", b"\x81\0"))
    yield "element segment", *(HEADER + section(9, b"\1\1\0" + indexes(last)) for last in (b"\0", b"\1"))
    yield "padded element segment", *(
        HEADER + section(9, b"\1\2\0\x41\0\x0B\0" + indexes(last, b"\x80\0")) for last in (b"\x80\0", b"\x81\0"))
    yield "segment of expressions", *(HEADER + section(9, b"\1\5\x70" + expressions(last)) for last in (b"\0", b"\1"))
    yield "function", *(code(b"\x41\0\x1A" * (LENGTH // 3) + last) for last in (b"\1", b"\0"))
    yield "padded function", *(code(b"\x41\x80\0\x1A" * (LENGTH // 4) + last) for last in (b"\1", b"\0"))
    yield "name map", names(b"\4last"), names(b"\4lost")
    yield "data segment", *(HEADER + section(11, b"\1\1" + sized(bytes(LENGTH) + last)) for last in (b"\0", b"\1"))
    yield "padded data segment", *(
        HEADER + section(11, b"\1\x81\0" + sized(bytes(LENGTH) + last)) for last in (b"\0", b"\1"))
    yield "group of types that one module lacks", group(b"\x7E"), HEADER + section(1, b"\0")
    yield "element section that one module lacks", HEADER + section(9, b"\1\1\0" + indexes(b"\0")), HEADER
