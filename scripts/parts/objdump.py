"""The instructions of a module as `wasmcanon --list` and as `wasm-objdump -d` print them, in one form."""
import itertools
import re

from parts.common import run, text_of

# A line of code: its offset, its bytes and its text; and a line that goes on with an instruction of a listing.
CODE = re.compile(r" ([0-9a-f]{6,}):(?: [0-9a-f]{2})+ +\|(.*)$")
FURTHER = re.compile(r" {8}[ 0-9a-f]{27} \|(.*)$")
CALL_INDIRECT = re.compile(r"((?:return_)?call_indirect) (\d+).* \(type (\d+)")
I32_CONST = re.compile(r"i32\.const (\d+)$")
# A memory argument of a listing: another memory than 0, the offset, and the alignment in bytes.
MEM_ARG = re.compile(r"(?: (\d+))? offset=(\d+) align=(\d+)")


def one_form(text):
    """The text of an instruction without names and marks. wasm-objdump prints i32 constants without a sign, the
    fraction of some numbers as a lone point, an ordering as its number, and a memory argument as the alignment's
    logarithm, the offset, and another memory than 0."""
    text = MEM_ARG.sub(objdump_mem_arg, re.sub(r"; .*", "", text).strip())
    call, constant = CALL_INDIRECT.match(text), I32_CONST.match(text)
    if call:
        return "{} {} (type {})".format(*call.groups())
    if constant and int(constant[1]) >= 1 << 31:
        return f"i32.const {int(constant[1]) - (1 << 32)}"
    return re.sub(r" <.*", "", text).replace("0x1.p", "0x1p").replace("atomic.fence 0", "atomic.fence seq_cst")


def objdump_mem_arg(found):
    memory, offset, align = found.groups()
    return f" {int(align).bit_length() - 1} {offset}" + (f" (memory {memory})" if memory else "")


def listed(wasmcanon, module):
    """The offsets and texts of all instructions that a listing shows; the status and the error of a run that failed."""
    ran = run(wasmcanon, "--list", "--any-order", module)
    if ran.returncode:
        return [(ran.returncode, text_of(ran.stderr))]
    found, is_code = [], False
    for line in ran.stdout.decode("utf-8", "replace").splitlines():
        begins, further = CODE.match(line), FURTHER.match(line)
        if line.startswith("section "):
            is_code = re.match(r"section \d+: code,", line) is not None
        elif is_code and begins:
            found.append([int(begins[1], 16), begins[2].strip()])
        elif is_code and further and found:
            found[-1][1] += f" {further[1].strip()}"
    return [(at, one_form(text)) for at, text in found if not re.match(r"\d+ locals? of ", text)]


def disassembled(module):
    """The offsets and texts of all instructions that wasm-objdump shows. A long one goes on in lines without text."""
    lines = run("wasm-objdump", "-d", module).stdout.decode("utf-8", "replace").splitlines()
    found = [(int(line[1], 16), line[2].strip()) for line in map(CODE.match, lines) if line]
    return [(at, one_form(text)) for at, text in found if text and not text.startswith("local[")]


def difference(wasmcanon, module):
    """Compares both. Returns the number of instructions, and the first that differs."""
    ours, theirs = listed(wasmcanon, module), disassembled(module)
    for one, other in itertools.zip_longest(ours, theirs):
        if one != other:
            return len(ours), f"{one} listed, {other} by wasm-objdump"
    return len(ours), "" if ours else "no instructions"
