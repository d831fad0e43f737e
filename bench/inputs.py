#!/usr/bin/env python3
"""bench/inputs.py FOLDER: writes a module of each kind that programs are measured with, as FOLDER/KIND.wasm.

FOLDER/kinds has a line for each: the kind, how many things the module holds, and what one is called.
Where plain_normaliser.rs doesn't know the kind, its normal form stands beside it, as KIND.normal.
FOLDER/linked_instructions has the instructions of linked_code.wasm alone.
Every run writes the same bytes, but for `debug`, `go` and `rust`, which compilers write if they are there. All modules
are well formed; but for these, `linked_json` and `json_functions`, none is valid.
"""
import os
import shutil
import subprocess
import sys
import tempfile
from pathlib import Path

HEAD = bytes.fromhex("00 61 73 6D 01 00 00 00")
HERE = Path(__file__).parent
LINKED = (HERE / "linked_code.wasm").read_bytes()[len(HEAD):]
LINKED_INSTRUCTIONS = 822029
LINKED_BYTES = 2000000
DEBUG_COPIES = 100
JSON = (HERE / "linked_json.wasm").read_bytes()[len(HEAD):]
CUSTOM, TYPES, IMPORT, FUNCTIONS, GLOBAL, EXPORT, ELEMENT, CODE, DATA = 0, 1, 2, 3, 6, 7, 9, 10, 11

FUNCTION_TYPE = bytes.fromhex("60 00 00")
GC_TYPE = bytes.fromhex("50 01 00 5F 02 63 00 01 64 6E 00")  # of type 0, a structure of (mut (ref null 0)) and (ref any)
END = b"\x0B"
DROP = b"\x1A"
I32_ADD = b"\x6A"
LOCAL_GET_0 = b"\x20\x00"
I32_CONST_0 = b"\x41\x00"
I32_CONST_1 = b"\x41\x01"


def number(n):
    """The shortest encoding of an unsigned number."""
    return bytes([n]) if n < 128 else bytes([n & 127 | 128]) + number(n >> 7)


def section(kind, body):
    return bytes([kind]) + number(len(body)) + body


def repeated_list(kind, count, entry):
    """A section that holds an entry so many times; and how many that is."""
    return section(kind, number(count) + entry * count), count, "entry"


def types(count, entry):
    return repeated_list(TYPES, count, entry)[0]


def name(text):
    return number(len(text)) + text


def debug(folder):
    """The sections of one module of many copies of the programs of linked/, with the debug sections of clang."""
    compiled = []
    for file in sorted((HERE.parent / "linked").glob("*.c")):
        for copy in range(DEBUG_COPIES):
            compiled.append(folder / f"{file.stem}_{copy}.o")
            subprocess.run(["clang", "--target=wasm32", "-ffreestanding", "-nostdlib", "-O1", "-g", "-c", "-o",
                            compiled[-1], "-Dexport_name(name)=used", f"-Drun={file.stem}_{copy}", file], check=True)
    linked = folder / "linked.wasm"
    subprocess.run(["wasm-ld", "--no-entry", "--export-all", "-o", linked, *compiled], check=True)
    return linked.read_bytes()[len(HEAD):]


def go(folder):
    """The sections of words.go with Go's runtime."""
    built = folder / "words.wasm"
    target = {**os.environ, "GOOS": "js", "GOARCH": "wasm", "GOCACHE": str(folder), "GO111MODULE": "off"}
    subprocess.run(["go", "build", "-trimpath", "-o", built, HERE / "words.go"], env=target, check=True)
    return built.read_bytes()[len(HEAD):]


def rust_compiler():
    """A rustc that has the standard library for WebAssembly, such as that of Debian's libstd-rust-dev-wasm32."""
    for folder in os.get_exec_path():
        rustc = Path(folder, "rustc")
        if rustc.exists():
            found = subprocess.run([rustc, "--print", "sysroot"], stdout=subprocess.PIPE, text=True)
            if Path(found.stdout.strip(), "lib/rustlib/wasm32-unknown-unknown").exists():
                return rustc
    return None


def rust(folder, rustc):
    """The sections of letters.rs with Rust's standard library and its debug sections."""
    built = folder / "letters.wasm"
    subprocess.run([rustc, "--target", "wasm32-unknown-unknown", "-g", "-C", "opt-level=1", "--crate-type", "cdylib",
                    "-o", built, HERE / "letters.rs"], check=True)
    return built.read_bytes()[len(HEAD):]


def functions(count, code):
    """A code section of equal functions without locals."""
    body = b"\x00" + code + END
    return section(CODE, number(count) + (number(len(body)) + body) * count)


def repeated(count, times, *instructions):
    """Functions that repeat these instructions; and how many instructions that is, each function's end among them."""
    return functions(count, b"".join(instructions) * times), count * (len(instructions) * times + 1), "instruction"


def of(*texts):
    """Instructions, in hexadecimal digits."""
    return [bytes.fromhex(text) for text in texts]


def functions_with_locals(count, *groups):
    """Functions of these groups of locals and no instructions; and how many groups that is."""
    body = number(len(groups)) + b"".join(groups) + END
    return section(CODE, number(count) + (number(len(body)) + body) * count), count * len(groups), "group"


def br_tables(count, labels):
    """Functions of one br_table each, with these labels and the default 0; and how many labels that is."""
    code = b"\x0E" + number(len(labels)) + b"".join(map(number, labels)) + b"\x00"
    return functions(count, code), count * (len(labels) + 1), "label"


def number_at(data, place):
    """The number in LEB128 at a place, and the place behind it."""
    end = place + next(index for index, byte in enumerate(data[place:]) if byte < 128) + 1
    return sum((byte & 127) << 7 * index for index, byte in enumerate(data[place:end])), end


def many_functions(times):
    """The sections of linked_json.wasm with its functions so many times; and how many bytes they have."""
    sections, place = b"", 0
    while place < len(JSON):
        size, start = number_at(JSON, place + 1)
        body = JSON[start:start + size]
        if JSON[place] in (FUNCTIONS, CODE):
            count, items = number_at(body, 0)
            body = number(count * times) + body[items:] * times
        sections += section(JSON[place], body)
        place = start + size
    return sections, len(sections), "byte"


def kinds():
    """Each kind: its name, its sections, how many things they hold, and what one is called."""
    for times in 1, 2, 4, 8:
        yield f"linked_{2 * times}MB", LINKED * times, LINKED_INSTRUCTIONS * times, "instruction"
    yield "padded_indexes", *repeated(6000, 300, bytes.fromhex("20 81 80 80 80 00"))  # local.get 1
    yield "memory_offsets", *repeated(5500, 300, LOCAL_GET_0, b"\x28\x02" + number(70000))  # i32.load
    yield "i64_constants", *repeated(4200, 300, bytes.fromhex("42 FF FF FF FF FF 7E"), DROP)
    yield "small_functions", *repeated(1200000, 1, LOCAL_GET_0, I32_CONST_1, I32_ADD)
    yield "types", types(1500000, bytes.fromhex("60 03 7F 7F 7E 01 7F")), 1500000, "entry"
    yield "padded_types", types(1000000, bytes.fromhex("60 83 00 7F 7F 7E 01 7F")), 1000000, "entry"
    yield "gc_types", types(800000, GC_TYPE), 800000, "entry"
    yield "br_table", *br_tables(150000, range(64))
    yield "long_br_table", *br_tables(1200, [200] * 4000)
    yield "FB_and_FC", *repeated(4000, 200, *map(bytes.fromhex, [
        "FB 02 05 01",  # struct.get 5 1
        "D0 6E",  # ref.null any
        "FB 16 70",  # ref.cast func
        "FC 0A 00 00",  # memory.copy 0 0
    ]))
    yield "memory_indexes", *repeated(3400, 300, *of("28 42 01 08"))  # i32.load, memory 1
    yield "padded_memory", *repeated(2000, 300, *of("28 82 80 80 80 00 88 80 80 80 00"))  # i32.load
    yield "padded_offsets", *repeated(2000, 300, *of("28 02 88 80 80 80 00"))  # i32.load
    yield "reference_locals", *functions_with_locals(50000, *of("01 70", "02 6F", "01 63 05", "01 7F", "03 64 6B") * 5)
    yield "call_indirect", *repeated(4400, 300, *of("11 05 00"))
    yield "typed", *repeated(1000, 200, *of(
        "11 05 00",  # call_indirect 5 0
        "D0 05",  # ref.null 5
        "1C 01 7F",  # select (result i32)
        "02 05",  # block 5
        "FC 08 01 00",  # memory.init 1 0
    ))
    yield "vectors", *repeated(500, 200, *of(
        "FD 0C" + "0123456789ABCDEF" * 2,  # v128.const
        "FD 0D 00 01 02 03 04 05 06 07 08 09 0A 0B 0C 0D 0E 0F",  # i8x16.shuffle
        "FD 15 03",  # i8x16.extract_lane_s 3
        "FD 00 04 10",  # v128.load
        "FD 54 00 08 01",  # v128.load8_lane
        "FD AE 01",  # i32x4.add
    ))
    yield "atomics", *repeated(2000, 200, *of("FE 10 02 08", "FE 1E 02 00", "FE 48 02 10", "FE 03 00"))
    yield "try_tables", *repeated(1400, 300, *of("1F 40 02 00 01 00 02 00", "0B"))
    length = 10000000
    segment = b"\x00" + I32_CONST_0 + END + number(length) + bytes(length)
    yield "data", functions(1, b"") + section(DATA, number(1) + segment), length, "byte"
    yield "imports", *repeated_list(IMPORT, 200000, name(b"env") + name(b"a_function") + b"\x00\x05")
    yield "globals", *repeated_list(GLOBAL, 300000, b"\x7F\x01" + I32_CONST_1 + END)
    yield "exports", *repeated_list(EXPORT, 200000, name(b"a_function") + b"\x00\x05")
    indexes = b"".join(map(number, [*range(8), *range(130, 138)]))
    yield "elements", *repeated_list(ELEMENT, 100000, b"\x00" + I32_CONST_0 + END + number(16) + indexes)
    yield "data_segments", *repeated_list(DATA, 150000, b"\x00" + I32_CONST_0 + END + name(b"sixteen bytes..."))
    yield "custom", section(CUSTOM, name(b"a_function") + bytes(1000)) * 3000, 3000, "section"
    yield "linked_json", JSON, len(JSON), "byte"
    yield "json_functions", *many_functions(20)
    yield "one_function", types(1, FUNCTION_TYPE) + section(FUNCTIONS, b"\x01\x00") + LINKED, LINKED_INSTRUCTIONS, "instruction"
    for kind, sections in real_modules():
        yield kind, sections, len(sections), "byte"


def real_modules():
    """Modules of the compilers that are there."""
    with tempfile.TemporaryDirectory() as folder:
        if shutil.which("clang") and shutil.which("wasm-ld"):
            yield "debug", debug(Path(folder))
        if shutil.which("go"):
            yield "go", go(Path(folder))
        if rustc := rust_compiler():
            yield "rust", rust(Path(folder), rustc)


# The normal forms of the kinds that plain_normaliser.rs doesn't know: it refuses 0xFB, and copies type sections.
NORMAL = {
    "FB_and_FC": lambda sections: sections,
    "gc_types": lambda sections: sections,
    "padded_types": lambda sections: types(1000000, bytes.fromhex("60 03 7F 7F 7E 01 7F")),
}


def main(folder):
    with open(folder / "kinds", "w") as table:
        for kind, sections, count, thing in kinds():
            (folder / f"{kind}.wasm").write_bytes(HEAD + sections)
            if kind in NORMAL:
                (folder / f"{kind}.normal").write_bytes(HEAD + NORMAL[kind](sections))
            print(kind, count, thing, file=table)
    (folder / "linked_instructions").write_bytes(LINKED[-LINKED_BYTES:])


if __name__ == "__main__":
    if len(sys.argv) != 2:
        sys.exit("usage: bench/inputs.py FOLDER")
    main(Path(sys.argv[1]))
