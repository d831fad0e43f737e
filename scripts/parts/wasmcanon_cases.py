"""Modules that `wasmcanon` is run on, and what it prints of them."""
from parts.listing_cases import EVERY

HEADER = b"\0asm\1\0\0\0"
ZEROS = bytes(49_999_998)
TYPE, IMPORT, FUNCTION = b"\1\4\1\x60\0\0", b"\2\1\0", b"\3\2\1\0"
# A section `name` with the name "f" of function 0, and a section `producers` with the language C of an empty version,
# both padded; the same in minimal encoding; and what is no such section, though its contents look alike.
PADDED_NAMES = b"\0\x0F\4name\1\x87\0\x81\0\x80\0\x81\0f"
NAMES = b"\0\x0B\4name\1\4\1\0\1f"
PADDED_PRODUCERS = b"\0\x1D\x09producers\x81\0\x88\0language\x81\0\x81\0C\x80\0"
PRODUCERS = b"\0\x18\x09producers\1\x08language\1\1C\0"
OTHER_NAMES = b"\0\x0F\4nabe\1\x87\0\x81\0\x80\0\x81\0f\0\x0A\4name\1\x84\0\1\0"
# The files that the program is given, by their names.
FILES = {
    # A module with a size of two bytes, a final subtype that is written out, and a memory whose minimum has two bytes;
    # its canonical form; and the module cut within its last section.
    "long": HEADER + b"\1\x86\0\1\x4F\0\x60\0\0\5\4\1\0\x81\0",
    "canonical": HEADER + b"\1\4\1\x60\0\0\5\3\1\0\1",
    "cut": HEADER + b"\1\x86\0\1\x4F\0\x60\0\0\5\4\1\0\x81",
    # The module with a custom section .debug_ before its sections, and one whose memory has a minimum of 2.
    "debug": HEADER + b"\0\x08\7.debug_\1\x86\0\1\x4F\0\x60\0\0\5\4\1\0\x81\0",
    "other": HEADER + b"\1\4\1\x60\0\0\5\3\1\0\2",
    # Their first sections, and a module of a custom section whose name is an escape character.
    "nothing": b"",
    "header": HEADER,
    "types": HEADER + b"\1\4\1\x60\0\0",
    "cut_type": HEADER + b"\1\x86\0\1\x4F\0\x60\0",
    "escape": HEADER + b"\0\2\1\x1B",
    # Custom sections: one of 50 MB with a size of five bytes, its canonical form, and two of which .debug_ is dropped.
    "big": HEADER + b"\0\x80\xE1\xEB\x97\0\1a" + ZEROS,
    "big_canonical": HEADER + b"\0\x80\xE1\xEB\x17\1a" + ZEROS,
    "customs": HEADER + b"\0\x08\7.debug_\0\x82\0\1a",
    "custom": HEADER + b"\0\2\1a",
    # A custom section of 2,000 bytes with a size of three bytes.
    "large": HEADER + b"\0\xD2\x8F\0\1a" + bytes(2000),
    # A custom section whose name's length has two bytes, a function section whose count has two, a start section whose
    # index has two, and a code section with an i32.const whose number has two in the second of two functions.
    "numbers": HEADER + b"\0\4\x81\0ax\3\4\x82\0\0\0\x08\2\x80\0\x0A\x0A\2\2\0\x0B\5\0\x41\x80\0\x0B",
    # Every kind of section.
    "every": EVERY,
    # Sections `name` and `producers` whose sizes, counts, lengths and indices have two bytes each; the same contents
    # under another name, and some that are cut. Then this module with minimal contents, and its names before a .debug_.
    "padded": HEADER + TYPE + PADDED_NAMES + PADDED_PRODUCERS + OTHER_NAMES,
    "unpadded": HEADER + TYPE + NAMES + PRODUCERS + OTHER_NAMES,
    "padded_debug": HEADER + PADDED_NAMES + b"\0\x08\7.debug_",
    # Custom sections of four names.
    "named": HEADER + b"\0\5\4name\0\5\4nabe\0\x08\7.debug_\0\2\1e",
    # Custom sections whose names begin like those that keep offsets, and two that keep them.
    "alike": HEADER + b"\0\x09\x08linkingX\0\x08\7linking\0\7\6reloc.\0\7\6relocs\0\x12\x11sourceMappingURL2",
}
# Names of custom sections, and for each pattern those that it matches.
PATTERN_NAMES = ["ab", "aab", "abab", "ba", "b*a", "\u00e9"]
PATTERNS = {
    "*": PATTERN_NAMES,
    "**": PATTERN_NAMES,
    "": [],
    "ab": ["ab"],
    "ab*": ["ab", "abab"],
    "*ab": ["ab", "aab", "abab"],
    "a**b": ["ab", "aab", "abab"],
    "b*a": ["ba", "b*a"],
    "*b*": ["ab", "aab", "abab", "ba", "b*a"],
    # The piece in front of a `*` and the end may not overlap.
    "ab*ab": ["abab"],
    "*a*ab": ["aab", "abab"],
    "*ba*ab*": [],
    "a*b*a*b": ["abab"],
    "*\u00e9*": ["\u00e9"],
}
EXPORT, CODE, DATA_COUNT, DATA = b"\7\1\0", b"\x0A\4\1\2\0\x0B", b"\x0C\1\1", b"\x0B\3\1\1\0"
# A function with memory.init 0 0 as its fourth instruction.
INIT = b"\x0A\x0E\1\x0C\0\x41\0\x41\0\x41\0\xFC\x08\0\0\x0B"


def functions(*bodies):
    """The function and the code section of functions with these bodies."""
    items = bytes([len(bodies)]) + b"".join(bytes([len(body)]) + body for body in bodies)
    return bytes([3, len(bodies) + 1, len(bodies)]) + bytes(len(bodies)) + bytes([10, len(items)]) + items


# A function with bytes in a constant and in labels that could be the opcode of memory.init: i32.const 1148, drop,
# br_table 1148 1148, end.
LIKE_A_DATA_USE = bytes.fromhex("00 41 FC 08 1A 0E 01 FC 08 FC 08 0B")
# Instructions that name data segments.
DATA_USES = {"memory.init": "FC 08 00 00", "data.drop": "FC 09 00", "array.new_data": "FB 09 00 00",
             "array.init_data": "FB 12 00 00"}
# Locals and instructions with lists: br_table 0 0, select (i32), try_table (catch 0 0), resume 0 (on 0 0), end.
LISTS = bytes.fromhex("01 03 7F 0E 01 00 00 1C 01 7F 1F 40 01 00 00 00 E3 00 01 00 00 00")
# Modules that break a rule: what each is, the message, and the bytes after the header.
DISORDERED = [
    ("an import section after the functions", "import section, offset 0x12: out of order: expected before the function "
     "section", TYPE + FUNCTION + IMPORT),
    ("a second type section", "type section, offset 0xe: second type section", TYPE + TYPE),
    ("a custom section between two of one kind", "type section, offset 0x12: second type section",
     TYPE + b"\0\2\1a" + TYPE),
    ("tags before memories", "memory section, offset 0xb: out of order: expected before the tag section",
     b"\x0D\1\0\5\1\0"),
    ("a data count after the code", "data count section, offset 0x18: out of order: expected before the code section",
     TYPE + FUNCTION + CODE + DATA_COUNT + DATA),
    ("no code", "code section: wrong number of functions: expected 1 as in the function section, found 0",
     TYPE + FUNCTION),
    ("code without functions", "code section: wrong number of functions: expected 0 as in the function section, found "
     "1", TYPE + CODE),
    ("no data", "data section: wrong number of segments: expected 1 as in the data count section, found 0",
     TYPE + DATA_COUNT),
    ("no data count", "code section, function 0, instruction 3: data segment used without a data count section",
     TYPE + FUNCTION + INIT + DATA),
    ("no data count, after instructions with lists", "code section, function 0, instruction 4: data segment used without "
     "a data count section", TYPE + functions(LISTS + b"\xFC\x09\0\x0B")),
] + [
    (f"{name} without a data count", "code section, function 1, instruction 2: data segment used without a data count "
     "section", TYPE + functions(LIKE_A_DATA_USE, b"\0\x20\0\x1A" + bytes.fromhex(use) + b"\x0B"))
    for name, use in DATA_USES.items()
]
# The same with a padded opcode.
PADDED_DATA_USE = ("code section, function 0, instruction 0: data segment used without a data count section",
                   TYPE + functions(bytes.fromhex("00 FC 89 80 00 00 0B")))
# The sections in the standard's order, and code that names data segments.
IN_ORDER = [TYPE + IMPORT + FUNCTION + b"\4\1\0\5\1\0\x0D\1\0\6\1\0" + EXPORT + b"\x08\1\0\x09\1\0" + DATA_COUNT
            + CODE + DATA, TYPE + FUNCTION + DATA_COUNT + INIT + DATA, TYPE + functions(LIKE_A_DATA_USE),
            TYPE + functions(LISTS + b"\x0B")]
NO_HEADER = "offset 0x0: not a WebAssembly module: expected the header 00 61 73 6D 01 00 00 00"
# Inputs that are no module: what each is, the message, and its beginning.
FOREIGN = [(found, f"{NO_HEADER}, found {found}", data) for found, data in (
    ("no bytes", b""), ("a cut header", b"\0as"), ("a cut header", b"\0asm\2"),
    ("an `ar` archive", b"!<arch>\nfoo.o/"), ("a gzip file", b"\x1F\x8B\x08\0\0\0\0\0\0"),
    ("LLVM bitcode", b"BC\xC0\xDE5\x14\0\0"), ("the text format", b"(module $a)"),
    ("text", b"#!/bin/sh\necho \xC3\xA4"), ("7F 45 4C 46", b"\x7FELF\2\1\1\0\0"),
)] + [
    ("a component", "offset 0x0: unsupported version 0x1000d: expected 1, found a component", b"\0asm\x0D\0\1\0"),
    ("version 2", "offset 0x0: unsupported version 0x2: expected 1", b"\0asm\2\0\0\0"),
]

REPORT = b"""\
section    before     after     saved  longer  out of  kind
      0         9         6         3       1       1  type
      1         6         5         1       1       1  memory
  total        23        19         4       2       2  items
                                            1       2  section sizes
                                            0       2  item counts
"""
REPORT_OF_NUMBERS = b"""\
section    before     after     saved  longer  out of  kind
      0         6         5         1       1       1  custom "a"
      1         6         5         1       0       2  function
      2         4         3         1       1       1  start
      3        12        11         1       1       2  code
  total        36        32         4       3       6  items
                                            0       4  section sizes
                                            1       2  item counts
"""
REPORT_OF_NAMES = b"""\
section    before     after     saved  longer  out of  kind
      0         6         6         0       0       1  type
      1        17        13         4       0       1  custom "name"
      2        31        26         5       0       1  custom "producers"
      3        17        17         0       0       1  custom "nabe"
      4        12        12         0       0       1  custom "name"
  total        91        82         9       0       5  items
                                            0       5  section sizes
                                            0       1  item counts
"""
# Of each section in the report of numbers: the longer items, the items, and whether the size or the count is longer.
ENCODINGS = [(1, 1, False, False), (0, 2, False, True), (1, 1, False, False), (1, 2, False, False)]

CUT = "memory section, offset 0x12: size 4 too large: 3 bytes left"
LONG_SIZE = "not minimally encoded: 2 bytes, minimal is 1"
# The status of a question that is answered with no.
NO = 5
NOT_CANONICAL = f"not canonical: type section, offset 0x9: {LONG_SIZE}"
# What is told as JSON of the long module and of the one that is cut.
LONG_AS_JSON = {"file": "long", "canonical": False, "section": 0, "id": 1, "kind": "type", "section_offset": 8,
                "item": None, "local_group": None, "instruction": None, "offset": 9, "reason": LONG_SIZE}
CUT_AS_JSON = {"file": "cut", "error": f"cut: {CUT}", "section": 1, "id": 5, "kind": "memory", "section_offset": 17,
               "item": None, "local_group": None, "instruction": None, "offset": 18,
               "reason": "size 4 too large: 3 bytes left"}
STALE = """\
warning: {file}: custom sections {names}: offsets are stale, because bytes have moved
help: drop such sections with --strip-offsets, or generate them again from the output
"""
# Custom sections of which some keep offsets, after one whose size has two bytes; and the names of those.
STALE_SECTIONS = (b"\0\x86\0\5linki\0\x08\7linking\0\x0B\x0Areloc.CODE\0\2\1a\0\4\3.de\0\x0A\x09.debug_\x1Bx"
                  b"\0\x0E\x0Dmetadata.code\0\x0F\x0Emetadata.code.")
STALE_NAMES = "linking, reloc.CODE, .debug_\\u{1b}x, metadata.code."

# A type, an imported function and two functions; and branch hints of the first, whose code is padded and then isn't:
# after a local and `local.get`, `if` with a hint, `end`, `local.get`, `br_if` with a hint, and `end`.
HINTS = b"\0\x23\x19metadata.code.branch_hint\1\1\2"
UNHINTED = HEADER + bytes.fromhex("01040160000002070101610162000003030200 00")
HINTED = UNHINTED + HINTS + bytes.fromhex("0901010F0100 0A170212018180007F2080800004400B2080000D000B02000B")
HINTS_MOVED = UNHINTED + HINTS + bytes.fromhex("0501010A0100 0A12020D01017F200004400B20000D000B02000B")
# The same, with a hint inside an instruction.
HINTED_NOWHERE = HINTED.replace(b"\x0F\1\0", b"\x10\1\0")

NO_NUMBER = "unexpected end: expected LEB128 number"
# Malformed modules: what each is, the message, and the bytes after the header and an empty type section, from 0xb on.
MALFORMED = [
    ("a value type", "type section, type 0, offset 0x10: invalid value type 0x7a", b"\1\5\1\x60\1\x7A\0"),
    ("a mutability", "type section, type 1, offset 0x13: invalid mutability 0x02", b"\1\7\2\x60\0\0\x5E\x7F\2"),
    ("an import of another kind", "import section, import 0, offset 0x12: invalid import kind 0x05",
     b"\2\7\1\1a\1b\5\0"),
    ("an import's name", "import section, import 0, offset 0x11: name isn't UTF-8 from its byte 0 on",
     b"\2\7\1\1a\1\xFF\0\0"),
    ("an index of six bytes", "import section, import 0, offset 0x13: LEB128 number too long: more than 5 bytes",
     b"\2\x0C\1\1a\1b\0\x80\x80\x80\x80\x80\0"),
    ("an instruction that is cut", f"code section, function 0, offset 0x13: {NO_NUMBER}",
     b"\x0A\6\1\4\1\1\x7F\x41"),
    ("an opcode of two bytes", "code section, function 0, offset 0x10: unknown opcode 0xFD 0x12C",
     b"\x0A\7\1\5\0\xFD\xAC\2\x0B"),
    ("an alignment", "code section, function 0, offset 0x11: alignment flags 128 out of range: expected less than 128",
     b"\x0A\x08\1\6\0\x28\x80\1\0\x0B"),
    ("a group of locals of no type", "code section, function 0, local group 1, offset 0x13: invalid value type 0x00",
     b"\x0A\x08\1\6\2\1\x7F\1\0\x0B"),
    ("a count of locals", "code section, function 0, local group 0, offset 0x10: LEB128 number out of range of u32",
     b"\x0A\x0A\1\x08\1\xFF\xFF\xFF\xFF\x1F\x7F\x0B"),
    ("a function body without bytes", f"code section, function 0, offset 0xf: {NO_NUMBER}", b"\x0A\2\1\0"),
    ("a function body that is cut", "code section, function 0, offset 0xe: size 5 too large: 2 bytes left",
     b"\x0A\4\1\5\0\0"),
    ("an export of another kind", "export section, export 0, offset 0x10: invalid export kind 0x05", b"\7\5\1\1a\5\0"),
    ("a segment of another form", "element section, segment 0, offset 0xe: invalid element segment form 8",
     b"\x09\2\1\x08"),
    ("a segment of another kind", "element section, segment 1, offset 0x12: invalid element kind 0x01",
     b"\x09\7\2\1\0\0\1\1\0"),
    ("trailing bytes", "function section, offset 0xf: 2 trailing bytes", b"\3\4\1\0\0\0"),
    ("a count that is cut", f"memory section, offset 0xe: {NO_NUMBER}", b"\5\1\x80"),
    ("an index that is cut", f"start section, offset 0xe: {NO_NUMBER}", b"\x08\1\x80"),
    ("bytes after an index", "start section, offset 0xf: 2 trailing bytes", b"\x08\4\x80\0\0\0"),
    ("bytes after a count", "data count section, offset 0xe: 2 trailing bytes", b"\x0C\3\0\0\0"),
    ("a name that is cut", "custom section, offset 0xd: size 5 too large: 2 bytes left", b"\0\3\5ab"),
    ("another id", "section 1, offset 0xb: unknown section id 14", b"\x0E\0"),
    ("another id after sections out of order", "section 3, offset 0x11: unknown section id 14",
     b"\5\1\0\1\1\0\x0E\0"),
    ("a body that is cut", "data section, offset 0xc: size 5 too large: 2 bytes left", b"\x0B\5\0\0"),
    ("no size", f"data section, offset 0xc: {NO_NUMBER}", b"\x0B"),
    ("a section that is cut after one that is longer", f"type section, offset 0x10: {NO_NUMBER}",
     b"\5\x81\0\0\1"),
]
# Modules that aren't canonical: what is longer, the message, and the bytes after the header.
LONGER = [
    ("a size", f"type section, offset 0x9: {LONG_SIZE}", b"\1\x81\0\0"),
    ("the size of the second section", "memory section, offset 0xc: not minimally encoded: 5 bytes, minimal is 1",
     b"\1\1\0\5\x81\x80\x80\x80\0\0"),
    ("a count", f"memory section, offset 0xa: {LONG_SIZE}", b"\5\6\x82\0\0\0\0\0"),
    ("a form", "type section, type 0, offset 0xb: not minimally encoded: 5 bytes, minimal is 3",
     b"\1\6\1\x4F\0\x60\0\0"),
    ("a memory", "memory section, memory 1, offset 0xd: not minimally encoded: 3 bytes, minimal is 2",
     b"\5\6\2\0\0\0\x81\0"),
    ("an instruction", "code section, function 1, offset 0x1b: not minimally encoded: 3 bytes, minimal is 2",
     TYPE + b"\3\3\2\0\0\x0A\x0A\2\2\0\x0B\5\0\x41\x80\0\x0B"),
    ("a function's size", f"code section, function 0, offset 0x15: {LONG_SIZE}",
     TYPE + FUNCTION + b"\x0A\5\1\x82\0\0\x0B"),
    ("a number of local groups", f"code section, function 0, offset 0x16: {LONG_SIZE}",
     TYPE + FUNCTION + b"\x0A\5\1\3\x80\0\x0B"),
    ("a number of locals", f"code section, function 0, local group 0, offset 0x17: {LONG_SIZE}",
     TYPE + FUNCTION + b"\x0A\7\1\5\1\x81\0\x7F\x0B"),
    ("a local's type", "code section, function 0, local group 0, offset 0x17: not minimally encoded",
     TYPE + FUNCTION + b"\x0A\7\1\5\1\1\x63\x70\x0B"),
    ("an index", f"start section, offset 0xa: {LONG_SIZE}", b"\x08\2\x80\0"),
    ("a name's length", f"custom section, offset 0xa: {LONG_SIZE}", b"\0\4\x81\0ax"),
    ("a count alone", f"data count section, offset 0xd: {LONG_SIZE}", b"\5\1\0\x0C\2\x80\0"),
]
