"""Modules with their listings, worked out by hand from the standard, for the part wasmcanon-runs."""

HEADER = b"\0asm\1\0\0\0"
# A module with every kind of section, by the offsets of the sections, and a memory, a section size and an instruction
# that aren't minimally encoded.
EVERY = HEADER + b"".join((
    b"\1\5\1\x60\1\x7F\0",  # 0x08: a function type with a parameter i32
    b"\2\7\1\1a\1b\0\0",  # 0x0f: the function b of a
    b"\3\2\1\0",  # 0x18: a function
    b"\4\5\1\x70\1\1\2",  # 0x1c: a table of 1 to 2 functions
    b"\5\4\1\0\x81\0",  # 0x23: a memory of one page
    b"\x0D\3\1\0\0",  # 0x29: a tag
    b"\6\6\1\x7F\1\x41\x2A\x0B",  # 0x2e: a variable i32 that begins with 42
    b"\7\5\1\1m\2\0",  # 0x36: the memory as m
    b"\x08\1\1",  # 0x3d: the start function
    b"\x09\7\1\0\x41\0\x0B\1\1",  # 0x40: function 1 at 0 of the table
    b"\x0C\1\1",  # 0x49: a data segment
    b"\x0A\x8F\0\1\x0D\1\2\x7F\2\x40\x41\x85\0\x1A\x10\1\x0B\x0B",  # 0x4c: two locals; block; 5; drop; call 1; ends
    b"\x0B\x09\1\0\x41\x10\x0B\3a\0z",  # 0x5e: three bytes at 16
    b"\0\x0E\4name\1\7\1\1\4main",  # 0x69: the name of function 1
))
LISTING = """\
section 0: type, offset 0x8, 7 bytes, 1 type
 00000b      4 | type[0] func (i32) -> nil
section 1: import, offset 0xf, 9 bytes, 1 import
 000012      6 | func[0] type 0 <- "a" "b"
section 2: function, offset 0x18, 4 bytes, 1 function
 00001b      1 | func[1] type 0 <main>
section 3: table, offset 0x1c, 7 bytes, 1 table
 00001f      4 | table[0] funcref initial=1 max=2
section 4: memory, offset 0x23, 6 bytes, 1 memory
 000026      3 | memory[0] initial=1 <m>; 3 bytes, minimal is 2
section 5: tag, offset 0x29, 5 bytes, 1 tag
 00002c      2 | tag[0] type 0
section 6: global, offset 0x2e, 8 bytes, 1 global
 000031      5 | global[0] mut i32 = (i32.const 42)
section 7: export, offset 0x36, 7 bytes, 1 export
 000039      4 | memory[0] -> "m"
section 8: start, offset 0x3d, 3 bytes
 00003f      1 | func[1] <main>
section 9: element, offset 0x40, 9 bytes, 1 segment
 000043      6 | segment[0] active table 0 offset (i32.const 0): func 1
section 10: data count, offset 0x49, 3 bytes
 00004b      1 | 1 data segment
section 11: code, offset 0x4c, 18 bytes, 1 function; size 2 bytes, minimal is 1
 000050     14 | func[1] <main>
 000052: 02 7f                      | 2 locals of i32
 000054: 02 40                      | block
 000056: 41 85 00                   |   i32.const 5; 3 bytes, minimal is 2
 000059: 1a                         |   drop
 00005a: 10 01                      |   call 1 <main>
 00005c: 0b                         | end
 00005d: 0b                         | end
section 12: data, offset 0x5e, 11 bytes, 1 segment
 000061      8 | segment[0] active memory 0 offset (i32.const 16): 3 bytes
  000066: 61 00 7a                                        | a.z
section 13: custom "name", offset 0x69, 16 bytes
 000070      3 | function names, 7 bytes, 1 entry
 000073      6 | func[1] "main"
"""
# What JSON tells of some of its items: the sections' and items' numbers, and the members.
EVERY_AS_JSON = [
    (4, 0, {"item": 0, "offset": 0x26, "size": 3, "minimal": 2, "text": "memory[0] initial=1", "name": "m"}),
    (6, 0, {"item": 0, "offset": 0x31, "size": 5, "minimal": None, "text": "global[0] mut i32 = (i32.const 42)",
            "name": None}),
    (8, 0, {"item": 0, "offset": 0x3F, "size": 1, "minimal": None, "text": "func[1]", "name": "main"}),
]
CALL_AS_JSON = {"offset": 0x5A, "size": 2, "minimal": None, "depth": 1, "text": "call 1", "name": "main"}

# A function type and a function, and code whose one instruction before the end has these bytes.
TYPES = b"\1\4\1\x60\0\0\3\2\1\0"


def sized(content):
    assert len(content) < 128
    return bytes([len(content)]) + content


def code(*instructions):
    return HEADER + TYPES + b"\x0A" + sized(b"\1" + sized(b"\0" + b"".join(instructions) + b"\x0B"))


# Instructions, and how they are listed at offset 0x17 of a module. Long ones go on in further lines.
INSTRUCTIONS = [
    (b"\x41\x7F", " 000017: 41 7f                      | i32.const -1"),
    (b"\x42\xE4\0", " 000017: 42 e4 00                   | i64.const 100"),
    (b"\x43\0\0\xC0\x3F", " 000017: 43 00 00 c0 3f             | f32.const 0x1.8p+0"),
    (b"\x43\1\0\0\0", " 000017: 43 01 00 00 00             | f32.const 0x1p-149"),
    (b"\x43\0\2\x80\xFF", " 000017: 43 00 02 80 ff             | f32.const -nan:0x200"),
    (b"\x44\0\0\0\0\0\0\x59\x40", " 000017: 44 00 00 00 00 00 00 59 40 | f64.const 0x1.9p+6"),
    (b"\x44\0\0\0\0\0\0\xF0\x7F", " 000017: 44 00 00 00 00 00 00 f0 7f | f64.const inf"),
    (b"\x28\2\x08", " 000017: 28 02 08                   | i32.load offset=8 align=4"),
    (b"\x28\x42\1\x08", " 000017: 28 42 01 08                | i32.load 1 offset=8 align=4"),
    (b"\x3A\0\0", " 000017: 3a 00 00                   | i32.store8 offset=0 align=1"),
    (b"\x37\3\xFF\xFF\xFF\xFF\xFF\xFF\xFF\xFF\xFF\1",
     " 000017: 37 03 ff ff ff ff ff ff ff | i64.store offset=18446744073709551615\n"
     "         ff ff 01                   |   align=8"),
    (b"\x29\x3F\0", " 000017: 29 3f 00                   | i64.load offset=0 align=9223372036854775808"),
    (b"\xFD\x54\0\0\3", " 000017: fd 54 00 00 03             | v128.load8_lane offset=0 align=1 3"),
    (b"\xFD\x5B\x43\2\x10\1", " 000017: fd 5b 43 02 10 01          | v128.store64_lane 2 offset=16 align=8 1"),
    (b"\xFE\x10\2\4", " 000017: fe 10 02 04                | i32.atomic.load offset=4 align=4"),
    (b"\xFE\0\x42\1\0", " 000017: fe 00 42 01 00             | memory.atomic.notify 1 offset=0 align=4"),
    (b"\x11\3\0", " 000017: 11 03 00                   | call_indirect 0 (type 3)"),
    (b"\x02\x7F\x41\0\x0B", " 000017: 02 7f                      | block i32\n"
     " 000019: 41 00                      |   i32.const 0\n 00001b: 0b                         | end"),
    (b"\x04\x40\x05\x0B", " 000017: 04 40                      | if\n 000019: 05                         | else\n"
     " 00001a: 0b                         | end"),
    (b"\x03\1\x0B", " 000017: 03 01                      | loop type[1]\n 000019: 0b                         | end"),
    (b"\x0E\2\0\1\0", " 000017: 0e 02 00 01 00             | br_table 0 1 0"),
    (b"\x0E\x0A" + bytes(11), " 000017: 0e 0a 00 00 00 00 00 00 00 | br_table 0 0 0 0 0 0 0 0 0 0 0\n"
     "         00 00 00 00                |"),
    (b"\xD0\x70", " 000017: d0 70                      | ref.null func"),
    (b"\x1C\1\x6F", " 000017: 1c 01 6f                   | select externref"),
    (b"\xFD\x0C\1\0\0\0\2\0\0\0\3\0\0\0\xFF\xFF\xFF\xFF",
     " 000017: fd 0c 01 00 00 00 02 00 00 | v128.const 0x00000001 0x00000002\n"
     "         00 03 00 00 00 ff ff ff ff |   0x00000003 0xffffffff"),
    (b"\x20\xC2\x80\0", " 000017: 20 c2 80 00                | local.get 66; 4 bytes, minimal is 2"),
    (b"\2\x40\6\x40\1\x18\0\x0B", " 000017: 02 40                      | block\n"
     " 000019: 06 40                      |   try\n 00001b: 01                         |     nop\n"
     " 00001c: 18 00                      |   delegate 0\n 00001e: 0b                         | end"),
    (b"\xFB\x18\1\0\x6E\5", " 000017: fb 18 01 00 6e 05          | br_on_cast 0 anyref (ref 5)"),
    (b"\xFB\x19\2\1\x70\x6F", " 000017: fb 19 02 01 70 6f          | br_on_cast_fail 1 (ref func) externref"),
    (b"\xFE\x5C\1\2\3", " 000017: fe 5c 01 02 03             | struct.atomic.get acq_rel 2 3"),
    (b"\xFE\x67\0\2", " 000017: fe 67 00 02                | array.atomic.get seq_cst 2"),
    (b"\x43\0\0\xC0\x7F", " 000017: 43 00 00 c0 7f             | f32.const nan"),
    (b"\x44\1\0\0\0\0\0\xF0\x7F", " 000017: 44 01 00 00 00 00 00 f0 7f | f64.const nan:0x1"),
    (b"\x44\0\0\0\0\0\0\xF8\xFF", " 000017: 44 00 00 00 00 00 00 f8 ff | f64.const -nan"),
]

NAMED_F, NAMED_G = (b"\0\x0B\4name\1\4\1\0\1" + name for name in (b"f", b"g"))


def section(number, content):
    return bytes([number]) + sized(content)


def items(number, *content):
    """A section with these items."""
    return section(number, bytes([len(content)]) + b"".join(content))


def names(*maps):
    """A `name` section of name maps, each made by `items`."""
    return section(0, b"\4name" + b"".join(maps))


def symbols(*entries):
    """A `linking` section with a symbol table."""
    return section(0, b"\7linking\2" + section(8, bytes([len(entries)]) + b"".join(entries)))


# A function type; functions; and bodies: call 0 to call 5; another with nothing in it.
ONE_TYPE = items(1, b"\x60\0\0")
CALLS, EMPTY = sized(b"\0\x10\0\x10\1\x10\2\x10\3\x10\4\x10\5\x0B"), b"\2\0\x0B"


def functions(*bodies):
    return items(3, *[b"\0"] * len(bodies)) + items(10, *bodies)


# Modules: what each shows, the bytes after the header, and the listing.
LISTINGS = [
    ("indices after a recursive group", b"\1\x0D\2\x4E\2\x60\0\0\x60\1\x7F\0\x60\0\0", """\
section 0: type, offset 0x8, 15 bytes, 2 types
 00000b      9 | rec type[0] func () -> nil, type[1] func (i32) -> nil
 000014      3 | type[2] func () -> nil
"""),
    ("tags after an imported one", b"\2\x08\1\1a\1b\4\0\0\x0D\3\1\0\0", """\
section 0: import, offset 0x8, 10 bytes, 1 import
 00000b      7 | tag[0] type 0 <- "a" "b"
section 1: tag, offset 0x12, 5 bytes, 1 tag
 000015      2 | tag[1] type 0
"""),
    ("names of the first of two sections", b"\1\4\1\x60\0\0\3\2\1\0\x0A\4\1\2\0\x0B" + NAMED_F + NAMED_G, """\
section 0: type, offset 0x8, 6 bytes, 1 type
 00000b      3 | type[0] func () -> nil
section 1: function, offset 0xe, 4 bytes, 1 function
 000011      1 | func[0] type 0 <f>
section 2: code, offset 0x12, 6 bytes, 1 function
 000015      3 | func[0] <f>
 000017: 0b                         | end
section 3: custom "name", offset 0x18, 13 bytes
 00001f      3 | function names, 4 bytes, 1 entry
 000022      3 | func[0] "f"
section 4: custom "name", offset 0x25, 13 bytes
 00002c      3 | function names, 4 bytes, 1 entry
 00002f      3 | func[0] "g"
"""),
    ("names of a name section, exports and imports", ONE_TYPE
     + items(2, b"\3env\3log\0\0", b"\1a\1g\3\x7F\0", b"\1a\3f\x1B\n\x20\0") + items(3, *[b"\0"] * 4)
     + items(7, b"\1b\0\4", b"\1a\0\3", b"\1c\0\3", b"\1b\0\5", b"\2go\0\0", b"\1m\3\0")
     + items(10, CALLS, EMPTY, EMPTY, EMPTY) + names(items(1, b"\2\3two", b"\4\5fo\7ur")), """\
section 0: type, offset 0x8, 6 bytes, 1 type
 00000b      3 | type[0] func () -> nil
section 1: import, offset 0xe, 28 bytes, 3 imports
 000011     10 | func[0] type 0 <- "env" "log" <go>
 00001b      7 | global[0] i32 <- "a" "g" <m>
 000022      8 | func[1] exact type 0 <- "a" "f\\u{1b}\\u{a}"
section 2: function, offset 0x2a, 7 bytes, 4 functions
 00002d      1 | func[2] type 0 <two>
 00002e      1 | func[3] type 0 <a>
 00002f      1 | func[4] type 0 <fo\\u{7}ur>
 000030      1 | func[5] type 0 <b>
section 3: export, offset 0x31, 28 bytes, 6 exports
 000034      4 | func[4] -> "b"
 000038      4 | func[3] -> "a"
 00003c      4 | func[3] -> "c"
 000040      4 | func[5] -> "b"
 000044      5 | func[0] -> "go"
 000049      4 | global[0] -> "m"
section 4: code, offset 0x4d, 27 bytes, 4 functions
 000050     15 | func[2] <two>
 000052: 10 00                      | call 0 <go>
 000054: 10 01                      | call 1 <a.f\\u{1b}\\u{a}>
 000056: 10 02                      | call 2 <two>
 000058: 10 03                      | call 3 <a>
 00005a: 10 04                      | call 4 <fo\\u{7}ur>
 00005c: 10 05                      | call 5 <b>
 00005e: 0b                         | end
 00005f      3 | func[3] <a>
 000061: 0b                         | end
 000062      3 | func[4] <fo\\u{7}ur>
 000064: 0b                         | end
 000065      3 | func[5] <b>
 000067: 0b                         | end
section 5: custom "name", offset 0x68, 22 bytes
 00006f      3 | function names, 13 bytes, 2 entries
 000072      5 | func[2] "two"
 000077      7 | func[4] "fo\\u{7}ur"
"""),
    ("names of symbols", ONE_TYPE + items(2, b"\1e\1f\0\0") + functions(CALLS, EMPTY)
     + symbols(b"\0\0\2\4late", b"\1\0\2dd\0\0\0", b"\0\x10\0", b"\0\x50\0\3log", b"\3\0\0", b"\2\0\1\2gg",
               b"\0\0\1\3one", b"\0\0\1\3uno"), """\
section 0: type, offset 0x8, 6 bytes, 1 type
 00000b      3 | type[0] func () -> nil
section 1: import, offset 0xe, 9 bytes, 1 import
 000011      6 | func[0] type 0 <- "e" "f"
section 2: function, offset 0x17, 5 bytes, 2 functions
 00001a      1 | func[1] type 0 <one>
 00001b      1 | func[2] type 0 <late>
section 3: code, offset 0x1c, 21 bytes, 2 functions
 00001f     15 | func[1] <one>
 000021: 10 00                      | call 0 <e.f>
 000023: 10 01                      | call 1 <one>
 000025: 10 02                      | call 2 <late>
 000027: 10 03                      | call 3
 000029: 10 04                      | call 4
 00002b: 10 05                      | call 5
 00002d: 0b                         | end
 00002e      3 | func[2] <late>
 000030: 0b                         | end
section 4: custom "linking", offset 0x31, 63 bytes
 00003b      1 | version 2
 00003c      3 | symbol table, 50 bytes, 8 entries
 00003f      8 | func[2] "late" flags 0x0
 000047      8 | data "dd" segment[0] offset 0 size 0 flags 0x0
 00004f      3 | func[0] flags 0x10 undefined
 000052      7 | func[0] "log" flags 0x50 undefined explicit-name
 000059      3 | section[0] flags 0x0
 00005c      6 | global[1] "gg" flags 0x0
 000062      7 | func[1] "one" flags 0x0
 000069      7 | func[1] "uno" flags 0x0
"""),
    ("names of items of each kind", items(1, b"\x60\0\0", b"\x4E\2\x60\0\0\x60\0\0") + items(3, b"\0")
     + items(4, b"\x70\0\0") + items(5, b"\0\1") + items(13, b"\0\0") + items(6, b"\x7F\1\x41\x2A\x0B")
     + items(9, b"\1\0\1\0") + section(12, b"\1")
     + items(10, sized(b"\0\x23\0\x24\0\x25\0\x3F\0\xFC\x09\0\xFC\x0D\0\xFC\x08\0\0\xFC\x0C\0\0\xFC\x0A\0\0\x08\0"
                       b"\x11\0\0\x20\0\x0B"))
     + items(11, b"\1\1a")
     + names(items(4, b"\0\3sig", b"\2\2in"), items(5, b"\0\1t"), items(6, b"\0\1m"), items(7, b"\0\7counter"),
             items(8, b"\0\1e"), items(9, b"\0\7.rodata"), items(11, b"\0\2ex")), """\
section 0: type, offset 0x8, 14 bytes, 2 types
 00000b      3 | type[0] func () -> nil <sig>
 00000e      8 | rec type[1] func () -> nil, type[2] func () -> nil <in>
section 1: function, offset 0x16, 4 bytes, 1 function
 000019      1 | func[0] type 0
section 2: table, offset 0x1a, 6 bytes, 1 table
 00001d      3 | table[0] funcref initial=0 <t>
section 3: memory, offset 0x20, 5 bytes, 1 memory
 000023      2 | memory[0] initial=1 <m>
section 4: tag, offset 0x25, 5 bytes, 1 tag
 000028      2 | tag[0] type 0 <ex>
section 5: global, offset 0x2a, 8 bytes, 1 global
 00002d      5 | global[0] mut i32 = (i32.const 42) <counter>
section 6: element, offset 0x32, 7 bytes, 1 segment
 000035      4 | segment[0] passive: func 0 <e>
section 7: data count, offset 0x39, 3 bytes
 00003b      1 | 1 data segment
section 8: code, offset 0x3c, 39 bytes, 1 function
 00003f     36 | func[0]
 000041: 23 00                      | global.get 0 <counter>
 000043: 24 00                      | global.set 0 <counter>
 000045: 25 00                      | table.get 0 <t>
 000047: 3f 00                      | memory.size 0 <m>
 000049: fc 09 00                   | data.drop 0 <.rodata>
 00004c: fc 0d 00                   | elem.drop 0 <e>
 00004f: fc 08 00 00                | memory.init 0 0 <.rodata>
 000053: fc 0c 00 00                | table.init 0 0 <e>
 000057: fc 0a 00 00                | memory.copy 0 0
 00005b: 08 00                      | throw 0 <ex>
 00005d: 11 00 00                   | call_indirect 0 (type 0) <sig>
 000060: 20 00                      | local.get 0
 000062: 0b                         | end
section 9: data, offset 0x63, 6 bytes, 1 segment
 000066      3 | segment[0] passive: 1 byte <.rodata>
  000068: 61                                              | a
section 10: custom "name", offset 0x69, 68 bytes
 000070      3 | type names, 10 bytes, 2 entries
 000073      5 | type[0] "sig"
 000078      4 | type[2] "in"
 00007c      3 | table names, 4 bytes, 1 entry
 00007f      3 | table[0] "t"
 000082      3 | memory names, 4 bytes, 1 entry
 000085      3 | memory[0] "m"
 000088      3 | global names, 10 bytes, 1 entry
 00008b      9 | global[0] "counter"
 000094      3 | element segment names, 4 bytes, 1 entry
 000097      3 | elem[0] "e"
 00009a      3 | data segment names, 10 bytes, 1 entry
 00009d      9 | data[0] ".rodata"
 0000a6      3 | tag names, 5 bytes, 1 entry
 0000a9      4 | tag[0] "ex"
"""),
    ("names of exports, imports and symbols of each kind", ONE_TYPE
     + items(2, b"\1e\1m\2\0\1", b"\1e\1g\3\x7F\0", b"\1e\1t\1\x70\0\0", b"\1e\1x\4\0\0") + items(3, b"\0")
     + items(4, b"\x70\0\0", b"\x70\0\0") + items(5, b"\0\1") + items(13, b"\0\0", b"\0\0")
     + items(6, b"\x7F\0\x41\0\x0B", b"\x7F\0\x41\0\x0B")
     + items(7, b"\2mm\2\1", b"\2gg\3\1", b"\2tt\1\1", b"\2xx\4\1")
     + items(10, sized(b"\0\x23\0\x23\1\x23\2\x26\0\x26\1\x26\2\x40\0\x40\1\x08\0\x08\1\x08\2\x0B"))
     + symbols(b"\2\0\2\1s", b"\5\0\2\1u", b"\4\0\2\1v", b"\2\0\1\1n"), """\
section 0: type, offset 0x8, 6 bytes, 1 type
 00000b      3 | type[0] func () -> nil
section 1: import, offset 0xe, 32 bytes, 4 imports
 000011      7 | memory[0] initial=1 <- "e" "m"
 000018      7 | global[0] i32 <- "e" "g"
 00001f      8 | table[0] funcref initial=0 <- "e" "t"
 000027      7 | tag[0] type 0 <- "e" "x"
section 2: function, offset 0x2e, 4 bytes, 1 function
 000031      1 | func[0] type 0
section 3: table, offset 0x32, 9 bytes, 2 tables
 000035      3 | table[1] funcref initial=0 <tt>
 000038      3 | table[2] funcref initial=0 <u>
section 4: memory, offset 0x3b, 5 bytes, 1 memory
 00003e      2 | memory[1] initial=1 <mm>
section 5: tag, offset 0x40, 7 bytes, 2 tags
 000043      2 | tag[1] type 0 <xx>
 000045      2 | tag[2] type 0 <v>
section 6: global, offset 0x47, 13 bytes, 2 globals
 00004a      5 | global[1] i32 = (i32.const 0) <gg>
 00004f      5 | global[2] i32 = (i32.const 0) <s>
section 7: export, offset 0x54, 23 bytes, 4 exports
 000057      5 | memory[1] -> "mm"
 00005c      5 | global[1] -> "gg"
 000061      5 | table[1] -> "tt"
 000066      5 | tag[1] -> "xx"
section 8: code, offset 0x6b, 28 bytes, 1 function
 00006e     25 | func[0]
 000070: 23 00                      | global.get 0 <e.g>
 000072: 23 01                      | global.get 1 <gg>
 000074: 23 02                      | global.get 2 <s>
 000076: 26 00                      | table.set 0 <e.t>
 000078: 26 01                      | table.set 1 <tt>
 00007a: 26 02                      | table.set 2 <u>
 00007c: 40 00                      | memory.grow 0 <e.m>
 00007e: 40 01                      | memory.grow 1 <mm>
 000080: 08 00                      | throw 0 <e.x>
 000082: 08 01                      | throw 1 <xx>
 000084: 08 02                      | throw 2 <v>
 000086: 0b                         | end
section 9: custom "linking", offset 0x87, 34 bytes
 000091      1 | version 2
 000092      3 | symbol table, 21 bytes, 4 entries
 000095      5 | global[2] "s" flags 0x0
 00009a      5 | table[2] "u" flags 0x0
 00009f      5 | tag[2] "v" flags 0x0
 0000a4      5 | global[1] "n" flags 0x0
"""),
    ("long names", ONE_TYPE + items(2, b"\x19" + b"m" * 25 + b"\x19" + b"f" * 25 + b"\0\0") + items(3, b"\0")
     + items(7, b"\x19" + b"y" * 25 + b"\0\1") + items(10, sized(b"\0\x10\0\x10\1\x0B")), """\
section 0: type, offset 0x8, 6 bytes, 1 type
 00000b      3 | type[0] func () -> nil
section 1: import, offset 0xe, 57 bytes, 1 import
 000011     54 | func[0] type 0 <- "mmmmmmmmmmmmmmmmmmmmmmmmm" "fffffffffffffffffffffffff"
section 2: function, offset 0x47, 4 bytes, 1 function
 00004a      1 | func[1] type 0 <yyyyyyyyyyyyyyyyyyyyyyyyy>
section 3: export, offset 0x4b, 31 bytes, 1 export
 00004e     28 | func[1] -> "yyyyyyyyyyyyyyyyyyyyyyyyy"
section 4: code, offset 0x6a, 10 bytes, 1 function
 00006d      7 | func[1] <yyyyyyyyyyyyyyyyyyyyyyyyy>
 00006f: 10 00                      | call 0 <mmmmmmmmmmmmmmmmmmmmmmmm...ffffffffffffffffffffffff..>
 000071: 10 01                      | call 1 <yyyyyyyyyyyyyyyyyyyyyyyy..>
 000073: 0b                         | end
"""),
    ("a name that reorders text", b"\0\6\5a\xE2\x80\xAEb", 'section 0: custom "a\\u{202e}b", offset 0x8, 8 bytes\n'),
]



def custom(name, contents):
    return b"\0" + sized(sized(name) + contents)


HINTS = b"metadata.code.branch_hint"
# The contents of custom sections, by the offsets of their items.
NAME_CONTENTS = b"".join((
    b"\0\2\1m",  # 0x0f: the module m
    b"\1\6\2\0\1f\1\0",  # 0x13: the functions f and one without characters
    b"\2\x09\1\1\2\0\1x\2\1y",  # 0x1b: locals x and y of function 1
    b"\3\1\0",  # 0x26: no labels
    b"\4\4\1\0\1t", b"\5\4\1\0\1u", b"\6\4\1\0\1m",  # 0x29, 0x2f, 0x35: a type, a table, a memory
    b"\7\4\1\0\1g", b"\x08\4\1\0\1e", b"\x09\4\1\0\1d",  # 0x3b, 0x41, 0x47: a global and two segments
    b"\x0A\6\1\0\1\1\1h",  # 0x4d: field 1 of type 0
    b"\x0B\4\1\0\1z", b"\x0C\2ab",  # 0x55, 0x5b: a tag; an unknown subsection
))
LINKING_CONTENTS = b"".join((
    b"\2",  # 0x12: the version
    b"\x08\x28\x08",  # 0x13: eight symbols
    b"\0\2\3\1f", b"\0\x10\0",  # 0x16, 0x1b: the function f, and an imported one
    b"\1\x84\2\1d\0\x10\4", b"\1\x10\1e",  # 0x1e, 0x26: data d, and imported data e
    b"\2\x50\0\1g", b"\3\2\1",  # 0x2a, 0x2f: an imported global with a name; a section
    b"\4\0\0\1t", b"\5\xA1\5\0\1u",  # 0x32, 0x37: a tag and a table
    b"\5\1\0", b"\6\1\0", b"\7\1\0", b"\x09\0",  # 0x3d, 0x40, 0x43, 0x46: other subsections
))
DYLINK_CONTENTS = b"".join((
    b"\1\4\x10\2\1\0",  # 0x13: 16 bytes of memory, one entry of a table
    b"\2\x0B\2\4a.so\4b.so",  # 0x19: two libraries
    b"\3\4\1\1f\2", b"\4\1\0",  # 0x26, 0x2c: flags of an export, of no import
    b"\5\3\1\1/",  # 0x2f: a path
))
# Modules of a custom section with such contents: what each has, the bytes after the header, and the listing.
CONTENTS = [
    ("names", custom(b"name", NAME_CONTENTS), """\
section 0: custom "name", offset 0x8, 87 bytes
 00000f      2 | module name, 2 bytes
 000011      2 | module "m"
 000013      3 | function names, 6 bytes, 2 entries
 000016      3 | func[0] "f"
 000019      2 | func[1] ""
 00001b      3 | local names, 9 bytes, 1 entry
 00001e      2 | func[1], 2 entries
 000020      3 | local[1][0] "x"
 000023      3 | local[1][2] "y"
 000026      3 | label names, 1 byte, 0 entries
 000029      3 | type names, 4 bytes, 1 entry
 00002c      3 | type[0] "t"
 00002f      3 | table names, 4 bytes, 1 entry
 000032      3 | table[0] "u"
 000035      3 | memory names, 4 bytes, 1 entry
 000038      3 | memory[0] "m"
 00003b      3 | global names, 4 bytes, 1 entry
 00003e      3 | global[0] "g"
 000041      3 | element segment names, 4 bytes, 1 entry
 000044      3 | elem[0] "e"
 000047      3 | data segment names, 4 bytes, 1 entry
 00004a      3 | data[0] "d"
 00004d      3 | field names, 6 bytes, 1 entry
 000050      2 | type[0], 1 entry
 000052      3 | field[0][1] "h"
 000055      3 | tag names, 4 bytes, 1 entry
 000058      3 | tag[0] "z"
 00005b      4 | subsection 12, 2 bytes
"""),
    ("padded names", custom(b"name", b"\1\x87\0\x81\0\x80\0\x81\0f"), """\
section 0: custom "name", offset 0x8, 17 bytes
 00000f      5 | function names, 7 bytes, 1 entry; 5 bytes, minimal is 3
 000014      5 | func[0] "f"; 5 bytes, minimal is 3
"""),
    ("padded heads", custom(b"name", b"\0\x82\0\1m\2\x84\0\1\x80\0\0\x0C\x80\0"), """\
section 0: custom "name", offset 0x8, 22 bytes
 00000f      3 | module name, 2 bytes; 3 bytes, minimal is 2
 000012      2 | module "m"
 000014      4 | local names, 4 bytes, 1 entry; 4 bytes, minimal is 3
 000018      3 | func[0], 0 entries; 3 bytes, minimal is 2
 00001b      3 | subsection 12, 0 bytes; 3 bytes, minimal is 2
"""),
    ("a name with controls", custom(b"name", b"\1\x09\1\0\6a\x1B\x7F\xE2\x80\xAE"), """\
section 0: custom "name", offset 0x8, 18 bytes
 00000f      3 | function names, 9 bytes, 1 entry
 000012      8 | func[0] "a\\u{1b}\\u{7f}\\u{202e}"
"""),
    ("quotes and backslashes", custom(b"name", b'\0\4\3"\\t'), """\
section 0: custom "name", offset 0x8, 13 bytes
 00000f      2 | module name, 4 bytes
 000011      4 | module ""\\t"
"""),
    ("producers", custom(b"producers", b"\2\x08language\2\1C\0\4Rust\0031.7\3sdk\0"), """\
section 0: custom "producers", offset 0x8, 40 bytes
 000014      1 | 2 entries
 000015     10 | "language", 2 entries
 00001f      3 | "C"
 000022      9 | "Rust" version "1.7"
 00002b      5 | "sdk", 0 entries
"""),
    ("padded producers", custom(b"producers", b"\x81\0\x83\0sdk\x81\0\1a\x81\0b"), """\
section 0: custom "producers", offset 0x8, 26 bytes
 000014      2 | 1 entry; 2 bytes, minimal is 1
 000016      7 | "sdk", 1 entry; 7 bytes, minimal is 5
 00001d      5 | "a" version "b"; 5 bytes, minimal is 4
"""),
    ("features", custom(b"target_features", b"\2+\7simd128-\1a"), """\
section 0: custom "target_features", offset 0x8, 31 bytes
 00001a      1 | 2 entries
 00001b      9 | + "simd128"
 000024      3 | - "a"
"""),
    ("symbols", custom(b"linking", LINKING_CONTENTS), """\
section 0: custom "linking", offset 0x8, 64 bytes
 000012      1 | version 2
 000013      3 | symbol table, 40 bytes, 8 entries
 000016      5 | func[3] "f" flags 0x2 local
 00001b      3 | func[0] flags 0x10 undefined
 00001e      8 | data "d" segment[0] offset 16 size 4 flags 0x104 hidden tls
 000026      4 | data "e" flags 0x10 undefined
 00002a      5 | global[0] "g" flags 0x50 undefined explicit-name
 00002f      3 | section[1] flags 0x2 local
 000032      5 | tag[0] "t" flags 0x0
 000037      6 | table[0] "u" flags 0x2a1 weak exported no-strip absolute
 00003d      3 | segment info, 1 byte
 000040      3 | init functions, 1 byte
 000043      3 | comdat info, 1 byte
 000046      2 | subsection 9, 0 bytes
"""),
    ("hints", custom(HINTS, b"\1\1\2\5\1\1\x09\1\0"), """\
section 0: custom "metadata.code.branch_hint", offset 0x8, 37 bytes
 000024      1 | 1 entry
 000025      2 | func[1], 2 entries
 000027      3 | func[1] offset 5 likely
 00002a      3 | func[1] offset 9 unlikely
"""),
    ("libraries", custom(b"dylink.0", DYLINK_CONTENTS), """\
section 0: custom "dylink.0", offset 0x8, 44 bytes
 000013      6 | memory info, 4 bytes
 000019      3 | needed libraries, 11 bytes, 2 entries
 00001c      5 | needs "a.so"
 000021      5 | needs "b.so"
 000026      6 | export info, 4 bytes
 00002c      3 | import info, 1 byte
 00002f      3 | runtime paths, 3 bytes, 1 entry
 000032      2 | path "/"
"""),
    ("producers twice", custom(b"producers", b"\0") + custom(b"producers", b"\1\1a\0"), """\
section 0: custom "producers", offset 0x8, 13 bytes
 000014      1 | 0 entries
section 1: custom "producers", offset 0x15, 16 bytes
 000021      1 | 1 entry
 000022      3 | "a", 0 entries
"""),
    ("another name", custom(b"Name", b"\0\2\1m"), 'section 0: custom "Name", offset 0x8, 11 bytes\n'),
    ("no names and no libraries", custom(b"name", b"") + custom(b"dylink.0", b""), """\
section 0: custom "name", offset 0x8, 7 bytes
section 1: custom "dylink.0", offset 0xf, 11 bytes
"""),
] + [
    # Malformed contents: the section's name and its contents, and the items. A further section follows.
    (f"malformed {name.decode()}: {contents.hex(' ')}", custom(name, contents) + b"\0\2\1a",
     f'section 0: custom "{name.decode()}", offset 0x8, {len(name) + len(contents) + 3} bytes\n{items}'
     f'section 1: custom "a", offset {len(name) + len(contents) + 11:#x}, 4 bytes\n')
    for name, contents, items in (
        (b"name", b"\1\5\1", " 00000f      3 | malformed contents at offset 0xf\n"),
        (b"name", b"\0\2\1m\1", " 00000f      2 | module name, 2 bytes\n 000011      2 | module \"m\"\n"
         " 000013      1 | malformed contents at offset 0x13\n"),
        (b"name", b"\1\7\2\0\1f\1\1\xFF", " 00000f      3 | function names, 7 bytes, 2 entries\n"
         " 000012      3 | func[0] \"f\"\n 000015      3 | malformed contents at offset 0x15\n"),
        (b"name", b"\1\2\0x", " 00000f      3 | function names, 2 bytes, 0 entries\n"
         " 000012      1 | malformed contents at offset 0x12\n"),
        (b"name", b"\2\3\1\0\xFF", " 00000f      3 | local names, 3 bytes, 1 entry\n"
         " 000012      2 | malformed contents at offset 0x12\n"),
        (b"name", b"\4\0", " 00000f      2 | malformed contents at offset 0xf\n"),
        (b"producers", b"", " 000014      0 | malformed contents at offset 0x14\n"),
        (b"producers", b"\2\3sdk\0", " 000014      1 | 2 entries\n 000015      5 | \"sdk\", 0 entries\n"
         " 00001a      0 | malformed contents at offset 0x1a\n"),
        (b"producers", b"\0\0", " 000014      1 | 0 entries\n 000015      1 | malformed contents at offset 0x15\n"),
        (b"target_features", b"", " 00001a      0 | malformed contents at offset 0x1a\n"),
        (b"target_features", b"\1=\1a", " 00001a      1 | 1 entry\n"
         " 00001b      3 | malformed contents at offset 0x1b\n"),
        (b"linking", b"", " 000012      0 | malformed contents at offset 0x12\n"),
        (b"linking", b"\1\5\1\0", " 000012      4 | malformed contents at offset 0x12\n"),
        (b"linking", b"\2\x08\2\1\6", " 000012      1 | version 2\n"
         " 000013      3 | symbol table, 2 bytes, 1 entry\n 000016      1 | malformed contents at offset 0x16\n"),
        (HINTS, b"\1\0\1\5\1\2", " 000024      1 | 1 entry\n 000025      2 | func[0], 1 entry\n"
         " 000027      3 | malformed contents at offset 0x27\n"),
        (HINTS, b"\1\0\1\5\2\1\0", " 000024      1 | 1 entry\n 000025      2 | func[0], 1 entry\n"
         " 000027      4 | malformed contents at offset 0x27\n"),
        (b"dylink.0", b"\2\3\1\5a", " 000013      3 | needed libraries, 3 bytes, 1 entry\n"
         " 000016      2 | malformed contents at offset 0x16\n"),
        (b"dylink.0", b"\x80", " 000013      1 | malformed contents at offset 0x13\n"),
    )
]

# Pairs of modules: what differs, their bytes after the header, the number, the id and the kind of the first section
# that differs, the number of the item, and the offsets.
PLACES = [
    ("a memory", b"\1\x81\0\0\5\4\1\0\x81\0", b"\1\1\0\5\3\1\0\2", 1, 5, "memory", 0, [0x0F, 0x0F]),
    ("a section more in the second", b"", b"\5\3\1\0\1", 0, 5, "memory", None, [None, 8]),
    ("a section more in the first", b"\1\1\0\5\3\1\0\1", b"\1\1\0", 1, 5, "memory", None, [0x0B, None]),
    ("other kinds", b"\0\2\1a", b"\1\1\0", 0, None, None, None, [8, 8]),
    ("other names", b"\0\2\1a", b"\0\2\1b", 0, 0, "custom", None, [0x0B, 0x0B]),
    ("custom contents", b"\0\3\1ab", b"\0\3\1ac", 0, 0, "custom", None, [0x0C, 0x0C]),
    ("a data count", b"\x0C\1\1", b"\x0C\1\2", 0, 12, "data count", None, [0x0A, 0x0A]),
    ("a start function", b"\x08\1\1", b"\x08\1\2", 0, 8, "start", None, [0x0A, 0x0A]),
    ("a tag more", b"\x0D\3\1\0\0", b"\x0D\5\2\0\0\0\1", 0, 13, "tag", 1, [0x0A, 0x0A]),
    ("the second function", b"\x0A\7\2\2\0\x0B\2\0\x0B", b"\x0A\x08\2\2\0\x0B\3\0\1\x0B", 0, 10, "code", 1,
     [0x0E, 0x0E]),
    ("the second type", b"\1\7\2\x60\0\0\x60\0\0", b"\1\x08\2\x60\0\0\x60\0\1\x7F", 0, 1, "type", 1,
     [0x10, 0x10]),
]

# Two imported variables, a memory and two more variables, and the listing of the latter.
GLOBALS = b"\2\x0F\2\1a\1b\3\x7F\0\1a\1c\3\x7E\1\5\3\1\0\1\6\x0B\2\x7F\0\x41\0\x0B\x7F\0\x23\0\x0B"
GLOBAL_LISTING = """\
section 2: global, offset 0x1e, 13 bytes, 2 globals
 000021      5 | global[2] i32 = (i32.const 0)
 000026      5 | global[3] i32 = (global.get 0)
"""

# A module whose one function calls an import.
NAMED_IMPORT = ONE_TYPE + items(2, b"\1e\2\x1Bf\0\0") + functions(sized(b"\0\x10\0\x0B"))

# Sections that name some of functions 0 to 5: what is special, the sections, and the names.
FUNCTION_NAMES = [
    ("a function exported twice", items(7, b"\1b\0\0", b"\1a\0\0"), {0: "b"}),
    ("two functions exported under one name", items(7, b"\1a\0\1", b"\1a\0\0"), {0: "a", 1: "a"}),
    ("exports of other kinds and of functions that aren't there", items(7, b"\1a\1\0", b"\1b\0\x09", b"\1c\0\3"),
     {3: "c"}),
    ("a malformed export", items(7, b"\1a\0\1", b"\1\xFF\0\2", b"\1c\0\3"), {1: "a"}),
    ("an export that is cut", section(7, b"\2\1a\0\1\5b"), {1: "a"}),
    ("more exports than there are", section(7, b"\xFF\xFF\xFF\xFF\x0F\1a\0\1"), {1: "a"}),
    ("two export sections", items(7, b"\1a\0\1") + items(7, b"\1b\0\1", b"\1c\0\2"), {1: "a", 2: "c"}),
    ("an empty name", items(7, b"\0\0\2"), {2: ""}),
    ("names with spaces and brackets", items(7, b"\2 x\0\0", b"\1<\0\1", b"\5a < b\0\2", b"\3a <\0\3", b"\2<>\0\4"),
     {0: " x", 1: "<", 2: "a < b", 3: "a <", 4: "<>"}),
    ("an unsorted name map", names(items(1, b"\0\1a", b"\2\1c", b"\1\1b", b"\3\1d")), {0: "a", 2: "c"}),
    ("an index named twice", names(items(1, b"\0\1a", b"\0\1z", b"\1\1b")), {0: "a"}),
    ("a name that isn't UTF-8", names(items(1, b"\0\1a", b"\1\1\xFF", b"\2\1c")), {0: "a"}),
    ("a name map that is cut", section(0, b"\4name\1\7\3\0\1a\1\5b"), {0: "a"}),
    ("a subsection that is cut", section(0, b"\4name\1\4\1\0\1a\1\x09\1\1\1b"), {0: "a"}),
    ("two name maps", section(0, b"\4name\1\4\1\0\1a\1\4\1\1\1b"), {0: "a"}),
    ("an export beside a malformed name map", items(7, b"\1a\0\0", b"\1b\0\1")
     + names(items(1, b"\0\1z", b"\0\1y")), {0: "z", 1: "b"}),
    ("a linking section of another version", section(0, b"\7linking\1" + section(8, b"\1\0\0\0\1a")), {}),
    ("a malformed symbol", symbols(b"\0\0\1\1a", b"\6\0\0\1b", b"\0\0\2\1c"), {1: "a"}),
    ("a symbol of an exported function", items(7, b"\1a\0\1") + symbols(b"\0\0\1\1z", b"\0\0\2\1c"), {1: "a", 2: "c"}),
]

# Malformed modules: what each is, the listing up to there, the message, and the bytes after the header.
CUT_LISTINGS = [
    ("an unknown opcode", """\
section 0: code, offset 0x8, 10 bytes, 2 functions
 00000b      3 | func[0]
 00000d: 0b                         | end
 00000e      4 | func[1]
""", "code section, function 1, offset 0x10: unknown opcode 0xFF", b"\x0A\x08\2\2\0\x0B\3\0\xFF\x0B"),
    ("a type that is cut", """\
section 0: type, offset 0x8, 8 bytes, 2 types
 00000b      3 | type[0] func () -> nil
""", "type section, type 1, offset 0x10: unexpected end: expected LEB128 number", b"\1\6\2\x60\0\0\x60\0"),
    ("a section that is cut",
     "section 0: memory, offset 0x8, 5 bytes, 1 memory\n 00000b      2 | memory[0] initial=1\n",
     "type section, offset 0xe: size 5 too large: 1 byte left", b"\5\3\1\0\1\1\5\0"),
]

# Pairs of modules: what differs, the modules, and the list of all differences.
ALL_DIFFERENCES = [
    ("a memory", HEADER + b"\5\4\1\0\x81\0", HEADER + b"\5\3\1\0\2", """\
memory section, memory 0
-00000b      3 | memory[0] initial=1; 3 bytes, minimal is 2
+00000b      2 | memory[0] initial=2
"""),
    ("two of three types", HEADER + b"\1\x0B\3\x60\0\0\x60\0\0\x60\1\x7F\0",
     HEADER + b"\1\x0B\3\x60\1\x7F\0\x60\0\0\x60\0\0", """\
type section, type 0
-00000b      3 | type[0] func () -> nil
+00000b      4 | type[0] func (i32) -> nil
type section, type 2
-000011      4 | type[2] func (i32) -> nil
+000012      3 | type[2] func () -> nil
"""),
    ("a group that needs two lines", HEADER + items(1, b"\x4E\3\x60\0\0\x60\0\0\x60\0\0"),
     HEADER + items(1, b"\x4E\3\x60\0\0\x60\0\0\x60\1\x7F\0"), """\
type section, type 0
-00000b     11 | rec type[0] func () -> nil, type[1] func () -> nil, type[2]
                   func () -> nil
+00000b     12 | rec type[0] func () -> nil, type[1] func () -> nil, type[2]
                   func (i32) -> nil
"""),
    ("a group of locals", HEADER + TYPES + items(10, sized(b"\1\x82\0\x7F\x0B")),
     HEADER + TYPES + items(10, sized(b"\1\3\x7F\x0B")), """\
code section, function 0
-000015      6 | func[0]
-000017: 82 00 7f                   | 2 locals of i32; 3 bytes, minimal is 2
+000015      5 | func[0]
+000017: 03 7f                      | 3 locals of i32
"""),
    ("a group of locals more", HEADER + TYPES + items(10, sized(b"\1\2\x7F\x0B")),
     HEADER + TYPES + items(10, sized(b"\2\2\x7F\1\x7E\x0B")), """\
code section, function 0
-000015      5 | func[0]
+000015      7 | func[0]
+000019: 01 7e                      | 1 local of i64
"""),
    ("an instruction, and bytes of data", code(b"\x41\0\x1A") + b"\x0B\5\1\1\2ab", code(b"\x41\0\x1A", b"\1")
     + b"\x0B\5\1\1\2ac", """\
code section, function 0
-000015      6 | func[0]
-00001a: 0b                         | end
+000015      7 | func[0]
+00001a: 01                         | nop
data section, segment 0
-00001e      4 | segment[0] passive: 2 bytes
- 000021: 62                                              | b
+00001f      4 | segment[0] passive: 2 bytes
+ 000022: 63                                              | c
"""),
    ("an item and sections more", HEADER + b"\0\2\1a", HEADER + b"\5\3\1\0\1\7\1\0", """\
custom "a" section: only in the first module
-section 0: custom "a", offset 0x8, 4 bytes
memory section: only in the second module
+section 0: memory, offset 0x8, 5 bytes, 1 memory
export section: only in the second module
+section 1: export, offset 0xd, 3 bytes, 0 exports
"""),
    ("a tag more", HEADER + b"\x0D\3\1\0\0", HEADER + b"\x0D\5\2\0\0\0\1", """\
tag section, tag 1: only in the second module
+00000d      2 | tag[1] type 1
"""),
    ("nothing but padding", HEADER + b"\5\4\1\0\x81\0", HEADER + b"\5\3\1\0\1", ""),
]
