"""Options, files, exit statuses, messages, reports and progress of `wasmcanon`.

`rt ci` builds two programs, with LLVM and with Rattle's own compiler; this part runs both.
"""
import hashlib
import json
import os
import pty
import re
import subprocess

from parts.common import HELP, ROOT, both_programs, lacks, read_terminal, room, run as run_command, under
from parts.listing_cases import (ALL_DIFFERENCES, CALL_AS_JSON, CUT_LISTINGS, EVERY, EVERY_AS_JSON, FUNCTION_NAMES,
                                 INSTRUCTIONS, LISTING, LISTINGS, NAMED_IMPORT, code)
from parts.listing_runs import list_in, try_chosen_sections, try_contents, try_places
from parts.long_items import long_items
from parts.long_modules import leb, sized
from parts.wasmcanon_cases import (CUT, CUT_AS_JSON, DISORDERED, ENCODINGS, FILES, FOREIGN, FUNCTION, HEADER, HINTED,
                                   HINTED_NOWHERE, HINTS_MOVED, IN_ORDER, LONGER, LONG_AS_JSON, LONG_SIZE, MALFORMED,
                                   NAMES, NO, NOT_CANONICAL, NO_HEADER, PADDED_DATA_USE, PADDED_NAMES,
                                   PADDED_PRODUCERS, PATTERNS, PATTERN_NAMES, PRODUCERS, REPORT, REPORT_OF_NAMES,
                                   REPORT_OF_NUMBERS, STALE, STALE_NAMES, STALE_SECTIONS, TYPE)
from parts.wasmcanon_files import (try_links, try_names_not_text, try_object_files, try_outputs, try_read_only,
                                   try_several)


class Runs:
    """Runs of one program in a room with FILES, the last run among them, and the report on them."""

    def __init__(self, report, program, folder):
        self.report, self.program, self.room = report, program, folder
        self.status, self.out, self.err = 0, b"", ""

    def holds(self, name, right):
        why = f"status {self.status}, output {self.out[:80]!r}, error {self.err!r}"
        self.report.check(f"{self.program.name}: {name}", right, why)

    def run(self, *words, **how):
        """Runs the program in the room. Its status and outputs are kept."""
        ran = run_command(self.program, *words, cwd=self.room, **how)
        self.status, self.out, self.err = ran.returncode, ran.stdout or b"", ran.stderr.decode("utf-8", "replace")

    def answers(self, status, error, *words):
        """Whether the program ends with this status and an error that begins so; without `error`, with none."""
        self.run(*words)
        return self.status == status and (self.err.startswith(error) if error else not self.err)

    def writes(self, *words, data=FILES["canonical"]):
        return self.answers(0, "", *words) and self.out == data

    def puts(self, *words):
        """Whether the program writes the canonical form to the file `there`."""
        return (self.answers(0, "", *words) and not self.out and self.there() == FILES["canonical"]
                and self.leaves_nothing_beside())

    def refuses(self, status, error, *words):
        """Whether the program fails so, and leaves the file `there` as it was."""
        return (self.answers(status, error, *words) and not self.out and self.there() == b"kept"
                and self.leaves_nothing_beside())

    def there(self):
        return (self.room / "there").read_bytes()

    def leaves_nothing_beside(self):
        return not list(self.room.glob("*.wasmcanon"))

    def fresh(self, mode=0o644):
        """Makes the file `there`, which the program is to replace."""
        (self.room / "there").unlink(missing_ok=True)
        (self.room / "there").write_bytes(b"kept")
        (self.room / "there").chmod(mode)

    def link(self, name, target):
        (self.room / name).unlink(missing_ok=True)
        (self.room / name).symlink_to(target)


def try_order(runs):
    for name, message, data in DISORDERED:
        (runs.room / "disordered").write_bytes(HEADER + data)
        right = all(runs.answers(1, f"error: disordered: {message}", *words, "disordered")
                    for words in ([], ["--check"], ["--hash"], ["--report"], ["--diff", "long"]))
        runs.holds(name, right and runs.err.endswith("\nhelp: --any-order takes such modules\n"))
        runs.holds(f"{name}, in any order", runs.writes("--any-order", "disordered", data=HEADER + data))
    message, data = PADDED_DATA_USE
    (runs.room / "padded_use").write_bytes(HEADER + data)
    runs.holds("a padded data use", runs.answers(1, f"error: padded_use: {message}", "--hash", "padded_use"))
    for data in IN_ORDER:
        (runs.room / "ordered").write_bytes(HEADER + data)
        runs.holds("sections in order", runs.writes("ordered", data=HEADER + data))


def sum_of(data):
    return hashlib.sha256(data).hexdigest()


def try_hashes(runs):
    (runs.room / "back\\slash").write_bytes(FILES["long"])
    hashed = sum_of(FILES["canonical"])
    runs.run("--hash", "long", "canonical", "back\\slash")
    wanted = f"{hashed}  long\n{hashed}  canonical\n\\{hashed}  back\\\\slash\n"
    runs.holds("hashes", runs.status == 0 and runs.out.decode() == wanted)
    (runs.room / "back\\slash").unlink()
    runs.run("--hash", "cut", "long")
    runs.holds("a hash beside a refusal", runs.status == 1 and runs.out.decode() == f"{hashed}  long\n")
    runs.run("--hash", input=FILES["long"])
    runs.holds("a hash of standard input", runs.status == 0 and runs.out.decode() == f"{hashed}  -\n")
    runs.run("--hash", "--no-custom", "debug", "long", "named")
    wanted = [f"{hashed}  debug", f"{hashed}  long", f"{sum_of(HEADER)}  named"]
    runs.holds("hashes without custom sections", runs.status == 0 and runs.out.decode().splitlines() == wanted)


def stale(file, names=".debug_"):
    return STALE.format(file=file, names=names)


def hinted_instructions(listing):
    """The instruction at each branch hint of a listing, or `None`. The sizes of functions have one byte."""
    calls = dict(re.findall(r"^ (\w{6}): .*\| ([^;\n]*)", listing, re.MULTILINE))
    functions = re.findall(r"^ (\w{6}) +\d+ \| func\[(\d+)\]$", listing, re.MULTILINE)
    starts = {index: int(at, 16) + 1 for at, index in functions}
    hints = re.findall(r"\| func\[(\d+)\] offset (\d+) (\w+)$", listing, re.MULTILINE)
    return [(calls.get(f"{starts[index] + int(offset):06x}"), likely) for index, offset, likely in hints]


def try_hints(runs):
    for name, data in ("hinted", HINTED), ("hints_moved", HINTS_MOVED), ("hinted_nowhere", HINTED_NOWHERE):
        (runs.room / name).write_bytes(data)
    for name in "hinted", "hints_moved":
        runs.run("--list", name)
        right = hinted_instructions(runs.out.decode()) == [("if", "likely"), ("br_if 0", "unlikely")]
        runs.holds(f"instructions of {name}", right)
        runs.holds(f"{name}, written", runs.writes(name, data=HINTS_MOVED))
        runs.run("--hash", name)
        runs.holds(f"a hash of {name}", runs.out.decode() == f"{sum_of(HINTS_MOVED)}  {name}\n")
    for words in ["--diff"], ["--diff", "--all"]:
        runs.holds(f"{' '.join(words)}, moved hints", runs.answers(0, "", *words, "hinted", "hints_moved"))
    runs.holds("moved hints, checked", runs.answers(0, "", "--check", "hints_moved"))
    runs.run("hinted_nowhere")
    wanted = stale("hinted_nowhere", "metadata.code.branch_hint")
    runs.holds("a warning of hints that can't move", runs.status == 0 and runs.err == wanted)


def custom_section(name):
    """A custom section of this name, without more bytes."""
    name = name.encode()
    return bytes([0, len(name) + 1, len(name)]) + name


def custom_sections(data):
    """The names of the custom sections of a module that has short ones alone."""
    names, at = [], len(HEADER)
    while at < len(data):
        names.append(data[at + 3:at + 3 + data[at + 2]].decode())
        at += 2 + data[at + 1]
    return names


def try_selections(runs):
    for words, wanted in (
        (["--strip", "name"], ["nabe", ".debug_", "e"]),
        (["--strip", "na*e"], [".debug_", "e"]),
        (["--strip", "n*e", "--strip", "e"], [".debug_"]),
        (["--strip", "n*m*"], ["nabe", ".debug_", "e"]),
        (["--strip", "*a*e", "--strip", "*_*"], ["e"]),
        (["--strip", "*"], []),
        (["--strip-all"], []),
        (["--strip-all", "--keep", "na*"], ["name", "nabe"]),
        (["--strip-offsets"], ["name", "nabe", "e"]),
        (["--strip-offsets", "--strip=name"], ["nabe", "e"]),
        (["--strip-offsets", "--keep=.debug_"], ["name", "nabe", ".debug_", "e"]),
    ):
        right = runs.answers(0, "", *words, "named") and custom_sections(runs.out) == wanted
        runs.holds(" ".join(words), right)
    for pattern, dropped in PATTERNS.items():
        (runs.room / "patterns").write_bytes(HEADER + b"".join(map(custom_section, PATTERN_NAMES)))
        runs.run("--strip", pattern, "patterns")
        left = [name for name in PATTERN_NAMES if name not in dropped]
        runs.holds(f"--strip {pattern}", runs.status == 0 and custom_sections(runs.out) == left)
    right = runs.answers(0, "", "--strip-offsets", "alike")
    runs.holds("names like those with offsets", right and custom_sections(runs.out) == ["linkingX", "relocs",
                                                                                         "sourceMappingURL2"])
    (runs.room / "stale").write_bytes(HEADER + STALE_SECTIONS)
    runs.run("stale")
    runs.holds("a warning of several sections", runs.status == 0 and runs.err == stale("stale", STALE_NAMES))
    runs.fresh()
    runs.run("--strip-offsets", "--keep", ".d*g_", "debug", "-o", "there")
    runs.holds("a warning of offsets that stay", runs.status == 0 and runs.err == stale("debug"))


def unused(*words):
    return f"warning: {' '.join(words)}: no custom section matches\n"


def try_unused_patterns(runs):
    """Warnings of patterns that match no custom section of any module."""
    (runs.room / "one").write_bytes(FILES["named"])
    patterns = ["--strip", "e*e", "--strip", "na*", "--keep", "nab", "--keep", "nabe"]
    for words in (["named"], ["named", "-o", "there"], ["--hash", "named"], ["--in-place", "one"],
                  ["--hash", "--json", "named", "canonical"]):
        runs.run(*patterns, *words)
        right = runs.status == 0 and runs.err == unused("--strip", "e*e") + unused("--keep", "nab")
        runs.holds(f"patterns that match nothing, {' '.join(words)}", right)
    for name, words in (
        ("patterns that match in different modules", ["--hash", "--strip", "name", "--strip", "a", "named", "custom"]),
        ("two patterns that match one name", ["--strip", "*", "--strip", "name", "--strip-all", "named"]),
        ("a pattern that keeps what nothing drops", ["--strip", "e", "--keep", "name", "named"]),
        ("options without a pattern", ["--strip-all", "--strip-offsets", "canonical"]),
    ):
        runs.holds(name, runs.answers(0, "", *words))
    runs.run("--strip", "\x1b", "--strip", "", "named")
    right = runs.status == 0 and runs.err == unused("--strip", "\\u{1b}") + unused("--strip", "")
    runs.holds("an escaped pattern that matches nothing", right)
    runs.run("--hash", "--strip", "x", "cut", "named")
    runs.holds("a pattern beside a refusal", runs.status == 1 and "warning" not in runs.err)


def try_names(runs):
    padded, unpadded = FILES["padded"], FILES["unpadded"]
    runs.holds("names as they are", runs.writes("padded", data=padded))
    runs.holds("names", runs.writes("--names", "padded", data=unpadded))
    runs.holds("names that are minimal", runs.writes("--names", "unpadded", data=unpadded))
    runs.fresh()
    (runs.room / "there").write_bytes(padded)
    right = runs.answers(0, "", "--in-place", "--names", "there")
    runs.holds("names in their place", right and runs.there() == unpadded and runs.leaves_nothing_beside())
    runs.holds("names alone", runs.writes("--names", "--strip-all", "--keep", "prod*", "padded", data=HEADER + TYPE
                                          + PRODUCERS))
    runs.holds("names as they are, checked", runs.answers(0, "", "--check", "padded"))
    message = "not canonical: custom section, offset 0x15: not minimally encoded: 10 bytes, minimal is 6"
    runs.holds("names, checked", runs.answers(NO, f"error: padded: {message}\n", "--check", "--names", "padded"))
    (runs.room / "producers").write_bytes(HEADER + NAMES + PADDED_PRODUCERS)
    message = f"not canonical: custom section, offset 0x21: {LONG_SIZE}"
    runs.holds("producers, checked",
               runs.answers(NO, f"error: producers: {message}\n", "--check", "--names", "producers"))
    runs.holds("minimal names, checked", runs.answers(0, "", "--check", "--names", "unpadded"))
    runs.holds("a longer module, checked with names",
               runs.answers(NO, f"error: long: {NOT_CANONICAL}", "--check", "--names", "long"))
    runs.run("--hash", "--names", "padded")
    runs.holds("a hash of names", runs.status == 0 and runs.out.decode() == f"{sum_of(unpadded)}  padded\n")
    runs.run("--report", "--names", "padded")
    runs.holds("a report of names", runs.status == 0 and runs.out == REPORT_OF_NAMES)
    runs.run("--report", "padded")
    runs.holds("a report without names", runs.status == 0 and b"  total        91        91         0" in runs.out)
    runs.run("--check", "--names", "--json", "padded")
    told = [[it[name] for name in ("section", "id", "section_offset", "offset")] for it in list_in(runs.out)]
    runs.holds("names as JSON", told == [[1, 0, 0x0E, 0x15]])
    runs.holds("no offsets are stale", runs.answers(0, "", "padded_debug"))
    runs.run("--names", "padded_debug")
    runs.holds("a warning of offsets after names", runs.status == 0 and runs.err == stale("padded_debug"))
    runs.holds("names of no module", runs.answers(1, f"error: cut: {CUT}\n", "--names", "cut"))
    for words in (["--diff", "long"], ["--list"]):
        right = runs.answers(2, "error: ", "--names", *words, "long")
        runs.holds(f"--names {words[0]}", right and "\nUsage: wasmcanon " in runs.err)
    if not lacks(runs.report, "wasm-objdump", "no names were given to it"):
        runs.fresh()
        (runs.room / "imported").write_bytes(HEADER + TYPE + b"\2\7\1\1a\1b\0\0" + PADDED_NAMES + PADDED_PRODUCERS)
        runs.run("--names", "imported", "-o", "there")
        before, after = (shown_by_wabt(runs.room / name) for name in ("imported", "there"))
        runs.holds("names that wasm-objdump shows", b"- func[0] <f>\n" in after and after == before)


def shown_by_wabt(module):
    """What wasm-objdump shows of a module, after the name of the file."""
    return run_command("wasm-objdump", "--details", module).stdout.partition(b"\n\n")[2]


def try_foreign(runs):
    for found, message, data in FOREIGN:
        (runs.room / "foreign").write_bytes(data)
        runs.holds(found, runs.answers(1, f"error: foreign: {message}\n", "--check", "foreign"))
    (runs.room / "a\u202eb").write_bytes(b"")
    runs.holds("a file whose name reorders text",
               runs.answers(1, f"error: a\\u{{202e}}b: {NO_HEADER}, found no bytes\n", "--check", "a\u202eb"))
    (runs.room / "a\u202eb").unlink()
    ran = run_command("sh", "-c", 'cat /dev/zero | "$1" --check', "sh", runs.program)
    runs.holds("an input without end", ran.returncode == 1 and b"found 00 00 00 00" in ran.stderr)


def try_json(runs):
    runs.run("--check", "--json", "canonical", "long", "cut")
    told = list_in(runs.out)
    wanted = [{"file": "canonical", "canonical": True}, LONG_AS_JSON, CUT_AS_JSON]
    runs.holds("checks as JSON", runs.status == 1 and told == wanted)
    (runs.room / "longer").write_bytes(HEADER + TYPE + FUNCTION + b"\x0A\7\1\5\0\x41\x80\0\x0B")
    runs.run("--check", "--json", "longer")
    told = [[it[name] for name in ("section", "id", "item", "instruction", "offset")] for it in list_in(runs.out)]
    runs.holds("an instruction as JSON", told == [[2, 10, 0, 23, 23]])
    quoted = 'back\\slash "quoted"'
    (runs.room / quoted).write_bytes(HEADER + b'\0\5\4a\\"b')
    runs.run("--list", "--json", quoted)
    told = list_in(runs.out)
    right = told[0]["file"] == quoted and json.dumps('a\\"b') in json.dumps(told)
    runs.holds("backslashes and quotes as JSON", runs.status == 0 and right)
    (runs.room / quoted).unlink()
    runs.run("--hash", "--json", "long")
    runs.holds("hashes as JSON", list_in(runs.out) == [{"file": "long", "sha256": sum_of(FILES["canonical"])}])
    runs.run("--diff", "--json", "long", "canonical")
    runs.holds("no difference as JSON", runs.status == 0 and json.loads(runs.out)
               == {"files": ["long", "canonical"], "same": True})
    runs.run("--diff", "--json", "long", "other")
    told = json.loads(runs.out)
    runs.holds("a difference as JSON", runs.status == NO and told["same"] is False
               and told["difference"].startswith("memory section, offset 0x12"))


def try_checks(runs):
    runs.holds("a canonical module, checked", runs.answers(0, "", "--check", "canonical"))
    runs.holds("a longer module, checked", runs.answers(NO, f"error: long: {NOT_CANONICAL}", "--check", "long"))
    runs.holds("no module, checked", runs.answers(1, f"error: cut: {CUT}\n", "--check", "cut"))
    for name, message, data in LONGER:
        (runs.room / "longer").write_bytes(HEADER + data)
        right = runs.answers(NO, f"error: longer: not canonical: {message}\n", "--check", "longer")
        runs.holds(f"{name} that is longer, checked", right)


def try_quiet(runs):
    for status, words in ((0, ["--check", "canonical"]), (NO, ["--check", "long"]), (1, ["--check", "cut"]),
                          (4, ["--check", "none"]), (1, ["--check", "long", "cut"]),
                          (0, ["--diff", "long", "canonical"]), (NO, ["--diff", "long", "other"]),
                          (1, ["--diff", "long", "cut"])):
        for option in ("--quiet", "-q"):
            runs.holds(" ".join([*words, option]), runs.answers(status, "", *words, option) and not runs.out)
    runs.holds("not canonical and malformed", runs.answers(1, "error: ", "--check", "long", "cut"))
    for words in (["-o", "there"], ["--hash"], ["--list"], ["--report"], ["--check", "--json"]):
        right = runs.answers(2, "error: ", "--quiet", *words, "long")
        runs.holds(f"--quiet {words[0]}", right and "\nUsage: wasmcanon " in runs.err)


def function(instructions):
    """A module of one function with these instructions."""
    body = sized(b"\0" + instructions + b"\x0B")
    return HEADER + TYPE + FUNCTION + b"\x0A" + sized(b"\1" + body)


def large_modules():
    """Modules of which a copy would be noticed: what each has, the status and message of a check, and its bytes."""
    nops, not_minimal = b"\1" * 30_000_000, "not minimally encoded: {} bytes, minimal is {}"
    yield "a canonical section", 0, "", FILES["big_canonical"]
    yield "a longer size", NO, "not canonical: custom section, offset 0x9: " + not_minimal.format(5, 4), FILES["big"]
    yield "a function", 0, "", function(nops)
    yield "a br_table", 0, "", function(b"\x0E\x80\x87\xA7\x0E" + nops + b"\0")
    at = len(function(nops)) - 1
    there = f"code section, function 0, offset {at:#x}: "
    yield ("a function that ends with a longer instruction", NO, "not canonical: " + there + not_minimal.format(3, 2),
           function(nops + b"\x20\x80\0"))
    yield ("a function that ends with a malformed instruction", 1, there + "unknown opcode 0xFF",
           function(nops + b"\xFF"))


def many_parts():
    """Modules of which something kept for each part would be noticed, or a copy of a name: what each has, and its
    bytes."""
    yield "a million empty code sections", HEADER + b"\x0A\1\0" * 1_000_000
    yield "two million functions", HEADER + b"\x0A" + sized(leb(2_000_000) + b"\2\0\x0B" * 2_000_000)
    yield "a long name", HEADER + b"\0" + sized(sized(b"a" * 20_000_000))


def many_contents():
    """Custom sections of which a list or a copy of their contents would be noticed: what each has, and its bytes."""
    names, values = b"\0\1t" * 2_000_000, b"\1a\0" * 2_000_000
    yield "two million names", custom_module(b"name", b"\4" + sized(leb(2_000_000) + names))
    yield "two million values", custom_module(b"producers", b"\1\3sdk" + leb(2_000_000) + values)
    yield "a name of 20 MB", custom_module(b"name", b"\0" + sized(sized(b"a" * 20_000_000)))


def custom_module(name, contents):
    return HEADER + b"\0" + sized(sized(name) + contents)


def many_names():
    """Modules of which an offset kept for each name would be noticed: what each has, and its bytes."""
    yield "a million exports", HEADER + b"\7" + sized(leb(1_000_000) + b"\3abc\0\0" * 1_000_000)
    yield "a million imports", HEADER + b"\2" + sized(leb(1_000_000) + bytes(4_000_000))
    named = leb(1_000_000) + b"".join(leb(at) + b"\0" for at in range(1_000_000))
    yield "a million names", HEADER + b"\0" + sized(b"\4name\1" + sized(named))


def least_memory(runs):
    """The KiB of address space in which the program checks an empty module. In less it may not even be loaded."""
    least, words = 1024, [runs.program, "--check", runs.room / "header"]
    while least < 1 << 20 and run_command(*under(f"ulimit -v {least}", *words)).returncode != 0:
        least += 256
    return least


def in_little_memory(runs, least, name, status, message, *words):
    """Runs the program on files in as much memory as an empty module needs, 1.1 times their length and 4 MB."""
    size = sum((runs.room / word).stat().st_size for word in words if not word.startswith("-"))
    limit = least + (11 * size // 10 + 4_000_000) // 1024
    ran = run_command(*under(f"ulimit -v {limit}", runs.program, *words), cwd=runs.room, stdout=subprocess.DEVNULL)
    runs.status, runs.out, runs.err = ran.returncode, b"", ran.stderr.decode()
    right = runs.status == status and (runs.err.startswith(message) if message else not runs.err)
    runs.holds(f"{name} in little memory: {' '.join(words)}", right)


def try_memory(runs):
    """A check, a report, a comparison and a listing hold each module once."""
    least = least_memory(runs)
    for name, status, message, data in large_modules():
        (runs.room / "large_module").write_bytes(data)
        error = f"error: large_module: {message}\n" if message else ""
        in_little_memory(runs, least, name, status, error, "--check", "large_module")
        reported = (0, "") if "not minimally" in message else (status, error)
        in_little_memory(runs, least, name, *reported, "--report", "large_module")
        in_little_memory(runs, least, name, *reported, "--report", "--json", "large_module")
    for name, data in many_parts():
        (runs.room / "large_module").write_bytes(data)
        for words in (["--report"], ["--report", "--json"]):
            in_little_memory(runs, least, name, 0, "", "--any-order", *words, "large_module")
    for name, data in many_contents():
        (runs.room / "large_module").write_bytes(data)
        for words in (["--list"], ["--list", "--json"]):
            in_little_memory(runs, least, name, 0, "", *words, "large_module")
    for name, data in many_names():
        (runs.room / "large_module").write_bytes(data)
        in_little_memory(runs, least, name, 0, "", "--list", "large_module")
    (runs.room / "large_module").write_bytes(FILES["big"][:-1] + b"a")
    for words in (["--diff"], ["--diff", "--all"], ["--diff", "--all", "--json"]):
        in_little_memory(runs, least, "a longer size", 0, "", *words, "big", "big_canonical")
        in_little_memory(runs, least, "another byte", NO, "error: big and large_module differ: ", *words, "big",
                         "large_module")
    (runs.room / "large_module").unlink()


def try_offsets(runs):
    runs.fresh()
    runs.run("debug", "-o", "there")
    runs.holds("a warning of offsets", runs.status == 0 and runs.err == stale("debug"))
    runs.run("there")
    runs.holds("no warning if no bytes move", runs.status == 0 and not runs.err and b"debug_" in runs.out)
    runs.holds("offsets left out", runs.writes("--strip-offsets", "debug"))
    runs.holds("other custom sections", runs.writes("--strip-offsets", "customs", data=FILES["custom"]))


def try_differences(runs):
    runs.holds("two modules with one canonical form", runs.answers(0, "", "--diff", "long", "canonical"))
    for name, first, second, message in (
        ("two modules that differ", "long", "other",
         "memory section, offset 0x12 in the first canonical form, offset 0x12 in the second"),
        ("the second has a section more", "types", "canonical",
         "memory section, offset 0xe: only in the second canonical form"),
        ("the first has a section more", "canonical", "header",
         "type section, offset 0x8: only in the first canonical form"),
        ("another section", "escape", "canonical",
         'section 0, offset 0x8: custom "\\u{1b}" in the first canonical form, type in the second'),
    ):
        error = f"error: {first} and {second} differ: {message}"
        runs.holds(name, runs.answers(NO, error, "--diff", first, second))
    runs.run("--diff", "long", "other")
    shown = ["memory section, memory 0", "-000011      2 | memory[0] initial=1",
             "+000011      2 | memory[0] initial=2"]
    runs.holds("what differs", runs.err.splitlines()[1:] == shown and not runs.out)
    runs.holds("the second is no module",
               runs.answers(1, f"error: cut: {CUT}\n", "--diff", "long", "cut"))


def try_reports(runs):
    for name, file, wanted in (("a report", "long", REPORT), ("a report of numbers", "numbers", REPORT_OF_NUMBERS)):
        runs.run("--report", file)
        runs.holds(name, runs.status == 0 and runs.out == wanted)
    told = json_report(runs, "debug")
    names = [section["name"] for section in told["sections"]]
    runs.holds("a report as JSON", (told["before"], told["after"], names) == (33, 29, [".debug_", None, None]))
    encodings = [section["encodings"] for section in json_report(runs, "numbers")["sections"]]
    found = [(it["longer_items"], it["items"], it["longer_size"], it["longer_count"]) for it in encodings]
    runs.holds("a report of longer encodings as JSON", found == ENCODINGS)
    for name, message, data in MALFORMED:
        right = is_malformed(runs, message, data, "--report", "broken") and not runs.out
        right = right and is_malformed(runs, message, data, "--report", "--json", "broken")
        told = list_in(runs.out)
        runs.holds(f"no report of {name}", right and len(told) == 1 and "sections" not in told[0]
                   and told[0]["error"] == f"broken: {message}")
    runs.run("--report", "--json", "long", "cut", "header")
    told = list_in(runs.out)
    runs.holds("a refusal between reports as JSON", runs.status == 1 and len(told) == 3 and told[1] == CUT_AS_JSON
               and (told[0]["before"], told[0]["after"], told[2]["sections"]) == (23, 19, []))
    try_cut_reports(runs)


def try_cut_reports(runs):
    """A report that is too long to hold is printed before the section that is malformed."""
    message = "section 30000, offset 0x15f98: unknown section id 14"
    (runs.room / "many").write_bytes(HEADER + b"\0\1\0" * 30_000 + b"\x0E\0")
    right = runs.answers(1, f"error: many: {message}\n", "--report", "many")
    runs.holds("a long report of a malformed module", right and len(runs.out.splitlines()) == 30_001)
    right = runs.answers(1, f"error: many: {message}\n", "--report", "--json", "many")
    told = list_in(runs.out)
    runs.holds("a long report of a malformed module as JSON", right and len(told) == 1
               and len(told[0]["sections"]) == 30_000 and told[0]["error"] == f"many: {message}")


def json_report(runs, file):
    """The report on a file as JSON; if there is none, one that differs from all."""
    runs.run("--report", "--json", file)
    told = list_in(runs.out)
    return told[0] if runs.status == 0 and len(told) == 1 else {"before": 0, "after": 0, "sections": []}


def try_listings(runs):
    runs.run("--list", "every")
    runs.holds("a listing", runs.status == 0 and not runs.err and runs.out.decode() == LISTING)
    runs.run("--list", input=EVERY)
    runs.holds("a listing of standard input", runs.status == 0 and runs.out.decode() == LISTING)
    runs.run("--list", "every", "header", "every")
    wanted = f"every:\n{LISTING}header:\nevery:\n{LISTING}"
    runs.holds("several listings", runs.status == 0 and runs.out.decode() == wanted)
    for data, wanted in INSTRUCTIONS:
        (runs.room / "listed").write_bytes(code(data))
        runs.run("--list", "listed")
        end = 0x17 + len(data)
        lines = f" 000015 {len(data) + 3:>6} | func[0]\n{wanted}\n {end:06x}: 0b                         | end\n"
        runs.holds(f"a listing of {data.hex(' ')}", runs.status == 0 and runs.out.decode().endswith(lines))
    for name, listing, message, data in CUT_LISTINGS:
        (runs.room / "listed").write_bytes(HEADER + data)
        right = runs.answers(1, f"error: listed: {message}\n", "--list", "listed")
        runs.holds(f"a listing up to {name}", right and runs.out.decode() == listing)
    right = runs.answers(1, f"error: nothing: {NO_HEADER}", "--list", "nothing") and not runs.out
    runs.holds("a listing of no bytes", right)
    for name, message, data in MALFORMED:
        (runs.room / "broken").write_bytes(HEADER + b"\1\1\0" + data)
        right = runs.answers(1, f"error: broken: {message}\n", "--list", "broken")
        runs.holds(f"a listing up to {name}", right and runs.out.startswith(b"section 0: type, offset 0x8, 3 bytes, "))
    for name, message, data in DISORDERED:
        (runs.room / "disordered").write_bytes(HEADER + data)
        right = runs.answers(1, f"error: disordered: {message}", "--list", "disordered")
        runs.holds(f"a listing of {name}", right and runs.answers(0, "", "--any-order", "--list", "disordered"))
    for name, data, wanted in LISTINGS:
        (runs.room / "listed").write_bytes(HEADER + data)
        runs.run("--list", "--any-order", "listed")
        runs.holds(f"a listing: {name}", runs.status == 0 and runs.out.decode() == wanted)
    try_names_of_functions(runs)
    try_long_listing(runs)


def try_names_of_functions(runs):
    """Lists modules of functions 0 to 5. A section that names them may be malformed, and then ends the listing."""
    for name, data, wanted in FUNCTION_NAMES:
        (runs.room / "listed").write_bytes(HEADER + TYPE + b"\3\7\6" + bytes(6) + data)
        runs.run("--list", "--any-order", "listed")
        right = names_of_functions(runs.out) == {at: wanted.get(at) for at in range(6)}
        runs.holds(f"names in a listing: {name}", right)
    entries = b"".join(leb(2 * at) + leb(len(f"f{at}")) + f"f{at}".encode() for at in range(100))
    name_map = sized(leb(100) + entries)
    (runs.room / "listed").write_bytes(
        HEADER + TYPE + b"\3" + sized(leb(210) + bytes(210)) + b"\0" + sized(b"\4name\1" + name_map))
    runs.run("--list", "--any-order", "listed")
    wanted = {at: f"f{at // 2}" if at % 2 == 0 and at < 200 else None for at in range(210)}
    runs.holds("a hundred names in a listing", runs.status == 0 and names_of_functions(runs.out) == wanted)


def names_of_functions(listing):
    """The names of the functions in the function section of a listing."""
    lines = re.finditer(r"func\[(\d+)\] type 0(?: <(.*)>)?$", listing.decode(), re.MULTILINE)
    return {int(line[1]): line[2] for line in lines}


def try_long_listing(runs):
    """Lists and compares modules with long items, whose values and texts are longer still. Only the modules may be
    held."""
    least = least_memory(runs)
    for kind, one, other in long_items():
        (runs.room / "long_item").write_bytes(one)
        (runs.room / "other_item").write_bytes(other)
        for words in (["--list"], ["--list", "--json"]):
            in_little_memory(runs, least, f"a long {kind}", 0, "", "--any-order", *words, "long_item")
        differ = "error: long_item and other_item differ"
        for words in (["--diff"], ["--diff", "--json"], ["--diff", "--all"], ["--diff", "--all", "--json"]):
            files = ["long_item", "other_item"]
            in_little_memory(runs, least, f"a long {kind}", NO, differ, "--any-order", *words, *files)


def try_listings_as_json(runs):
    runs.run("--list", "--json", "every", "cut", "none")
    told = list_in(runs.out)
    files = [it.get("file") for it in told]
    runs.holds("listings as JSON", runs.status == 4 and files == ["every", "cut", "none"])
    sections = told[0]["sections"] if told else []
    ids = [section["id"] for section in sections]
    runs.holds("sections as JSON", ids == [1, 2, 3, 4, 5, 13, 6, 7, 8, 9, 12, 10, 11, 0] and "error" not in told[0])
    for section, item, wanted in EVERY_AS_JSON:
        runs.holds(f"an item as JSON: {wanted['text']}", sections and sections[section]["items"][item] == wanted)
    runs.holds("a size as JSON", sections and sections[11]["longer_size"] == {"size": 2, "minimal": 1})
    runs.holds("an instruction in a list as JSON", sections and sections[11]["items"][0]["code"][4] == CALL_AS_JSON)
    (runs.room / "listed").write_bytes(HEADER + NAMED_IMPORT)
    runs.run("--list", "--json", "listed")
    code = list_in(runs.out)[0]["sections"][3]["items"][0]["code"]
    runs.holds("the name of an import as JSON", [it["name"] for it in code] == ["e.\x1bf", None])
    cut = dict(told[1]) if len(told) > 1 else {}
    listed = cut.pop("sections", None)
    runs.holds("a refusal after a list as JSON", cut == CUT_AS_JSON and [it["id"] for it in listed or []] == [1])
    for name, _, message, data in CUT_LISTINGS:
        (runs.room / "listed").write_bytes(HEADER + data)
        runs.run("--list", "--json", "listed")
        told = list_in(runs.out)
        runs.holds(f"a list as JSON up to {name}", len(told) == 1 and told[0].get("error") == f"listed: {message}")


def try_all_differences(runs):
    for name, one, other, wanted in ALL_DIFFERENCES:
        (runs.room / "one_of_two").write_bytes(one)
        (runs.room / "other_of_two").write_bytes(other)
        runs.run("--diff", "--all", "one_of_two", "other_of_two")
        message = "error: one_of_two and other_of_two differ: " if wanted else ""
        right = runs.status == (NO if wanted else 0) and runs.err.startswith(message) and bool(runs.err) == bool(wanted)
        runs.holds(f"all differences: {name}", right and runs.out.decode() == wanted)
        runs.run("--diff", "--all", "--json", "one_of_two", "other_of_two")
        told = json.loads(runs.out)
        sides = [side["text"] for part in told["differences"] for side in (part["first"], part["second"]) if side]
        whole_lines = re.sub("\n +", " ", wanted).splitlines()
        lines = [line for line in whole_lines if re.match(r"[-+](section|\w+ +\d+ \|)", line)]
        runs.holds(f"all differences as JSON: {name}", told["same"] is not bool(wanted) and len(sides) == len(lines)
                   and all(text in line for text, line in zip(sides, lines)))
    runs.holds("a difference from no module", runs.answers(1, f"error: cut: {CUT}\n", "--diff", "--all", "long", "cut"))
    for words in (["--all"], ["--check", "--all"], ["--list", "--all"], ["--check", "--no-custom"]):
        refused = runs.answers(2, "error: ", *words, "long") and "\nUsage: wasmcanon " in runs.err
        runs.holds(f"{' '.join(words)}: options that don't go together", refused)


def try_refusals(runs):
    runs.fresh()
    refusals = [
        ("no module", 1, f"cut: {CUT}\n", ["cut", "-o", "there"]),
        ("no header", 1, f"kept: {NO_HEADER}", ["kept", "-o", "there"]),
        ("no input", 4, "none: read failed: ", ["none", "-o", "there"]),
        ("a folder for an input", 4, f"{runs.room}: read failed: ", [runs.room, "-o", "there"]),
        ("no folder for the output", 4, "none/x: write failed: ", ["long", "-o", "none/x"]),
        ("no output's name", 2, "", ["long", "-o"]),
        ("an unknown option", 2, "", ["--chek", "long"]),
        ("a second file without a folder", 2, "", ["long", "other"]),
        ("a check that is to write", 2, "", ["--check", "long", "-o", "there"]),
    ]
    for words in (["--diff"], ["--json"], ["--check", "--report"], ["--check", "--strip-offsets"]):
        refusals.append((" ".join(words), 2, "", [*words, "long"]))
    for name, status, error, words in refusals:
        runs.holds(name, runs.refuses(status, f"error: {error}", *words))


def is_malformed(runs, message, data, *words):
    (runs.room / "broken").write_bytes(HEADER + b"\1\1\0" + data)
    return runs.answers(1, f"error: broken: {message}\n", *(words or ["--check", "broken"]))


def try_malformed(runs):
    runs.holds("no bytes", runs.answers(1, f"error: nothing: {NO_HEADER}", "--check", "nothing"))
    cut = "error: cut_type: type section, offset 0x9: size 6 too large: 5 bytes left\n"
    runs.holds("a section that is cut", runs.answers(1, cut, "--check", "cut_type"))
    message = "code section, function 1, offset 0x13: unknown opcode 0xFF"
    data = b"\x0A\x08\2\2\0\x0B\3\0\xFF\x0B"
    runs.holds("an unknown opcode", is_malformed(runs, message, data))
    for words in (["broken"], ["--hash", "broken"], ["--report", "broken"], ["--diff", "long", "broken"]):
        runs.holds(f"the same by {' '.join(words)}", is_malformed(runs, message, data, *words))
    for name, message, data in MALFORMED:
        runs.holds(name, is_malformed(runs, message, data))
    # The reason of a refusal is checked at its place, however large the input is.
    (runs.room / "large_malformed").write_bytes(HEADER + b"\0\xC2\x9A\x0C\1a" + bytes(200_000) + b"\1\5\1\x60\1\x7A\0")
    message = "error: large_malformed: type section, type 0, offset 0x30d53: invalid value type 0x7a\n"
    runs.holds("a large malformed module", all(runs.answers(1, message, *words, "large_malformed")
                                               for words in ([], ["--check"], ["--hash"])))


def try_mistaken_options(runs):
    """Names of options without their dashes, and a file of such a name."""
    for word in ("check", "strip", "help", "in-place"):
        message = f"error: {word}: no such file: did you mean --{word}?\n"
        right = runs.answers(2, message, word, "long") and "\nUsage: wasmcanon " in runs.err
        runs.holds(f"{word} without dashes", right)
    (runs.room / "check").write_bytes(FILES["long"])
    runs.holds("a file that is named as an option", runs.writes("check"))
    (runs.room / "check").unlink()
    runs.holds("no such file", runs.answers(4, "error: input: read failed: ", "input"))


def try_closed_pipes(runs):
    """A reader that closes its end wants no more of a text, but a module is lost."""
    (runs.room / "many").write_bytes(HEADER + b"\0\2\1a" * 20_000)
    for words in (["--list", "many"], ["--list", "--json", "many"], ["--report", "many"], ["--help"], ["--version"],
                  ["--check", "--json", "long"], ["--hash", "long"], ["--diff", "--all", "many", "long"]):
        into_closed_pipe(runs, *words)
        right = runs.status == (NO if words[0] in ("--check", "--diff") else 0) and "write failed" not in runs.err
        runs.holds(f"a closed pipe, {' '.join(words)}", right)
    into_closed_pipe(runs, "many")
    runs.holds("a closed pipe, a module", runs.status == 4 and write_failed(runs))
    (runs.room / "many").unlink()


def into_closed_pipe(runs, *words):
    """Runs the program with a pipe as standard output that nobody reads."""
    ours, theirs = os.pipe()
    os.close(ours)
    runs.run(*words, stdout=theirs)
    os.close(theirs)


def try_help(runs):
    runs.holds("the help", runs.answers(0, "", "--help") and is_help(runs.out.decode()))
    usage = usage_in(runs.out.decode())
    runs.holds("the usage of an error", usage and runs.answers(2, "error: ", "--chek") and usage_in(runs.err) == usage)
    right = runs.answers(0, "", "--version")
    launched = run_command(ROOT / "bin/wasmcanon", "--version").stdout
    version, _, kit = runs.out.partition(b", written for ")
    right = right and launched.startswith(version + b", ") and run_command("rt", "version").stdout.endswith(b" " + kit)
    runs.holds("the version, and the kit's logic", right)


def is_help(text):
    """Whether the launcher's help begins with this text, and the text names each option in lines of 80 columns."""
    lines = text.splitlines()
    launched = run_command(ROOT / "bin/wasmcanon", "--help").stdout.decode().splitlines()
    source = (ROOT / HELP["wasmcanon"]).read_text("utf-8")
    options = set(re.findall(r'^ *name: "(.*)",$', source, re.MULTILINE)) - {"input"}
    named = all(any(re.match(rf"  .*--{option} ", line) for line in lines) for option in options)
    return lines and launched[:len(lines)] == lines and max(map(len, lines)) <= 80 and named


def usage_in(text):
    return re.findall(r"^Usage: (?s:.*?)(?:^$|\Z)", text, re.MULTILINE)


def try_failing_writes(runs):
    if os.path.exists("/dev/full"):
        with open("/dev/full", "wb") as full:
            runs.run("long", stdout=full)
        runs.holds("a device that is full", runs.status == 4 and write_failed(runs))
        for words in (["--help"], ["--version"], ["--hash", "long"], ["--report", "long"], ["--list", "long"],
                      ["--check", "--json", "long"], ["--hash", "--json", "long"], ["--report", "--json", "long"],
                      ["--list", "--json", "long"], ["--diff", "--json", "long", "canonical"],
                      ["--diff", "--all", "long", "other"], ["--diff", "--all", "--json", "long", "other"]):
            with open("/dev/full", "wb") as full:
                runs.run(*words, stdout=full)
            runs.holds(f"a device that is full, {' '.join(words)}", runs.status == 4 and write_failed(runs))
    whole = run_command(runs.program, "large", cwd=runs.room).stdout
    with open(runs.room / "out", "wb") as output:
        ran = run_command(*under("trap '' XFSZ; ulimit -f 1", runs.program, "large"), cwd=runs.room, stdout=output)
    begun, runs.status, runs.err = (runs.room / "out").read_bytes(), ran.returncode, ran.stderr.decode()
    runs.holds("a write that fails", runs.status == 4 and write_failed(runs) and begun and whole.startswith(begun))


def write_failed(runs):
    return re.search("^error: standard output: write failed", runs.err, re.MULTILINE)


def on_a_terminal(runs, *words, both=False):
    """Runs the program with standard error on a terminal, and if `both` standard output too. Returns its status, each
    phase that it showed with the last number of bytes, and the lines that remain on the terminal."""
    ours, theirs = pty.openpty()
    process = subprocess.Popen([runs.program, *words], cwd=runs.room, stdin=subprocess.DEVNULL, stderr=theirs,
                               stdout=theirs if both else subprocess.DEVNULL)
    os.close(theirs)
    text = read_terminal(ours)
    phases = dict(re.findall(rb"wasmcanon: (\w+) ([\d.]+ MB)", text))
    runs.status, runs.out, runs.err = process.wait(), b"", ""
    told = [str(runs.status), *(f"{phase.decode()} {size.decode()}" for phase, size in phases.items())]
    return ["; ".join(told), *([] if both else remaining_lines(text))]


def remaining_lines(text):
    """The lines that a terminal shows: after a carriage return, a part covers what was there."""
    for line in text.replace(b"\r\n", b"\n").split(b"\n"):
        shown = b""
        for part in line.split(b"\r"):
            shown = part + shown[len(part):]
        if shown.strip():
            yield shown.decode().rstrip()


def try_progress(runs):
    runs.fresh()
    told = on_a_terminal(runs, "big", "-o", "there")
    right = told == ["0; reading 49.4 MB; canonicalising 50.0 MB; writing 50.0 MB"]
    runs.holds("progress of a big module", right and runs.there() == FILES["big_canonical"])
    runs.holds("a big module without a terminal", runs.writes("big", data=FILES["big_canonical"]))
    told = on_a_terminal(runs, "--check", "big")
    message = "not canonical: custom section, offset 0x9: not minimally encoded: 5 bytes, minimal is 4"
    wanted = [f"{NO}; reading 49.4 MB; canonicalising 50.0 MB", f"error: big: {message}"]
    runs.holds("progress before a message", told == wanted)
    runs.holds("no progress of a small module", on_a_terminal(runs, "long") == ["0"])
    runs.holds("no progress among bytes", on_a_terminal(runs, "--force", "big", both=True) == ["0"])
    runs.holds("a terminal", on_a_terminal(runs, "long", both=True) == ["2"])
    runs.holds("a terminal, by force", on_a_terminal(runs, "--force", "long", both=True) == ["0"])


def run(report):
    with room() as folder:
        for name, data in {**FILES, "kept": b"kept"}.items():
            (folder / name).write_bytes(data)
        for program in both_programs(report, "wasmcanon"):
            runs = Runs(report, program, folder)
            for attempt in (try_outputs, try_links, try_read_only, try_object_files, try_several, try_names_not_text,
                            try_checks, try_quiet, try_memory, try_order, try_hashes, try_hints, try_selections,
                            try_unused_patterns, try_names, try_foreign, try_json, try_offsets, try_differences,
                            try_reports, try_listings, try_contents, try_chosen_sections, try_listings_as_json,
                            try_all_differences, try_places, try_refusals, try_malformed, try_mistaken_options,
                            try_closed_pipes, try_help, try_failing_writes, try_progress):
                attempt(runs)
