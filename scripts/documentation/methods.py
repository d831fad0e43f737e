"""The documentation of the sink's methods, by the table opcodes.tsv: a row for each method, with the name of its
instruction in the text format, the bytes of its opcode, and its operands in the order in which they are written."""
import re
import textwrap

from documentation import opcode_tables
from documentation.sources import ROOT

TABLE = ROOT / "scripts/opcodes.tsv"
SOURCES = ROOT / "crates/wasm_sink/src/sink"
VECTORS = [ROOT / "crates/replay/data" / name for name in ("sink.tsv", "worked_sink.tsv")]
METHOD = re.compile(r"((?:    ///.*\n)*)(?:    #\[inline.*\n)?    pub fn (\w+)(?s:.*?)ensures emits \{.*?"
                    r"\((without_prefix|after_f[b-e]) 0x(\w+)\)")
WIDTH = 120 - len("    /// ")

OPERANDS = {
    "label": "a label index",
    "local": "a local index",
    "global": "a global index",
    "function": "a function index",
    "type": "a type index",
    "field": "a field index",
    "table": "a table index",
    "memory": "a memory index",
    "tag": "a tag index",
    "data": "a data index",
    "element": "an element index",
    "default": "the default's label index",
    "destination_type": "the destination's type index",
    "source_type": "the source's type index",
    "destination_table": "the destination's table index",
    "source_table": "the source's table index",
    "destination_memory": "the destination's memory index",
    "source_memory": "the source's memory index",
    "argument_type": "the argument's type index",
    "result_type": "the result's type index",
    "memarg": "a memory argument",
    "ordering": "an ordering",
    "length": "a length",
    "lane": "a lane",
    "lanes": "16 lanes",
    "i32": "a signed number of 32 bits",
    "i64": "a signed number of 64 bits",
    "f32": "4 bytes, the lowest first",
    "f64": "8 bytes, the lowest first",
    "v128": "16 bytes, the lowest first",
    "block_type": "a block type",
    "heap_type": "a heap type",
    "one_type": "a list of one value type",
    "nullables": "a byte for nullability",
    "heap_types": "the heap types of `from` and `to`",
    "types": "a list of value types",
    "labels": "a list of label indexes",
    "clauses": "a list of catch clauses",
    "handlers": "a list of handlers",
}
LISTS = ["types", "labels", "clauses", "handlers"]


def documentation(name, opcode, operands):
    """The lines for a row; the errors stand on a line of their own where they don't fit beside the rest."""
    name, *more = name.split(" ", 1)
    title = " ".join([f"`{name}`", *more])
    phrases = [OPERANDS[word] for word in operands]
    written = f"{title}: `{opcode}`"
    if phrases:
        written += ", then " + " and ".join([", ".join(phrases[:-1])] * (len(phrases) > 1) + phrases[-1:])
    errors = ["`Alignment` where `memarg.align` is 64 or more."] * ("memarg" in operands)
    errors += [f"`TooLong` where `{word}.len()` is above 4,294,967,295." for word in operands if word in LISTS]
    sentences = [written + ".", *errors]
    if len(" ".join(sentences)) <= WIDTH:
        sentences = [" ".join(sentences)]
    lines = [line for sentence in sentences for line in textwrap.wrap(sentence, WIDTH)]
    return "".join(f"    /// {line}\n" for line in lines)


def opcode_bytes(prefix, number):
    """The bytes of the opcode that a contract names, as in `after_fd 0xe0`."""
    if prefix == "without_prefix":
        return f"0x{number:02X}"
    digits = [int(prefix[-2:], 16)]
    while number >= 0x80:
        digits.append(0x80 + number % 0x80)
        number //= 0x80
    return " ".join(f"0x{digit:02X}" for digit in [*digits, number])


def prefix_and_number(opcode):
    """The opcode of these bytes."""
    first, *digits = (int(byte, 16) for byte in opcode.split())
    if not digits:
        return None, first
    return first, sum((digit % 0x80) << (7 * place) for place, digit in enumerate(digits))


def differing_vectors(rows):
    """The methods whose vectors begin with another opcode than their row has, and those that have no vector."""
    opcodes = {method: bytes(int(byte, 16) for byte in row[1].split()) for method, row in rows.items()}
    vectors = [line.split("\t") for file in VECTORS for line in file.read_text("utf-8").splitlines()]
    differing = {method for method, _, written in vectors
                 if method not in opcodes or not bytes.fromhex(written).startswith(opcodes[method])}
    return sorted(differing | opcodes.keys() - {method for method, *_ in vectors})


def rows_of_table():
    """The rows by their methods."""
    lines = TABLE.read_text("utf-8").splitlines()[1:]
    return {row[0]: row[1:] for row in (line.split("\t") for line in lines)}


class Made:
    """The texts of the files, the names of what differs in them, and what is wrong with the table."""

    def __init__(self):
        self.rows = rows_of_table()
        self.texts, self.differing, self.faults, self.documented = {}, [], [], set()
        named = {prefix_and_number(opcode): name.split(" ")[0] for name, opcode, *_ in self.rows.values()}
        self.faults += opcode_tables.faults(named)
        self.texts.update(opcode_tables.texts(named))
        self.differing += [file.name for file, text in self.texts.items() if file.read_text("utf-8") != text]
        for path in sorted(SOURCES.rglob("*.rt")):
            if not path.relative_to(SOURCES).parts[0].startswith("emit"):
                self.texts[path] = METHOD.sub(self.document, path.read_text("utf-8"))
        self.faults += [(method, "no such method") for method in self.rows.keys() - self.documented]

    def document(self, found):
        """A method as its row documents it."""
        old, method, prefix, number = found.groups()
        self.documented.add(method)
        if method not in self.rows:
            self.faults.append((method, f"no row in {TABLE.name}"))
            return found[0]
        name, opcode, *operands = self.rows[method]
        stated = opcode_bytes(prefix, int(number, 16))
        if opcode != stated:
            self.faults.append((method, f"its contract has the opcode {stated}, not {opcode}"))
        new = documentation(name, opcode, " ".join(operands).split())
        if old != new:
            self.differing.append(method)
        return new + found[0][len(old):]
