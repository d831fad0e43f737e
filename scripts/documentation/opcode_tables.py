"""The tables of opcodes: their kinds, as the definition `ranges` of `Opcodes.antt` has them, and their names. A kind that
the type `Kind` has comes into the other places that list them all."""
import re
import textwrap

from documentation.sources import ROOT

CRATE = ROOT / "crates/wasm_instructions"
RANGES = CRATE / "specs/formats/Opcodes.antt"
NAME_DEFINITIONS = CRATE / "specs/formats/OpcodeNames.antt"
NAMES = CRATE / "src/names/opcodes.rt"
KINDS = CRATE / "src/table/kinds.rt"
SCANNED = CRATE / "src/normaliser/scan/opcodes.rt"
KIND_TYPE = CRATE / "src/table/opcode.rt"
LAWS = CRATE / "proofs/OpcodeLaws.antt"
REPLAYED = ROOT / "crates/replay/src/kinds.rt"
TESTED = ROOT / "crates/conformance/src/tests/reading/table.rt"
PAGE = ROOT / "docs/FORMAT.md"
# The array of each prefix byte, and the prefix in definitions.
ARRAYS = {None: "WITHOUT_PREFIX", 0xFB: "AFTER_FB", 0xFC: "AFTER_FC", 0xFD: "AFTER_FD", 0xFE: "AFTER_FE"}
VARIANTS = {None: "None", 0xFB: "Fb", 0xFC: "Fc", 0xFD: "Fd", 0xFE: "Fe"}
# Opcodes of one byte have a place for each byte.
BYTES = 256
BEGIN, END = "<!-- made by scripts/opcodes: begin -->\n", "<!-- made by scripts/opcodes: end -->\n"


def kinds():
    """The kind of each opcode, by its prefix byte and its number."""
    found, text = {}, RANGES.read_text("utf-8")
    for prefix, variant in VARIANTS.items():
        lines = re.search(rf"^ranges prefixes\.{variant} =\n((?:    .*\n)*)", text, re.MULTILINE)[1]
        for first, last, kind in re.findall(r"(?:one|from_to (\w+)) (\w+) kinds\.(\w+)", lines):
            for number in range(int(first or last, 16), int(last, 16) + 1):
                found[prefix, number] = kind
    return found


def end_of(table, prefix):
    """The number after the last opcode with this prefix."""
    return 1 + max(number for before, number in table if before == prefix)


def about(prefix):
    return "Opcodes of one byte." if prefix is None else f"Opcodes after `0x{prefix:02X}`."


def filled(words, separator):
    """The words, each with a separator, in lines as long as `rt fmt` makes them."""
    return textwrap.fill(" ".join(f"{word}{separator}" for word in words), 99, initial_indent="    ",
                         subsequent_indent="    ", break_long_words=False, break_on_hyphens=False)


def constants(text, type_of):
    """The constants for the variants of a type in a source, by the variants."""
    found = re.findall(rf"^const (\w+): {re.escape(type_of)} = .*?(\w+)\)?;$", text, re.MULTILINE)
    return {variant: name for name, variant in found}


def name_arrays(named):
    """The source of the names: for each prefix an array, with an empty name at a number that is no opcode."""
    lines = ["//! The name of each opcode, at the place of its number. A number that is no opcode has an empty one."]
    for prefix, array in ARRAYS.items():
        end = end_of(named, prefix)
        lines += ["", f"/// {about(prefix)}", f"pub(super) const {array}: [&str; {end}] = ["]
        lines += [f'    "{named.get((prefix, number), "")}",' for number in range(end)]
        lines += ["];"]
    return "\n".join(lines) + "\n"


def name_definitions(named):
    """The definition of the names, in lines of at most 118 columns."""
    text = NAME_DEFINITIONS.read_text("utf-8")
    for prefix, variant in VARIANTS.items():
        lines, line = [], "   "
        for number in range(end_of(named, prefix)):
            word = f' codes "{named.get((prefix, number), "")}" ∷'
            if len(line) + len(word) > 118:
                lines, line = [*lines, line], "   "
            line += word
        lines += [f"{line} []"]
        made = "\n".join(lines) + "\n"
        body = re.compile(rf"(?<=^names prefixes\.{variant} =\n)(?:    .*\n)*", re.MULTILINE)
        text = body.sub(lambda _: made, text)
    return text


def all_kinds():
    """The kinds, as the type `Kind` has them."""
    body = re.search(r"^pub enum Kind \{\n((?:    .*\n)*)", KIND_TYPE.read_text("utf-8"), re.MULTILINE)[1]
    return re.findall(r"^    (\w+),$", body, re.MULTILINE)


def kind_arrays(table):
    """The source of the kinds: a constant for each, and the arrays. A new constant has the name of its kind."""
    text = KINDS.read_text("utf-8")
    of_kind = constants(text, "Option<Kind>")
    made = [text[:text.index(f"/// {about(None)}")].rstrip("\n") + "\n"]
    for kind in [kind for kind in all_kinds() if kind not in of_kind]:
        of_kind[kind] = re.sub(r"(?<=[a-z])(?=[A-Z])", "_", kind).upper()
        made.append(f"const {of_kind[kind]}: Option<Kind> = Some(Kind::{kind});\n")
    for prefix, array in ARRAYS.items():
        end = BYTES if prefix is None else end_of(table, prefix)
        words = [of_kind[kind] if (kind := table.get((prefix, number), None)) else "NO" for number in range(end)]
        declared = f"pub(crate) const {array}: [Option<Kind>; {end}]"
        made.append(f"/// {about(prefix)}\n{declared} = [\n{filled(words, ',')}\n];\n")
    return "\n".join(made)


def scanned_array(table):
    """The source of the scanned kinds, with the array that it has."""
    text = SCANNED.read_text("utf-8")
    of_kind = constants(text, "ScannedKind")
    words = [of_kind.get(kind.replace("None", "Plain"), "NO") if (kind := table.get((None, number))) else "NO"
             for number in range(BYTES)]
    return re.sub(r"(?<=\[ScannedKind; 256\] = \[\n)(?:    .*\n)*", lambda _: filled(words, ",") + "\n", text)


def laws():
    """The proofs about opcodes, with a line for each kind: only some kinds are scanned."""
    scanned = constants(SCANNED.read_text("utf-8"), "ScannedKind")
    lines = [f"kind_back (Some kinds.{kind}) k e = {'e' if kind.replace('None', 'Plain') in scanned else 'absurd cc'}\n"
             for kind in all_kinds()]
    return re.sub(r"(?:^kind_back \(Some kinds\..*\n)+", "".join(lines), LAWS.read_text("utf-8"), flags=re.MULTILINE)


def replayed():
    """The source that names the kinds of vectors."""
    lines = [f'        Kind::{kind} => "{kind}",\n' for kind in all_kinds()]
    return re.sub(r"(?:        Kind::.*\n)+", "".join(lines), REPLAYED.read_text("utf-8"))


def tested(table):
    """The test with the number of opcodes of each prefix."""
    counts = {variant: sum(before == prefix for before, _ in table) for prefix, variant in VARIANTS.items()}
    return re.sub(r"(?<=\(Prefix::)(\w+), \d+", lambda of: f"{of[1]}, {counts[of[1]]}", TESTED.read_text("utf-8"))


def runs(numbers):
    """The numbers in hexadecimal digits, three or more in a row as a range."""
    words, left = [], sorted(numbers)
    while left:
        count = next(at for at in range(1, len(left) + 1) if at == len(left) or left[at] != left[0] + at)
        run, left = [f"{number:02X}" for number in left[:count]], left[count:]
        words += run if count < 3 else [f"{run[0]}-{run[-1]}"]
    return " ".join(words)


def page(table):
    """The page of the format, with its table of opcodes."""
    blocks = []
    for prefix in ARRAYS:
        by_kind = {}
        for (before, number), kind in table.items():
            if before == prefix:
                by_kind.setdefault(kind, []).append(number)
        lines = ["no prefix byte" if prefix is None else f"after {prefix:02X}"]
        lines += [f"{kind:15} {runs(numbers)}" for kind, numbers in by_kind.items()]
        blocks.append("".join(f"    {line}\n" for line in lines))
    text = PAGE.read_text("utf-8")
    before, after = text.split(BEGIN)[0], text.split(END)[1]
    return f"{before}{BEGIN}\n" + "\n".join(blocks) + f"\n{END}{after}"


def texts(named):
    """The texts of the files that have tables of opcodes, with these names."""
    table = kinds()
    return {NAMES: name_arrays(named), NAME_DEFINITIONS: name_definitions(named), KINDS: kind_arrays(table),
            SCANNED: scanned_array(table), LAWS: laws(), REPLAYED: replayed(), TESTED: tested(table), PAGE: page(table)}


def faults(named):
    """The opcodes that have a name and no kind, or a kind and no name."""
    for prefix, number in sorted(named.keys() ^ kinds().keys(), key=str):
        yield f"{VARIANTS[prefix]} 0x{number:02X}", f"expected a name in opcodes.tsv and a kind in {RANGES.name}"
