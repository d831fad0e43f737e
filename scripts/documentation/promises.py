"""The table of docs/PROMISES.md: the relations that public clauses cite, with the calls that promise them."""
import dataclasses
import os
import re

from documentation import sources
from documentation.interface import BUILDERS
from documentation.sources import ROOT

PROMISES = ROOT / "docs/PROMISES.md"
BEGIN, END = "<!-- made by scripts/api: begin -->", "<!-- made by scripts/api: end -->"


@dataclasses.dataclass
class Call:
    """A call: its name, its group, the names and texts of its clauses, and its item."""

    name: str
    group: str
    clauses: list
    item: sources.Item


# Calls that belong to no group, despite the beginnings of their names.
ALONE = ("check_list_to_end", "check_order", "read_list_to_end", "read_strict", "rewrite_list_to_end", "rewrite_sized")
GROUPED = re.compile(r"((?:nosgrivel_)?(?:read|normalise|rewrite_and_check|rewrite|check|judge))_\w+?(_strict|_in_place)?$")


def without_colons(group):
    return re.sub("::$", "", group)


def group_of(entry, item):
    """The group of a call. The table names a whole group at once."""
    if entry and entry.item.kind in ("struct", "type") and entry.name.endswith(BUILDERS):
        return "InstructionSink" if entry.name == "InstructionSink" else "builders"
    if entry and entry.item.kind != "fn":
        return f"{entry.name}::"
    found = GROUPED.match(item.name)
    if item.name.startswith("nosgrivel_canonicalise"):
        return "nosgrivel_canonicalise…"
    return f"{found[1]}_…{found[2] or ''}" if found and item.name not in ALONE else ""


# The crates whose functions other languages call.
EXPORTS = ("nosgrivel_c", "nosgrivel_wasm")
# Calls that serve implementations of Decode and Readable. The table leaves them out.
OF_IMPLEMENTATIONS = re.compile(r"(Decode|Readable|RewritableBody|Rewriter|Cursor)::.*|check_list_to_end"
                                r"|read_list_to_end|rewrite_list_to_end|rewrite_sized")


def ensured(item):
    return [(clause.name, clause.text) for clause in item.clauses if clause.word == "ensures"]


def all_calls(interface):
    """The calls of the library, implementations of its traits, C calls, and public functions of the programs."""
    for entry, item in interface.public_functions():
        name = item.name if entry.item.kind == "fn" else f"{entry.name}::{item.name}"
        yield Call(name, group_of(entry, item), ensured(item), item)
    for entry in interface.entries.values():
        for type_text, _, found in entry.of_types:
            stated = [(child.name, child.header.partition("=")[2]) for child in found.children if child.kind == "ghost"]
            yield Call(f"{entry.name} for {type_text}", f"`{entry.name}` for", stated, found)
    for crate, file in (("nosgrivel_c", "lib.rt"), ("nosgrivel_wasm", "lib.rt"), ("wasmnorm", "main.rt"),
                        ("wasmcanon", "main.rt")):
        root = interface.crates.module(ROOT / "crates" / crate / "src" / file, None, crate)
        for module in interface.modules(root):
            for item in module.children:
                if item.kind == "fn" and (item.public and crate not in EXPORTS or 'extern "C"' in item.header):
                    interface.module_of[id(item)] = module
                    group = group_of(None, item) if crate == "nosgrivel_c" else f"{crate}::"
                    yield Call(item.name, group, ensured(item), item)


# Relations that the table leaves out: parts of others, conditions for writing, reasons of errors, which the
# documentation of the calls gives, and what implementations of Decode and Readable owe.
PLUMBING = re.compile(r"""
    (Is)?(Counted|Uncounted|Closed)\w* | IsClosed\w+ | StandsFor\w* | Holds\w+ | Is\w*Prefix(Of|MinimalIf)?
    | Is\w*Refusal\w* | IsNothingOr | AddsEachIf | AreClosed | AppendsPrefix | BeforeAnyWrite
    | CanEncodeList | Chain
    | ListMinimalIf | EncodedItems | EncodesList | EncodesSome | Gains\w+ | GivesItems | GoesOnWith | GivesSome
    | HasAlignment | HasNo\w*List | If\w+ | IsAligned | IsAnswer | IsBodyOf | IsBytes | IsCanonicalForm
    | IsCount | IsTypedSection | IsDelivery | IsEncoded | IsFull | IsCheckedInPlace | IsLawful | IsMemoryOrTooLong
    | HasCode | MovesHintsIf | TellsMoved | IsNameOf | IsReadError | IsReadFailure | IsRefusedList | IsSection | IsShort | IsShortEncoding
    | IsWithoutOffsets | LawfulItem | NormalForm | OfBoth | OfItems | OnceAllIsRead | OnlyTooLong | Reads | ReadsAll
    | Sees | TakesBytes | WritesGiven
""", re.X)
NEVER_PLUMBING = ("IsRefusal", "IsLongestPrefix")


def is_relation(call, definition):
    """Whether the table has a row for this definition. Calls of a program count for its own definitions only."""
    own = not call.group.startswith("wasm") or definition.file.parts[-3] == without_colons(call.group)
    plumbing = PLUMBING.fullmatch(definition.name) and definition.name not in NEVER_PLUMBING
    return own and definition.name[0].isupper() and definition.file.parent.name == "specs" and not plumbing


def relations(interface):
    """The calls, and for each relation the calls that promise it with the names of their clauses."""
    calls, found = list(all_calls(interface)), {}
    for call in calls:
        if OF_IMPLEMENTATIONS.fullmatch(call.name):
            continue
        imports = interface.imports_of(call.item)
        for name, text in call.clauses:
            for definition in interface.specifications.cited(text, imports):
                if is_relation(call, definition):
                    name = re.sub(r"^prefix_free_\w+", "prefix_free_…", name)
                    carried = found.setdefault((definition.file, definition.line), (definition, {}))[1]
                    carried.setdefault(call.name, (call, []))[1].append(name)
    return calls, found


def carriers(calls, carried):
    """The calls that promise a relation, with the clauses: grouped by clauses or by calls, whichever is shorter."""
    by_clause, by_call = {}, {}
    for call, names in carried.values():
        by_call.setdefault(tuple(dict.fromkeys(names)), []).append(call)
        for name in dict.fromkeys(names):
            by_clause.setdefault(name, []).append(call)
    merged = {}
    for name, having in by_clause.items():
        merged.setdefault(tuple(call.name for call in having), ([], having))[0].append(name)
    texts = []
    for way in (merged.values(), by_call.items()):
        parts = [(named_calls(calls, having), ", ".join(f"`{name}`" if name else "result" for name in names))
                 for names, having in way]
        texts.append("; ".join(f"{who}: {clauses}" for who, clauses in parts))
    return min(texts, key=lambda text: len(text.split()))


def named_calls(calls, having):
    """These calls in words, group by group."""
    said, groups = [], {}
    for call in having:
        groups.setdefault(call.group, []).append(call)
    for group, members in groups.items():
        names = [f"`{call.name}`" for call in members]
        is_whole = len(names) == sum(call.group == group for call in calls)
        if group.endswith(" for"):
            types = [f"`{call.name.partition(' for ')[2]}`" for call in members]
            said.append(f"{group} {', '.join(types) if len(types) <= 3 else f'{len(types)} types'}")
        elif "…" in group and len(names) > (1 if is_whole else 2):
            said.append(f"`{group}`" if is_whole else f"{len(names)} of `{group}`")
        elif group.startswith("wasm"):
            said.append(f"{', '.join(names)} of `{without_colons(group)}`")
        elif group and len(names) > 3:
            owner = group if group == "builders" else f"`{without_colons(group)}`"
            said.append(f"{len(names)} methods of {owner}")
        else:
            said += names
    return ", ".join(said)


# Relations that say of one kind of thing what another says of all. They share its row.
OF_ONE_KIND = {"IsSectionAfter": re.compile("IsTypeSection|IsCodeSection|IsSectionOfItems"),
               "Adds": re.compile(r"Adds(?!If|EachIf|Segment)\w+"), "AddsIf": re.compile("AddsSegment"),
               "IsMinimal": re.compile(r"IsWritten\w+"), "IsObjectFile": re.compile("IsNoObjectFile"),
               "MovesHints": re.compile("MovesInOneWay"), "CallExceeds": re.compile(r"(?!Call)\w+Exceeds?")}
PREFIX_FREE = re.compile(r"No encoding of .* is a proper prefix of another.*")


def promise_table(interface):
    calls, found = relations(interface)
    rows, said, files = ["| Relation | Meaning | Calls: clauses |", "|---|---|---|"], {}, {}
    general = {definition.name: carried for definition, carried in found.values() if definition.name in OF_ONE_KIND}
    for definition, carried in found.values():
        of_all = next((name for name, kinds in OF_ONE_KIND.items() if kinds.fullmatch(definition.name)), None)
        if of_all in general:
            join(general[of_all], carried)
        else:
            files.setdefault(definition.file, []).append((definition, carried))
    for file, cited in files.items():
        merged = {}
        for definition, carried in sorted(cited, key=lambda pair: pair[0].line):
            text = meaning(definition, said, len(carried))
            alike = merged.setdefault(text, ([], {}))
            alike[0].append(f"[`{definition.name}`]({os.path.relpath(file, PROMISES.parent)}#L{definition.line})")
            join(alike[1], carried)
        for text, (links, carried) in merged.items():
            rows.append(f"| {', '.join(links)} | {text} | {carriers(calls, carried)} |")
    return "\n".join(rows)


def join(carried, more):
    """Adds the calls that promise another relation to those of a row, with the names of their clauses."""
    for name, (call, clauses) in more.items():
        known = carried.setdefault(name, (call, []))[1]
        known += [clause for clause in clauses if clause not in known]


def meaning(definition, said, number):
    """What a definition says that this number of calls promise, and a bundle's fields. A field has its name alone if an
    earlier bundle of the file has that name, another one its words, or only one call promises the bundle."""
    fields, alone, known = [], [], {}
    for field in [field for field in definition.fields if field.comment]:
        keys = (definition.file, field.name), (field.name, field.comment)
        first = said.get(keys[0]) or said.get(keys[1])
        if number == 1:
            alone.append(f"`{field.name}`")
        elif first:
            known.setdefault(first, []).append(f"`{field.name}`")
        else:
            said[keys[0]] = said[keys[1]] = definition.name
            fields.append(f"`{field.name}`: {in_short(field.comment)}")
    says = re.split(r"(?<=\.) ", definition.comment)[0].replace(", called on the sink `s`", "")
    says = re.sub(r"^What a [\w ]+ promises(?:, which|: it| that) (\w)", lambda found: found[1].upper(), says)
    says = PREFIX_FREE.sub("No encoding of one of these kinds is a proper prefix of another.", says)
    more = [f"{', '.join(names)} as in `{first}`." for first, names in known.items()]
    more += [f"Fields: {', '.join(alone)}."] if alone else []
    return " ".join(([] if len(fields) > 2 else [says]) + fields + more)


def in_short(comment):
    text = re.sub("^It ", "", comment)
    return text[0].lower() + text[1:]


def promises_page(interface):
    """The text of the page with the table, or None if the page has no place for it."""
    text = PROMISES.read_text("utf-8") if PROMISES.exists() else ""
    if BEGIN not in text or END not in text:
        return None
    before, _, rest = text.partition(BEGIN)
    return f"{before}{BEGIN}\n\n{promise_table(interface)}\n\n{END}{rest.partition(END)[2]}"
