"""The public interface of a crate: the items that callers reach by its name, with their methods and traits."""
import dataclasses
import re

from documentation import sources

TOP = "wasm_encoder"
# The chapters, which are the public modules of the crate, in the order of reading. Other modules follow them.
CHAPTERS = ["encode", "types", "list", "operands", "table", "sink", "code", "sections", "indices", "wasm_core", "raw",
            "decode", "reader"]
# Chapters of items that no module has.
AT_TOP = {"opcode_name": "table"}
# The order of kinds in a chapter.
KINDS = {"trait": 0, "struct": 1, "enum": 1, "type": 1, "fn": 2, "const": 3}
WORDS = {"trait": "Trait", "struct": "Struct", "enum": "Enum", "type": "Type", "fn": "Function", "const": "Constant"}
# The ends of the names of builders.
BUILDERS = ("Section", "Module", "Function", "ConstExpr", "CoreTypeEncoder", "InstructionSink")


def plain(text):
    """The text of a type without lifetimes and spaces."""
    text = re.sub(r"'\w+\s*,?\s*", "", text)
    return re.sub(r"\s+", "", text.replace("<>", ""))


def split_implementation(header):
    """The parameters of an `impl`, its trait or None, and its type."""
    text = re.sub(r"\s+", " ", re.sub(r"^(unsafe )?impl", "", header.strip())).strip()
    parameters = []
    if text.startswith("<"):
        end = angles(text)
        parameters = [re.sub(r"^const ", "", part).split(":")[0].strip() for part in parts_of(text[1:end - 1])]
        text = text[end:].strip()
    text = re.split(r" where ", text)[0].strip()
    depth = 0
    for at, letter in enumerate(text):
        depth += (letter == "<") - (letter == ">")
        if depth == 0 and text.startswith(" for ", at):
            return parameters, text[:at].strip(), text[at + 5:].strip()
    return parameters, None, text


def angles(text):
    """The place after the `>` that closes the `<` at the beginning."""
    depth = 0
    for at, letter in enumerate(text):
        depth += (letter == "<") - (letter == ">" and text[at - 1] != "-")
        if depth == 0:
            return at + 1
    raise ValueError(text)


def parts_of(text):
    """The parts between commas outside brackets."""
    parts, depth, word = [], 0, ""
    for at, letter in enumerate(text):
        depth += (letter in "<([{") - (letter in ")]}" or letter == ">" and text[at - 1] != "-")
        if letter == "," and depth == 0:
            parts.append(word.strip())
            word = ""
        else:
            word += letter
    return [part for part in [*parts, word.strip()] if part]


@dataclasses.dataclass
class Entry:
    """An item of the interface, with its methods, the traits that it implements, and the types that implement it."""

    name: str
    item: sources.Item
    chapter: str
    module: sources.Item
    methods: list = dataclasses.field(default_factory=list)
    traits: list = dataclasses.field(default_factory=list)
    of_types: list = dataclasses.field(default_factory=list)

    def title(self):
        return f"{WORDS[self.item.kind]} `{self.name}`"


class Interface:
    """The items that callers of a crate reach by its name."""

    def __init__(self, top=TOP):
        self.crates = sources.Crates()
        self.specifications = sources.Specifications()
        self.top = self.crates.root(top)
        self.entries, self.chapters, self.module_of = {}, {}, {}
        self.gather()
        self.implementations(top)

    def gather(self):
        """Collects the entries, each in the first chapter that has it."""
        at_top = list(self.crates.public_names(self.top))
        modules = {name: module for name, module in at_top if module.kind == "file"}
        order = [name for name in CHAPTERS if name in modules] + sorted(modules.keys() - set(CHAPTERS))
        found = [(chapter, pair) for chapter in order for pair in self.all_names(modules[chapter])]
        found += [(AT_TOP.get(pair[0], order[-1]), pair) for pair in at_top if pair[1].kind != "file"]
        self.chapters = {name: modules[name] for name in order}
        for chapter, (name, item) in found:
            if item.kind in WORDS and id(item) not in self.entries:
                self.entries[id(item)] = Entry(name, item, chapter, modules[chapter])

    def all_names(self, module):
        for name, item in self.crates.public_names(module):
            if item.kind == "file":
                yield from self.all_names(item)
            else:
                yield name, item

    def modules(self, module):
        yield module
        for inner in module.modules.values():
            yield from self.modules(inner)

    def implementations(self, top):
        aliases = {}
        for entry in self.entries.values():
            if entry.item.kind == "type":
                target = entry.item.header.partition("=")[2]
                aliases[plain(target)] = entry
        for crate in self.crates.below(top):
            for module in self.modules(self.crates.root(crate)):
                for item in sources.walk(module):
                    self.module_of[id(item)] = module
                for item in module.children:
                    if item.kind == "impl":
                        self.implementation(module, item, aliases)

    def implementation(self, module, item, aliases):
        parameters, trait, type_text = split_implementation(item.header)
        entry = self.entry_of(module, type_text)
        trait_entry = self.entry_of(module, trait) if trait else None
        arguments = re.search(r"<(.*)>$", plain(type_text))
        alias = aliases.get(plain(type_text))
        if alias and arguments and arguments[1] not in parameters:
            entry = alias
        if trait is None:
            if entry:
                entry.methods += [child for child in item.children if child.public and child.kind in ("fn", "const")]
            return
        if entry and (trait_entry or item.docs):
            entry.traits.append((trait, trait_entry, item))
        own = re.match(r"(\w+)", type_text) and self.crates.resolve(module, [re.match(r"(\w+)", type_text)[1]])
        if trait_entry and (entry or not own):
            trait_entry.of_types.append((type_text, entry, item))

    def entry_of(self, module, text):
        name = re.sub(r"<.*", "", text.replace("&", "").replace("mut ", "").strip()).strip()
        found = self.crates.resolve(module, name.split("::")) if re.match(r"[\w:]+$", name) else None
        return self.entries.get(id(found))

    def in_chapter(self, chapter):
        """The entries of a chapter, by their kinds and names."""
        entries = [entry for entry in self.entries.values() if entry.chapter == chapter]
        return sorted(entries, key=lambda entry: (KINDS[entry.item.kind], entry.name))

    def imports_of(self, item):
        """What the file of an item imports for contracts."""
        return self.module_of[id(item)].imports

    def public_functions(self):
        """Each function of the interface, with the entry that it belongs to."""
        for entry in self.entries.values():
            if entry.item.kind == "fn":
                yield entry, entry.item
            for method in entry.methods:
                if method.kind == "fn":
                    yield entry, method
            if entry.item.kind == "trait":
                for child in entry.item.children:
                    if child.kind == "fn":
                        yield entry, child
