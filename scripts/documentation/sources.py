"""Reads the sources: items of .rt files with their documentation and contracts, definitions of .antt files, and paths
between modules."""
import dataclasses
import pathlib
import re

ROOT = pathlib.Path(__file__).resolve().parents[2]
SKIPPED = re.compile(r'//[^\n]*|"(?:\\.|[^"\\])*"|\'(?:\\.[^\']*|[^\'\\\n])\'', re.S)
CLAUSE = re.compile(r"(ensures|requires)(\*?)\s*(\w*)\s*(?=\{)")
KEYWORD = re.compile(
    r"(?P<vis>pub(?:\([^)]*\))?\s+)?(?:unsafe\s+|const\s+(?=fn|unsafe|extern)|extern\s+\"C\"\s+)*"
    r"(?P<kind>fn|struct|enum|trait|impl|mod|type|const|static|use|ghost)\b\s*(?P<name>\w*)"
)
OPENING, CLOSING = "([{", ")]}"


@dataclasses.dataclass
class Block:
    """A fenced block: the words after its fence, its lines, and the number of its first line in the file."""

    info: str
    lines: list
    line: int


@dataclasses.dataclass
class Clause:
    """A clause of a contract: `ensures` or `requires`, its name or an empty one, its text, and the comment above."""

    word: str
    name: str
    text: str
    comment: str


@dataclasses.dataclass
class Item:
    """An item with its documentation. The header is its text before the contract and the body."""

    kind: str
    name: str
    public: bool
    docs: list
    docs_line: int
    attributes: list
    header: str
    file: pathlib.Path
    line: int
    clauses: list = dataclasses.field(default_factory=list)
    children: list = dataclasses.field(default_factory=list)
    imports: dict = dataclasses.field(default_factory=dict)
    outer: object = None

    def path(self):
        """The name, after that of the type, trait or implementation around it."""
        around = self.outer.path() if self.outer and self.outer.kind != "file" else ""
        name = self.name if self.kind != "impl" else self.header
        return f"{around}::{name}" if around else name

    def blocks(self):
        return blocks(self.docs, self.docs_line)

    def place(self):
        return f"{self.file.relative_to(ROOT)}:{self.line}"


def blocks(lines, first):
    """The fenced blocks of these lines. `first` is the number of the first line in its file."""
    found = None
    for number, line in enumerate(lines, first):
        if line.lstrip().startswith("```"):
            if found is None:
                found = Block(line.strip()[3:].strip(), [], number + 1)
            else:
                yield found
                found = None
        elif found is not None:
            found.lines.append(line)


class Reader:
    """Reads the items of one .rt file."""

    def __init__(self, file):
        self.file = file
        self.text = file.read_text("utf-8")
        self.imports = {}

    def line(self, at):
        return self.text.count("\n", 0, at) + 1

    def past(self, at):
        """The place after the bracket that closes the one at `at`."""
        depth = 0
        while True:
            skipped = SKIPPED.match(self.text, at)
            if skipped:
                at = skipped.end()
                continue
            depth += (self.text[at] in OPENING) - (self.text[at] in CLOSING)
            at += 1
            if depth == 0:
                return at

    def until(self, at, *ends):
        """The first place from `at` on, outside brackets, that begins with one of the ends."""
        while not any(end.match(self.text, at) for end in ends):
            skipped = SKIPPED.match(self.text, at)
            if skipped:
                at = skipped.end()
            elif self.text[at] in OPENING:
                at = self.past(at)
            else:
                at += 1
        return at

    def items(self, at, end, outer):
        docs, docs_line, attributes = [], 0, []
        while True:
            at = re.compile(r"\s*").match(self.text, at).end()
            if at >= end:
                return
            line_end = self.text.find("\n", at)
            line_end = len(self.text) if line_end < 0 else line_end
            if self.text.startswith("///", at):
                docs_line = docs_line or self.line(at)
                docs.append(re.sub("^ ", "", self.text[at + 3:line_end]))
                at = line_end
            elif self.text.startswith("//", at):
                if self.text.startswith("//!", at):
                    outer.docs_line = outer.docs_line or self.line(at)
                    outer.docs.append(re.sub("^ ", "", self.text[at + 3:line_end]))
                at = line_end
            elif self.text.startswith("#", at):
                start = self.text.index("[", at)
                after = self.past(start)
                attributes.append(self.text[at:after])
                at = after
            else:
                at = self.item(at, outer, docs, docs_line, attributes)
                docs, docs_line, attributes = [], 0, []

    def item(self, at, outer, docs, docs_line, attributes):
        start = at
        keyword = KEYWORD.match(self.text, at)
        if not keyword:
            return self.part(at, outer, docs, docs_line)
        kind, name = keyword["kind"], keyword["name"]
        semicolon, brace = re.compile(";"), re.compile(r"\{")
        item = Item(kind, name, (keyword["vis"] or "").strip() == "pub", docs, docs_line, attributes, "", self.file,
                    self.line(at), outer=outer)
        if kind == "ghost" and name == "use":
            at = self.until(at, semicolon)
            self.use_names(self.text[start:at])
            return at + 1
        if kind == "ghost" and outer.kind == "struct":
            return self.until(at, re.compile(r"[,}]")) + 1
        if kind in ("ghost", "const", "static", "type", "use"):
            at = self.until(at, semicolon)
            item.header = self.text[start:at]
            outer.children.append(item)
            return at + 1
        at = self.until(keyword.end(), semicolon, brace, re.compile(r"\b(?:ensures|requires)\b"))
        item.header = self.text[start:at].strip()
        if kind == "fn":
            at = self.contract(at, item)
        outer.children.append(item)
        if self.text[at] == ";":
            return at + 1
        after = self.past(at)
        if kind != "fn":
            self.items(at + 1, after - 1, item)
        return after

    def part(self, at, outer, docs, docs_line):
        """A field or a variant."""
        comma = self.until(at, re.compile(r"[,}]"))
        text = self.text[at:comma]
        name = re.match(r"(?:pub(?:\([^)]*\))?\s+)?(\w+)", text)
        if name:
            public = outer.kind == "enum" or text.startswith("pub ")
            part = Item("variant" if outer.kind == "enum" else "field", name[1], public, docs, docs_line, [], text,
                        self.file, self.line(at), outer=outer)
            outer.children.append(part)
            body = re.match(r"\w+\s*\{", text)
            if body and outer.kind == "enum":
                self.fields(at + body.end(), comma, part)
        return comma + 1

    def fields(self, at, end, variant):
        self.items(at, self.text.rindex("}", at, end), variant)

    def contract(self, at, item):
        comment = []
        while True:
            at = re.compile(r"\s*").match(self.text, at).end()
            clause = CLAUSE.match(self.text, at)
            if self.text.startswith("//", at):
                line_end = self.text.index("\n", at)
                comment.append(self.text[at + 2:line_end].strip())
                at = line_end
            elif clause:
                after = self.past(clause.end())
                text = self.text[clause.end() + 1:after - 1]
                item.clauses.append(Clause(clause[1], clause[3], text, " ".join(comment)))
                comment = []
                at = after
            else:
                return at

    def use_names(self, text):
        found = re.match(r"ghost use ([\w.]+?)\.\{(.*)\}$", text, re.S)
        if found:
            for name in found[2].split(","):
                name, _, alias = name.strip().partition(" as ")
                self.imports[alias or name] = (found[1], name)
        else:
            found = re.match(r"ghost use ([\w.]+)(?: as (\w+))?$", text)
            if found:
                self.imports[found[2] or found[1].split(".")[-1]] = (found[1], None)

    def file_item(self):
        item = Item("file", self.file.stem, True, [], 0, [], "", self.file, 1)
        self.items(0, len(self.text), item)
        item.imports = self.imports
        return item


def read(file):
    """A .rt file: an item of kind `file` with the module's documentation, whose children are its items."""
    return Reader(file).file_item()


def walk(item):
    """The item and all inside it."""
    yield item
    for child in item.children:
        yield from walk(child)


DEFINITION = re.compile(
    r"^(?P<indent> *)(?:(?:abbrev|unfoldable|instance|opaque|private|pattern)\s+)*pub\s+"
    r"(?:(?:abbrev|unfoldable)\s+)*(?P<record>record|data|fn)?\s*(?P<name>[^\s:({;]+)")


@dataclasses.dataclass
class Definition:
    """A definition of a specification, with the comment above it. A record has fields: definitions of their own."""

    name: str
    file: pathlib.Path
    line: int
    comment: str
    fields: list = dataclasses.field(default_factory=list)


def definitions(file):
    """The public definitions of a .antt file, by their names."""
    found, comment, record, indent = {}, [], None, 0
    for number, line in enumerate(file.read_text("utf-8").splitlines(), 1):
        stripped = line.strip()
        if stripped.startswith("--"):
            comment.append(stripped.lstrip("-").strip())
            continue
        match = DEFINITION.match(line)
        if match:
            definition = Definition(match["name"], file, number, " ".join(comment))
            if record and len(match["indent"]) > indent:
                record.fields.append(definition)
            else:
                found.setdefault(definition.name, definition)
                record, indent = definition if match["record"] == "record" else None, len(match["indent"])
        comment = []
    return found


class Specifications:
    """The definitions of this repository that contracts cite."""

    def __init__(self):
        self.files = {}

    def file(self, module):
        """The file of a module such as `Rattle.wasm_codec.specs.Answers`, if this repository has it."""
        crate, folder, *rest = module.split(".")[1:] or [""]
        path = ROOT / "crates" / crate / folder / ("/".join(rest) + ".antt")
        return path if folder == "specs" and rest and path.exists() else None

    def read(self, path):
        if path not in self.files:
            used = {}
            for found in re.finditer(r"^pub use (Rattle[\w.]+)\.\{(.*?)\}", path.read_text("utf-8"), re.M | re.S):
                for name in found[2].split(","):
                    name, _, alias = name.strip().partition(" as ")
                    used[alias or name] = (found[1], name)
            self.files[path] = definitions(path), used
        return self.files[path]

    def find(self, module, name):
        path = self.file(module)
        if path is None:
            return None
        own, used = self.read(path)
        return own.get(name) or (self.find(*used[name]) if name in used else None)

    def cited(self, text, imports):
        """The definitions that a clause cites, in the order of its text."""
        found = {}
        for match in re.finditer(r"(?<![\w.])([\w']+)(?:\.([\w']+))?", text):
            module, name = imports.get(match[1], (None, None))
            if module and name:
                definition = self.find(module, name)
            else:
                definition = module and match[2] and self.find(module, match[2])
            if definition:
                found.setdefault((definition.file, definition.name), definition)
        return list(found.values())


class Crates:
    """The modules of crates, and the items that paths in them name."""

    def __init__(self):
        self.uses, self.roots, self.parents, self.names = {}, {}, {}, {}
        for line in (ROOT / "crates.txt").read_text("utf-8").splitlines():
            if re.match("[a-z]", line):
                names, _, used = line.partition(":")
                self.uses[names.split()[0]] = used.split()

    def below(self, top):
        """The crate and all that it uses, itself first."""
        order = [top]
        for name in order:
            order += [used for used in self.uses.get(name, ()) if used in self.uses and used not in order]
        return order

    def root(self, crate):
        if crate not in self.roots:
            file = ROOT / "crates" / crate / "src/lib.rt"
            self.roots[crate] = self.module(file, None, crate)
        return self.roots[crate]

    def module(self, file, parent, name):
        item = read(file)
        item.name = name
        self.parents[id(item)] = parent
        folder = file.parent if file.stem in ("lib", "main") else file.with_suffix("")
        item.modules = {}
        for child in item.children:
            if child.kind == "mod":
                path = folder / f"{child.name}.rt"
                if path.exists():
                    item.modules[child.name] = self.module(path, item, child.name)
        return item

    def crate_of(self, module):
        while self.parents[id(module)]:
            module = self.parents[id(module)]
        return module

    def uses_of(self, module):
        """The imports of a module: whether each is public, its path, and its name or `*`."""
        for child in module.children:
            if child.kind == "use":
                path = re.sub(r"\s+", "", re.sub(r"\bas\b", "@", re.sub(r"^pub\b|\buse\b", "", child.header)))
                for words in expand(path):
                    words, _, alias = words.partition("@")
                    parts = words.split("::")
                    if parts[-1] == "self":
                        parts.pop()
                    yield child.public, parts, alias or parts[-1]

    def resolve(self, module, path, seen=()):
        """The item or module that a path names in a module, or None."""
        if not path:
            return module
        first, *rest = path
        key = id(module), tuple(path)
        if key in seen:
            return None
        seen = (*seen, key)
        if first in ("crate", "self", "super"):
            step = {"crate": self.crate_of(module), "self": module, "super": self.parents[id(module)]}[first]
            return self.resolve(step, rest, seen) if step else None
        if module.kind != "file":
            return next((child for child in module.children if child.name == first and not rest), None)
        if first in module.modules:
            return self.resolve(module.modules[first], rest, seen)
        for child in module.children:
            if child.name == first and child.kind not in ("mod", "use", "impl", "ghost"):
                return self.resolve(child, rest, seen) if rest else child
        for _, parts, name in self.uses_of(module):
            if name == first and parts != path:
                found = self.resolve(module, parts, seen)
                return self.resolve(found, rest, seen) if found and rest else found
            if name == "*":
                around = self.resolve(module, parts[:-1], seen)
                found = around and self.resolve(around, path, seen)
                if found:
                    return found
        if first in self.uses:
            return self.resolve(self.root(first), rest, seen)
        return None

    def public_names(self, module):
        """The public names of a module, each with its item or module."""
        for child in module.children:
            if child.public and child.kind == "mod":
                yield child.name, module.modules[child.name]
            elif child.public and child.name and child.kind not in ("use", "impl", "ghost"):
                yield child.name, child
        for public, parts, name in self.uses_of(module):
            if not public:
                continue
            if name == "*":
                around = self.resolve(module, parts[:-1])
                if around:
                    yield from self.public_names(around)
            else:
                found = self.resolve(module, parts)
                if found:
                    yield name, found


def expand(path):
    """The paths of an import: `a::{b, c::d}` is `a::b` and `a::c::d`."""
    brace = path.find("{")
    if brace < 0:
        return [path] if path else []
    before, inside, paths, depth, word = path[:brace], path[brace + 1:-1], [], 0, ""
    for letter in inside + ",":
        depth += (letter == "{") - (letter == "}")
        if letter == "," and depth == 0:
            paths += [before + rest for rest in expand(word)]
            word = ""
        else:
            word += letter
    return paths


def slug(heading):
    """The anchor of a heading."""
    text = re.sub(r"\[([^\]]*)\]\([^)]*\)|\[([^\]]*)\]\[[^\]]*\]", lambda m: m[1] or m[2], heading)
    return re.sub(r"[^\w\- ]", "", text.strip().lower()).replace(" ", "-")
