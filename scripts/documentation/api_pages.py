"""The pages of docs/api: the interface of the library, and the C calls."""
import os
import re
import textwrap

from documentation import sources
from documentation.interface import TOP, parts_of
from documentation.sources import ROOT

API = ROOT / "docs/api"
MADE = "<!-- Made by scripts/api from the sources. Edit those, and run it again. -->"
LEADS_NOWHERE = set()


class Page:
    """A page in the making, with the targets of its links by their labels."""

    def __init__(self, name, places):
        self.name, self.places = name, places
        self.lines, self.targets = [MADE], {}

    def add(self, *lines):
        self.lines += lines

    def heading(self, level, text):
        self.add("", f"{'#' * level} {text}")

    def link(self, label, target):
        """A link by its label. If the page has another link of this label, the link has its target in place."""
        known = self.targets.setdefault(label.lower(), (label, target))
        return f"[{label}]" if known[1] == target else f"[{label}]({target})"

    def definition(self, definition):
        path = os.path.relpath(definition.file, API)
        return self.link(f"`{definition.name}`", f"{path}#L{definition.line}")

    def to_name(self, name):
        """The target of a name of the interface, or None."""
        place = self.places.get(name)
        if place is None:
            return None
        page, anchor = place
        return f"#{anchor}" if page == self.name else f"{page}.md#{anchor}"

    def paragraph(self, text):
        self.add("", *textwrap.wrap(text, 120, break_long_words=False, break_on_hyphens=False))

    def bullets(self, items):
        self.add("")
        for item in items:
            self.add(*textwrap.wrap(item, 120, break_long_words=False, break_on_hyphens=False, initial_indent="- ",
                                    subsequent_indent="  "))

    def text(self):
        links = [f"[{label}]: {target}" for label, target in sorted(self.targets.values())]
        return "\n".join([*self.lines, "", *links]).rstrip("\n") + "\n"


# A link by a label, perhaps with a target, or code.
NAMED = re.compile(r"\[(`[^`]+`|[^\]`]+)\](?:\(([^)]*)\)|\[([^\]]*)\])?|`[^`]*`")


def linked(page, line, around=""):
    """A line of documentation, with links of the page for the items that it links to."""

    def link(found):
        label, given = found[1], found[2] or found[3]
        if not label or given and re.match(r"https?:|#|.*\.md", given) or not given and "`" not in label:
            return found[0]
        name = re.sub(r"^(crate|wasm_encoder|self|super)::|\(\)$", "", (given or label).strip("`"))
        for candidate in (name, name.replace("Self", around), f"{around}::{name}", "::".join(name.split("::")[-2:]),
                          name.split("::")[-1]):
            target = page.to_name(candidate)
            if target:
                return page.link(label, target)
        LEADS_NOWHERE.add((page.name, label))
        return label

    return NAMED.sub(link, line)


def documentation(page, docs, level, around=""):
    """Adds documentation, without the heading of examples and without hidden lines."""
    lines, inside = [], False
    for line in docs:
        if line.lstrip().startswith("```"):
            if not inside and line.strip()[3:].strip() in ("", "rust"):
                line = "```rust"
            inside = not inside
        elif inside:
            if not shown(line):
                continue
        elif line.startswith("#"):
            if re.match(r"#+ Examples?$", line):
                continue
            line = "#" * level + line
        else:
            line = linked(page, line, around)
        if line or (lines and lines[-1]):
            lines.append(line)
    while lines and not lines[-1]:
        lines.pop()
    if lines:
        page.add("", *lines)


def shown(line):
    """Whether a page shows this line of an example."""
    return not re.match(r"\s*#( |$)", line)


def first_sentence(docs):
    """The first sentence of documentation."""
    text = " ".join(docs[:docs.index("")] if "" in docs else docs)
    found = re.match(r"(.*?[.:])(?= [A-Z`]|$)", text)
    return (found[1] if found else text).rstrip(":").replace("|", r"\|")


def signature(item):
    """The lines of an item in Rust, without contracts and bodies."""
    derived = [attribute for attribute in item.attributes if attribute.startswith("#[derive")]
    header = textwrap.dedent(" " * indent_of(item) + item.header).strip()
    if item.kind == "struct":
        tuple_fields = re.search(r"\((.*)\)$", header, re.S)
        public = [child for child in item.children if child.public]
        if tuple_fields:
            fields = [part if part.startswith("pub") else "_" for part in parts_of(tuple_fields[1])]
            header = f"{header[:tuple_fields.start()]}({', '.join(fields)});"
        elif item.children:
            hidden = ["    // private fields"] if len(public) < len(item.children) else []
            header += " {\n" + "\n".join(members(public, "    ") + hidden) + "\n}"
        else:
            header += ";"
    elif item.kind == "enum":
        header += " {\n" + "\n".join(members(item.children, "    ")) + "\n}"
    elif item.kind == "trait":
        header += " { .. }"
    elif item.kind in ("type", "const"):
        header += ";"
    return [*derived, *header.splitlines()]


def indent_of(item):
    line = item.file.read_text("utf-8").splitlines()[item.line - 1]
    return len(line) - len(line.lstrip())


def members(items, indent):
    """The fields or variants with their documentation."""
    lines = []
    for item in items:
        lines += [f"{indent}/// {line}".rstrip() for line in item.docs]
        if item.kind == "variant" and item.children:
            name = re.match(r"\w+", item.header)[0]
            lines += [f"{indent}{name} {{", *members(item.children, indent + "    "), f"{indent}}},"]
        else:
            lines.append(f"{indent}{' '.join(item.header.split())},")
    return lines


def promises(interface, page, item):
    """The clauses of a function, each with links to the definitions that it cites."""
    imports = interface.imports_of(item)
    named = []
    for clause in item.clauses:
        if clause.word == "ensures":
            cited = [page.definition(found) for found in interface.specifications.cited(clause.text, imports)]
            name = f"`{clause.name or ' '.join(clause.text.split())}`"
            named.append(f"{name} ({', '.join(cited)})" if cited else name)
    return " · ".join(named)


def requirements(item):
    asked = [" ".join(clause.text.split()) for clause in item.clauses if clause.word == "requires"]
    return ", ".join(f"`{text}`" for text in asked)


def member_promises(interface, page, item):
    """The same for the members of an implementation."""
    imports, named = interface.imports_of(item), []
    for child in item.children:
        if child.kind == "ghost":
            cited = interface.specifications.cited(child.header.partition("=")[2], imports)
            links = [page.definition(found) for found in cited]
            named.append(f"`{child.name}` ({', '.join(links)})" if links else f"`{child.name}`")
        elif child.kind == "fn":
            named += [part for part in [promises(interface, page, child)] if part]
    return " · ".join(dict.fromkeys(named))


def function(interface, page, item, level, around=""):
    page.add("", "```rust", *signature(item), "```")
    documentation(page, item.docs, level, around)
    if requirements(item):
        page.paragraph(f"**Requires:** {requirements(item)}")
    promised = promises(interface, page, item)
    if promised:
        page.paragraph(f"**Promises:** {promised}")


def write_entry(interface, page, entry):
    item = entry.item
    page.heading(2, entry.title())
    if item.kind == "fn":
        function(interface, page, item, 2)
        return
    page.add("", "```rust", *signature(item), "```")
    documentation(page, item.docs, 2, entry.name)
    if item.kind == "trait":
        write_trait(interface, page, entry)
    of_target = item.kind == "type" and interface.entry_of(interface.module_of[id(item)], item.header.partition("=")[2])
    if of_target:
        page.paragraph(f"Its other methods and its traits are those of {linked(page, f'[`{of_target.name}`]')}.")
    families = [method for method in entry.methods if INSTRUCTION.match(" ".join(method.docs))]
    for method in entry.methods:
        if method not in families:
            page.heading(3, f"`{entry.name}::{method.name}`")
            function(interface, page, method, 3, entry.name)
    if families:
        write_families(interface, page, entry, families)
    if entry.traits:
        said = []
        for trait, trait_entry, found in entry.traits:
            name = linked(page, f"[`{trait_entry.name}`]") if trait_entry else f"`{trait}`"
            text = " ".join(linked(page, line, entry.name) for line in found.docs if line)
            promised = member_promises(interface, page, found)
            said.append(name + (f": {text}" if text else "") + (f" **Promises:** {promised}" if promised else ""))
        page.add("", "**Implements**")
        page.bullets(said)


def write_trait(interface, page, entry):
    ghosts = [child for child in entry.item.children if child.kind == "ghost"]
    if ghosts:
        page.add("", "An implementation states in its contracts:")
        page.bullets([f"`{child.name}`: {' '.join(linked(page, line, entry.name) for line in child.docs)}".rstrip(": ")
                      for child in ghosts])
    for child in entry.item.children:
        if child.kind == "fn":
            page.heading(3, f"`{entry.name}::{child.name}`")
            function(interface, page, child, 3, entry.name)
    others = [(type_text, found) for type_text, type_entry, found in entry.of_types if type_entry is None]
    named = {type_entry.name for _, type_entry, _ in entry.of_types if type_entry}
    if named:
        page.paragraph("**Implemented by** " + ", ".join(linked(page, f"[`{name}`]") for name in sorted(named)))
    if others:
        page.add("", "**Implemented by other types**")
        said = []
        for type_text, found in others:
            text = " ".join(linked(page, line) for line in found.docs if line)
            promised = member_promises(interface, page, found)
            said.append(f"`{type_text}`" + (f": {text}" if text else "")
                        + (f" **Promises:** {promised}" if promised else ""))
        page.bullets(said)


# The documentation of a method of the sink, as scripts/opcodes writes it.
INSTRUCTION = re.compile(r"`([^`]+)`(?: ([^:`]*))?: `((?:0x[0-9A-F]{2} ?)+)`(?:, then (.*?))?\.(?: (.*))?$")


def write_families(interface, page, entry, methods):
    """Adds the methods of instructions: the promises once, and a table for each file."""
    page.heading(3, "The methods of instructions")
    with_memarg = {method.name for method in methods if "memarg:" in method.header}
    named, cited = {}, {}
    for method in methods:
        imports = interface.imports_of(method)
        for clause in method.clauses:
            if clause.word == "ensures":
                named.setdefault(clause.name, {})[method.name] = True
                for found in interface.specifications.cited(clause.text, imports):
                    if not found.file.parent.name == "formats":
                        cited.setdefault(clause.name, {})[(found.file, found.name)] = found
    said = []
    for name, having in named.items():
        links = ", ".join(page.definition(found) for found in cited.get(name, {}).values())
        having, without = list(having), [method.name for method in methods if method.name not in having]
        listed = ", ".join(f"`{method}`" for method in having)
        left_out = ", ".join(f"`{method}`" for method in without)
        if not without:
            who = "each method"
        elif set(having) == with_memarg:
            who = "each method with a parameter `memarg`"
        elif len(having) <= len(without):
            who = listed
        else:
            who = f"each method but {left_out}"
        said.append(f"`{name}`" + (f" ({links})" if links else "") + f": {who}")
    page.paragraph("Each appends an instruction, takes the sink by value and returns it. **Promises:**")
    page.bullets(said)
    asked = [method for method in methods if requirements(method)]
    if asked:
        page.paragraph("**Requires:** " + " · ".join(f"`{method.name}`: {requirements(method)}" for method in asked))
    for file in dict.fromkeys(method.file for method in methods):
        family = [method for method in methods if method.file == file]
        page.heading(3, first_sentence(interface.module_of[id(family[0])].docs).rstrip("."))
        page.add("", "| Method | Instruction | Opcode | Operands and errors |", "|---|---|---|---|")
        page.add(*map(row_of, family))


def row_of(method):
    name, more, opcode, operands, errors = INSTRUCTION.match(" ".join(method.docs)).groups()
    arguments = re.search(r"\(\s*self,?\s*(.*?),?\s*\)\s*->", method.header, re.S)
    arguments = " ".join(arguments[1].split()) if arguments else ""
    said = ". ".join(part.rstrip(".") for part in (operands, errors) if part)
    said = said[:1].upper() + said[1:] + "." if said else ""
    said = said.replace("|", r"\|")
    return f"| `{method.name}({arguments})` | `{name}`{' ' + more if more else ''} | `{opcode.strip()}` | {said} |"


def places_of(interface):
    """The page and anchor of each name of the interface."""
    places = {}
    for chapter in interface.chapters:
        for entry in interface.in_chapter(chapter):
            anchor = sources.slug(entry.title())
            places.setdefault(entry.name, (chapter, anchor))
            for part in sources.walk(entry.item):
                if part.kind in ("variant", "field", "ghost"):
                    places.setdefault(f"{entry.name}::{part.name}", (chapter, anchor))
            for found in [*entry.item.children, *entry.methods]:
                if found.kind in ("fn", "const") and found.name:
                    instruction = INSTRUCTION.match(" ".join(found.docs))
                    name = f"{entry.name}::{found.name}"
                    own = "the-methods-of-instructions" if instruction else sources.slug(f"`{name}`")
                    places.setdefault(name, (chapter, own))
    for chapter in interface.chapters:
        places.setdefault(chapter, (chapter, sources.slug(f"Module `{chapter}`")))
    return places


def all_pages(interface):
    """The texts of the pages, by their files."""
    places, pages = places_of(interface), {}
    index = Page("README", places)
    index.heading(1, f"`{TOP}`")
    documentation(index, interface.top.docs, 1)
    index.add("", "## Chapters")
    index.paragraph("Each item has its documentation in one chapter; the crate re-exports most items at its top too. "
                    "**Promises** are the names of an item's clauses, each with the definitions that it cites. "
                    "[PROMISES.md](../PROMISES.md) lists calls by definition.")
    for chapter, module in interface.chapters.items():
        page = Page(chapter, places)
        page.heading(1, f"Module `{chapter}`")
        documentation(page, module.docs, 1)
        page.add("", "[All chapters](README.md)")
        entries = interface.in_chapter(chapter)
        page.add("", "| Item | |", "|---|---|")
        for entry in entries:
            page.add(f"| {linked(page, f'[`{entry.name}`]')} | {linked(page, first_sentence(entry.item.docs))} |")
        for entry in entries:
            write_entry(interface, page, entry)
        pages[API / f"{chapter}.md"] = page.text()
        names = ", ".join(linked(index, f"[`{entry.name}`]") for entry in entries)
        index.add("", f"### [`{chapter}`]({chapter}.md)")
        index.paragraph(linked(index, first_sentence(module.docs)))
        index.paragraph(names)
    calls = c_page(interface, places)
    pages[API / "c.md"] = calls.text()
    index.add("", "### [C](c.md)", "", "The calls of the static library.")
    pages[API / "README.md"] = index.text()
    return pages


def c_page(interface, places):
    """The page of the C calls: declarations of the header, documentation and promises."""
    header = (ROOT / "bindings/c/nosgrivel.h").read_text("utf-8")
    page = Page("c", places)
    page.heading(1, "The C calls")
    page.paragraph("The header [`nosgrivel.h`](../../bindings/c/nosgrivel.h) lists the duties of callers, and "
                   "[bindings/README.md](../../bindings/README.md) explains how to link.")
    for module in interface.modules(interface.crates.root("nosgrivel_c")):
        for item in module.children:
            if item.kind != "fn" or 'extern "C"' not in item.header:
                continue
            interface.module_of[id(item)] = module
            declared = re.search(rf"^\w+ {item.name}\(.*?\);", header, re.M | re.S)
            page.heading(2, f"`{item.name}`")
            page.add("", "```c", *(declared[0] if declared else item.header).splitlines(), "```")
            documentation(page, item.docs, 2)
            page.paragraph(f"**Promises:** {promises(interface, page, item)}")
    return page
