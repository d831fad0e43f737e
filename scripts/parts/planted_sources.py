"""The functions and constants of a crate's sources, by the names that the checker gives them."""
import dataclasses
import pathlib
import re

HEAD = re.compile(
    r"^( *)(?:pub(?:\([^)]*\))? )?(?:default )?(?:"
    r'(?:(?:const|unsafe|extern "C") )*fn (?P<fn>\w+)|(?:unsafe )?(?P<impl>impl\b)|(?:unsafe )?trait (?P<trait>\w+)'
    r"|mod (?P<mod>\w+)(?= \{)|(?:struct|enum|union) (?P<type>\w+)|(?:const|static) (?P<const>\w+)(?=:))",
    re.MULTILINE,
)


@dataclasses.dataclass
class Item:
    kind: str
    name: str
    start: int
    end: int


def items_of(source):
    """Functions, constants and what holds them, in the layout of rt fmt: an item ends at its own indentation."""
    items, body_end = [], 0
    for head in HEAD.finditer(source):
        if head.start() < body_end:
            continue
        kind = head.lastgroup
        end = end_of(source, head, kind)
        items.append(Item(kind, owner(source[head.end():]) if kind == "impl" else head[kind], head.start(), end))
        if kind in ("fn", "const"):
            body_end = end
    return items


def end_of(source, head, kind):
    indent = head[1]
    if kind == "const":
        return re.compile(r";$|\Z", re.MULTILINE).search(source, head.end()).end()
    line_end = re.compile(r"$", re.MULTILINE).search(source, head.end()).start()
    if source[head.end():line_end].endswith(("}", ";")):
        return line_end
    if kind == "fn":
        opens = re.compile(rf"^{indent}(?! ).*\{{$|^{indent}\{{\}}$|;$", re.MULTILINE).search(source, head.start())
        if opens and opens[0].endswith((";", "{}")):
            return opens.end()
    closes = re.compile(rf"^{indent}\}}", re.MULTILINE).search(source, head.end())
    return closes.end() if closes else len(source)


def body_of(source, item):
    """The text between the braces of a function. It is empty if the body begins in the line of the head's end."""
    indent = re.match(r" *", source[item.start:])[0]
    opens = re.compile(rf"^{indent}(?! ).*\{{$", re.MULTILINE).search(source, item.start, item.end)
    return (opens.end(), source.rindex("\n", 0, item.end)) if opens else (item.end, item.end)


def owner(header):
    """The checker's name of an impl: the type, and the trait with its arguments, as in `EncodeErrorFromAllocError`. It
    takes an impl of `Drop` for one of the type alone, and the methods of one instance of a generic type, as in
    `impl ListSection<u32>`, for those of `ListSection+u32`."""
    words = re.split(r"\bwhere\b|\{", header, maxsplit=1)[0].strip()
    parameters = []
    if words.startswith("<"):
        end = closing(words)
        parameters = [it.split(":")[0].strip() for it in words[1:end - 1].split(",")]
        words = words[end:].strip()
    trait, separator, owned = words.rpartition(" for ")
    if separator and trait.strip() != "Drop":
        return label(owned) + label(trait, with_arguments=True)
    instances = [last_name(it) for it in arguments_of(owned) if it.strip() not in parameters]
    return label(owned) + "+".join(["", *instances])


def closing(words):
    """The place after the bracket that closes the one at the start of `words`."""
    depth = 0
    for at, letter in enumerate(words):
        depth += (letter == "<") - (letter == ">" and words[at - 1] != "-")
        if depth == 0:
            return at + 1
    return len(words)


def label(words, with_arguments=False):
    words = words.strip()
    if words.startswith("&"):
        return "Ref"
    if words.startswith("("):
        return f"Tuple{words.count(',') + 1}"
    if words.startswith("["):
        return "Array" if ";" in words else "Slice"
    return camel(last_name(words)) + "".join(argument_label(it) for it in arguments_of(words) if with_arguments)


def argument_label(words):
    """The name of a trait's argument, in front of which the checker puts the module that it is named by, as in
    `WriteErrorFromIoError`."""
    module = words.partition("<")[0].strip().rpartition("::")[0].rpartition("::")[2]
    return camel(module) + label(words)


def camel(name):
    return name[:1].upper() + name[1:]


def last_name(words):
    """The last name of the path to a type or trait."""
    return words.partition("<")[0].split("::")[-1].strip()


def arguments_of(words):
    """The arguments of a type or trait that aren't lifetimes."""
    arguments = words.partition("<")[2].rstrip("> ").split(",")
    return [it for it in arguments if it.strip() and not it.strip().startswith("'")]


def is_impl_of_trait(source):
    return bool(re.search(r" for\b", re.split(r"\bwhere\b|\{", source, maxsplit=1)[0]))


def module_of(path):
    """The path of the module in a file, below the crate."""
    parts = list(pathlib.PurePath(path).with_suffix("").parts[1:])
    return parts[:-1] if parts[-1:] in (["lib"], ["main"]) else parts


class Sources:
    """The sources of a crate, and where its types are declared."""

    def __init__(self, folder):
        self.folder = pathlib.Path(folder)
        files = sorted(self.folder.glob("src/**/*.rt"))
        self.texts = {str(it.relative_to(self.folder)): it.read_text("utf-8") for it in files}
        self.types = {}
        for path, source in self.texts.items():
            items = items_of(source)
            for item in items:
                if item.kind == "type":
                    self.types.setdefault(item.name, []).append(self.around(path, items, item))

    def around(self, path, items, item):
        """The path of what holds an item. A type holds its methods, wherever the impl is."""
        parts = module_of(path)
        for it in items:
            if it.kind in ("impl", "trait", "mod") and it.start < item.start < it.end:
                declared = self.types.get(it.name, [parts]) if it.kind == "impl" else [parts]
                parts = [*(parts if parts in declared else declared[0]), it.name]
        return parts

    def name_of(self, path, items, item):
        """The checker's name of an item without the crate's."""
        return "::".join([*self.around(path, items, item), item.name])

    def pieces(self, path, source):
        """The text of each function and constant by its kind and name, and the rest of the file."""
        found, rest, at = {}, [], 0
        items = items_of(source)
        for item in items:
            if item.kind in ("fn", "const"):
                found[item.kind, self.name_of(path, items, item)] = source[item.start:item.end]
                rest.append(source[at:item.start])
                at = item.end
        return found, "".join([*rest, source[at:]])

    def functions(self):
        """The text of each function with a body, by its name."""
        pieces = [piece for path, source in self.texts.items() for piece in self.pieces(path, source)[0].items()]
        return {name: text for (kind, name), text in pieces if kind == "fn" and text.endswith("}")}

    def lending(self):
        """The methods of traits that have a lifetime of their own. A function that passes their types needs the borrow
        checker's part of their bodies."""
        return {name for name, text in self.functions().items()
                if re.match(r"\s*(?:pub )?fn \w+<'", text) and not self.inherent("fn", name)}

    def without_bodies(self, path, functions):
        """A file of as many lines in which these functions have empty bodies. A constant may need a `const fn`."""
        source = self.texts[path]
        items = items_of(source)
        for item in reversed([it for it in items if it.kind == "fn"]):
            head, begin, end = source[item.start:source.index("(", item.start)], *body_of(source, item)
            if end > begin and "const " not in head and self.name_of(path, items, item) in functions:
                source = source[:begin] + " loop {}" + "\n" * source.count("\n", begin, end) + source[end:]
        return source

    def inherent(self, kind, name):
        """The file and the text of a function or constant, unless it is a trait's."""
        for path, source in self.texts.items():
            items = items_of(source)
            for item in items:
                around = [it for it in items if it.kind in ("impl", "trait") and it.start < item.start < it.end]
                if item.kind == kind and name == self.name_of(path, items, item):
                    is_of_trait = any(it.kind == "trait" or is_impl_of_trait(source[it.start:]) for it in around)
                    return None if is_of_trait else (path, source[item.start:item.end])
        return None

    def can_stand_twice(self, name):
        """Whether a function can have a copy beside it: it is no trait's, doesn't call itself and has no closures."""
        found = self.inherent("fn", name)
        last = name.split("::")[-1]
        return bool(found) and len(re.findall(rf"\b{last}(?:\(|<|::<)", found[1])) == 1 and not self.has_closures(name)

    def has_closures(self, name):
        module, _, last = name.rpartition("::")
        return pathlib.Path(self.folder, "proofs", *module.split("::"), "fn", last).exists()

    def answers_at_once(self, name):
        """Whether an answer proves all that a function ensures when it returns, and not clause by clause."""
        answers = self.folder / self.answers(name)
        at_once = r"^(?:pub )?returns(?!\S*-clause-)\S* :"
        return answers.exists() and bool(re.search(at_once, answers.read_text("utf-8"), re.MULTILINE))

    def place(self, path, kind, name):
        """The lines from 0 of the first attribute or comment of a function or constant, and of its end."""
        source = self.texts[path]
        items = items_of(source)
        item = next(it for it in items if it.kind == kind and self.name_of(path, items, it) == name)
        begin = item.start
        while above := re.search(r"(?:^ *///.*\n|^ *#\[[^\]]*\]\n)\Z", source[:begin], re.MULTILINE):
            begin = above.start()
        return source.count("\n", 0, begin), source.count("\n", 0, item.end)

    def answers(self, name):
        """The path of the answers to a function's goals."""
        return pathlib.PurePath("proofs", *name.split("::"), "Answers.antt")

    def users(self, constant):
        """The functions that name a constant."""
        word = re.compile(rf"\b{constant.split('::')[-1]}\b")
        return {name for name, text in self.functions().items() if word.search(text)}

    def differing(self, path, new):
        """The kinds and names of the functions and constants whose text differs, unless something else differs too."""
        if path not in self.texts:
            return []
        (before, rest), (after, new_rest) = self.pieces(path, self.texts[path]), self.pieces(path, new)
        if rest != new_rest or before.keys() != after.keys():
            return []
        return [key for key in before if before[key] != after[key]]

    def users_of(self, differ):
        """The functions that differ, and those that name a constant that differs."""
        return {it for kind, name in differ for it in ([name] if kind == "fn" else self.users(name))}

