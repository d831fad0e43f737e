"""How the lines of sections come into a file. `put` returns the text of the file with the lines of all rows."""
import dataclasses
import re
import string
import textwrap


# The lines that a block may lose: at most those of one section. If it loses more, `until` was found too far below.
MOST_REMOVED = 14


class Wrong(Exception):
    """Why a file has no place for the lines."""


def numbers(rows):
    """The last id and the number of ids, from 0 for custom sections, and that many closing parentheses."""
    last = max(row.id for row in rows)
    return {"last": last, "count": last + 1, "parentheses": ")" * (last + 1)}


@dataclasses.dataclass
class Block:
    """The text after one that occurs once in the file, until another or the end: the lines of each section."""

    after: str
    until: str
    # One for all, or templates by keys of sections. A section without one has no lines here.
    templates: dict
    between: str = ""
    order: str = "id"
    # What follows the lines. Its words are the last id, the number of ids, and as many parentheses.
    end: str = ""

    def put(self, text, rows):
        if text.count(self.after) != 1:
            raise Wrong(f"expected once {self.after!r}, found {text.count(self.after)}")
        begin = text.index(self.after) + len(self.after)
        end = len(text) if self.until is None else text.find(self.until, begin)
        if end < 0:
            raise Wrong(f"expected {self.until!r} after {self.after!r}")
        lines = [row.lines(self.templates) for row in sorted(rows, key=lambda row: (getattr(row, self.order), row.id))]
        made = self.joined(list(filter(None, lines))) + string.Template(self.end).substitute(numbers(rows))
        if text.count("\n", begin, end) > made.count("\n") + MOST_REMOVED:
            raise Wrong(f"expected only lines of sections between {self.after!r} and {self.until!r}")
        return text[:begin] + made + text[end:]

    def joined(self, lines):
        return self.between.join(lines)


@dataclasses.dataclass
class Wrapped(Block):
    """The same, in lines of 120 columns that begin with `indent`. Quoted words aren't parted."""

    indent: str = "    "

    def joined(self, lines):
        whole = re.sub("'.*?'", lambda quoted: quoted[0].replace(" ", "\0"), self.between.join(lines))
        column = len(self.after.rpartition("\n")[2])
        return textwrap.fill(" " * column + whole, 120, subsequent_indent=self.indent,
                             break_on_hyphens=False)[column:].replace("\0", " ")


@dataclasses.dataclass
class Number:
    """A text with a number in the place of `#`: the last id, or the number of ids."""

    text: str
    which: str = "last"

    def put(self, text, rows):
        before, behind = self.text.split("#")
        number = re.compile(rf"(?<={re.escape(before)})\d+(?={re.escape(behind)})")
        new, count = number.subn(str(numbers(rows)[self.which]), text)
        if not count:
            raise Wrong(f"expected {self.text!r}")
        return new


@dataclasses.dataclass
class Names:
    """Names that a line `use HOME.{..}` has: one for each section. A missing one comes after that of the section before
    it, or into its place in a sorted line."""

    home: str
    templates: dict

    def put(self, text, rows):
        last = None
        for row in rows:
            homes, names = (string.Template(of).substitute(row.words) for of in (self.home, row.lines(self.templates)))
            for name in filter(None, names.split(", ")):
                text = self.added(text, homes, name, last)
            last = names.split(", ")[-1] if names else last
        return text

    def added(self, text, home, name, last):
        """The text with the name from this home, after the name that was last."""
        line = re.search(rf"^((?:ghost )?use Rattle\.{re.escape(home)}\.\{{)(.*?)(\}};?)$", text, re.MULTILINE)
        if not line:
            end = [found.end() for found in re.finditer(r"^(?:ghost )?use Rattle.*\n", text, re.MULTILINE)][-1]
            ghost, stop = ("ghost ", ";") if "\nghost use" in text else ("", "")
            return f"{text[:end]}{ghost}use Rattle.{home}.{{{name}}}{stop}\n{text[end:]}"
        names = line[2].split(", ")
        known = [one.split(" as ")[0] for one in names]
        if name.split(" as ")[0] in known:
            return text
        at = known.index(last) + 1 if last in known else len(names)
        made = sorted([*names, name]) if names == sorted(names) else [*names[:at], name, *names[at:]]
        return text[:line.start(2)] + ", ".join(made) + text[line.end(2):]


@dataclasses.dataclass
class Use:
    """A line `use PATH;` or `pub use PATH;` for each section. A missing one comes into its place among the others. If a
    path ends in braces, any line that begins as it does is taken for it."""

    templates: dict
    word: str = "use"

    def put(self, text, rows):
        for path in filter(None, (row.lines(self.templates) for row in rows)):
            lines = re.findall(r"^(?:pub )?use .*[;{]\n", text, re.MULTILINE)
            begins = f"use {path.split('{')[0]}" if "{" in path else f"use {path};"
            paths = [line.removeprefix("pub ") for line in lines]
            if not any(line.startswith(begins) for line in paths):
                later = next(line for line, known in zip(lines, paths) if known > f"use {path};")
                text = text.replace(later, f"{self.word} {path};\n{later}", 1)
        return text


@dataclasses.dataclass
class Listed:
    """The names of sections' builders in `use wasm_encoder::{..};`, which `rt fmt` fills and sorts."""

    templates: dict

    def put(self, text, rows):
        found = re.search(r"(?<=^use wasm_encoder::\{\n)((?:    .*\n)*)(?=\};)", text, re.MULTILINE)
        names = found[1].replace(",", " ").split()
        missing = [name for name in (row.lines(self.templates) for row in rows) if name and name not in names]
        return text[:found.start()] + filled(sorted(names + missing)) + text[found.end():] if missing else text


def filled(names):
    """The names, each with a comma, in lines as long as `rt fmt` makes them."""
    return textwrap.fill(" ".join(f"{name}," for name in names), 100, initial_indent="    ",
                         subsequent_indent="    ") + "\n"
