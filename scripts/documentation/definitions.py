"""docs/api/definitions.md: every definition that a public clause cites, with the first sentence of its comment."""
import os
import re

from documentation.api_pages import API, MADE
from documentation.promises import all_calls
from documentation.sources import ROOT

PAGE = API / "definitions.md"
BEFORE = """\
# Definitions that public clauses cite

You must believe these definitions to believe what the calls promise. [BELIEVED.md](../BELIEVED.md) leads through those
that say which bytes encode a value; here, each of their files is a row.
"""


def cited_definitions(interface):
    """The definitions that clauses of public calls cite, by their files."""
    found = {}
    for call in all_calls(interface):
        imports = interface.imports_of(call.item)
        texts = [text for _, text in call.clauses]
        texts += [clause.text for clause in call.item.clauses if clause.word == "requires"]
        for text in texts:
            for definition in interface.specifications.cited(text, imports):
                found.setdefault(definition.file, {})[definition.line] = definition
    return {file: [by_line[line] for line in sorted(by_line)] for file, by_line in found.items()}


def in_order(files):
    """The files in the order of crates.txt, formats first."""
    lines = (ROOT / "crates.txt").read_text("utf-8").splitlines()
    crates = [re.match(r"\w+", line)[0] for line in lines if re.match(r"\w", line)]
    return sorted(files, key=lambda file: (crates.index(crate_of(file)), "formats" not in file.parts, file))


def crate_of(file):
    return file.relative_to(ROOT / "crates").parts[0]


def link(label, file, line=0):
    return f"[{label}]({os.path.relpath(file, API)}{f'#L{line}' if line else ''})"


def sentence(comment):
    """The first sentence of a comment, as a cell of a table. A definition without a comment shares the one above."""
    return re.split(r"(?<=\.)\s", comment)[0].replace("|", r"\|") or "As above."


def head_comment(file):
    """The comment at the top of a file."""
    lines = file.read_text("utf-8").splitlines()
    count = next((at for at, line in enumerate(lines) if not line.startswith("--")), len(lines))
    return " ".join(line.lstrip("- ") for line in lines[:count])


def rows_of(file, definitions):
    """The rows of a file: one for a file of formats, otherwise one for each definition."""
    if "formats" in file.parts:
        names = ", ".join(link(f"`{it.name}`", file, it.line) for it in definitions)
        return [f"| {names} | {sentence(head_comment(file))} |"]
    return [f"| {link(f'`{it.name}`', file, it.line)} | {sentence(it.comment)} |" for it in definitions]


def definitions_page(interface):
    """The text of the page."""
    files, lines, crate = cited_definitions(interface), [MADE, "", BEFORE.rstrip("\n")], ""
    for file in in_order(files):
        if crate_of(file) != crate:
            crate = crate_of(file)
            lines += ["", f"## `{crate}`", "", "| Definition | Meaning |", "|---|---|"]
        lines += rows_of(file, files[file])
    return "\n".join(lines) + "\n"
