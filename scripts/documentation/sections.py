"""The files that have lines for each section, with the lines that the table sections.tsv says."""
from documentation import section_lines, section_uses
from documentation.section_edits import Wrong
from documentation.section_rows import TABLE, sections
from documentation.sources import ROOT

SOURCES = section_lines.SOURCES | section_uses.SOURCES


class Made:
    """The texts of the files, the names of those that differ, and what is wrong."""

    def __init__(self):
        self.rows, self.texts, self.differing = sections(), {}, []
        self.faults = list(faults(self.rows))
        for name, edits in SOURCES.items():
            old = text = (ROOT / name).read_text("utf-8")
            try:
                for edit in edits:
                    text = edit.put(text, self.rows)
            except Wrong as why:
                self.faults.append((name, why))
            self.texts[name] = text
            self.differing += [name] * (old != text)


def faults(rows):
    """What is wrong with ids and ranks: each number occurs once."""
    for what in ("id", "rank"):
        numbers = sorted(getattr(row, what) for row in rows)
        if numbers != list(range(1, len(rows) + 1)):
            yield TABLE.name, f"{what}: expected 1 to {len(rows)}, found {numbers}"
