"""A copy of a crate, with edits laid into its sources and its proofs."""
import pathlib
import re
import shutil

from parts.planted_checks import ALL
from parts.planted_kit import kit

# An import for copies whose edit names a clause: their other clauses are ⊤, so that goals keep their names.
TRIVIAL_IS_KNOWN = "ghost use Rattle.std.specs.Prelude.{⊤};"


class Room:
    def __init__(self, crate, sources, folder):
        self.crate, self.sources, self.folder = crate, sources, pathlib.Path(folder)
        for part in kit().rtlib.PARTS:
            if pathlib.Path(crate.folder, part).is_dir():
                shutil.copytree(f"{crate.folder}/{part}", f"{folder}/{part}")

    def take_for_proved(self, functions):
        """Takes the contracts of these functions, which the gate proves. Each gets a hole for a proof, and an empty
        body, since the borrow checker's part of a body takes most of the time."""
        for path in self.sources.texts:
            pathlib.Path(self.folder, path).write_text(self.sources.without_bodies(path, functions), "utf-8")
        for name in functions:
            *around, last = name.split("::")
            shutil.rmtree(pathlib.Path(self.folder, "proofs", *around, "fn", last), ignore_errors=True)
            folder = pathlib.Path(self.folder, "proofs", *around, last)
            folder.mkdir(parents=True, exist_ok=True)
            for file in ("Invariants.antt", "Answers.antt"):
                (folder / file).unlink(missing_ok=True)
            (folder / "Proof.antt").write_text(
                f"use Rattle.{self.crate.name}.proofs.{name.replace('::', '.')}.Statement as stated\n\n"
                f"pub {last}_spec : {{M : Type 1}} → stated.statement M\n{last}_spec = ?\n", "utf-8")

    def lay(self, edits):
        """Writes edits into the functions or into copies, and returns the changed texts by their paths."""
        texts = {}
        for edit in edits:
            texts.update({} if edit.copied else self.lay_lines(edit))
        texts.update(self.lay_copies([it for it in edits if it.copied]))
        return texts

    def lay_lines(self, edit):
        """Writes the lines that an edit changes, beside those of other edits."""
        texts = {}
        for path, text in edit.texts.items():
            file = self.folder / path
            lines, changed = file.read_text("utf-8").split("\n"), text.split("\n")
            for number in (number for where, number in edit.lines if where == path):
                lines[number - 1] = changed[number - 1]
            texts[path] = "\n".join(lines)
            file.write_text(texts[path], "utf-8")
        for name in edit.functions if edit.unanswered else ():
            answers = self.folder / self.sources.answers(name)
            if answers.is_file():
                write(answers, without(edit.unanswered, answers.read_text("utf-8")))
        return texts

    def lay_copies(self, edits):
        """Writes each copy below its original, and copies of the functions' proofs. An edit keeps the number of lines,
        so an original is where the sources have it."""
        added = {}
        for edit in edits:
            for kind, name, copy in edit.copies:
                path, last, text = self.copy_of(edit, kind, name, copy)
                added.setdefault(path, []).append((last, text))
                if kind == "fn":
                    self.copy_proofs(edit, name, copy)
        texts = {}
        for path, copies in added.items():
            lines = pathlib.Path(self.folder, path).read_text("utf-8").split("\n")
            for last, text in sorted(copies, reverse=True):
                lines[last + 1:last + 1] = ["", text]
            texts[path] = "\n".join(lines)
            if any(edit.clause for edit in edits):
                texts[path] = texts[path].replace("\nghost use ", f"\n{TRIVIAL_IS_KNOWN} ghost use ", 1)
            pathlib.Path(self.folder, path).write_text(texts[path], "utf-8")
        return texts

    def copy_of(self, edit, kind, name, copy):
        """The file and the last line of an original, and the text of its copy, which names the copies of constants."""
        path, _ = self.sources.inherent(kind, name)
        first, last = self.sources.place(path, kind, name)
        text = "\n".join(edit.texts.get(path, self.sources.texts[path]).split("\n")[first:last + 1])
        for of, constant, its_copy in edit.copies:
            if (of, kind) == ("const", "fn"):
                text = re.sub(rf"(?:\w+::)*\b{constant.split('::')[-1]}\b", f"crate::{its_copy}", text)
        old, new = name.split("::")[-1], copy.split("::")[-1]
        text = re.sub(rf"\b(fn|const|static) {old}\b", rf"\1 {new}", text, count=1)
        return path, last, promising(edit.clause, text) if edit.clause else text

    def copy_proofs(self, edit, name, copy):
        old, new = name.split("::")[-1], copy.split("::")[-1]
        proofs = pathlib.Path(self.crate.folder, "proofs", *name.split("::"))
        module = re.escape(f"Rattle.{self.crate.name}.proofs.{name.replace('::', '.')}")
        for proof in proofs.rglob("*.antt"):
            to = pathlib.Path(self.folder, "proofs", *copy.split("::"), proof.relative_to(proofs))
            to.parent.mkdir(parents=True, exist_ok=True)
            own = re.sub(rf"({module})\b", rf"\1{new[len(old):]}", proof.read_text("utf-8"))
            own = re.sub(rf"\b{old}_spec\b", f"{new}_spec", own)
            own = answers_for(edit.clause, own) if edit.clause else own
            write(to, without(edit.unanswered, own) if proof.name == "Answers.antt" else own)


def write(file, text):
    """Writes a file, or removes it if the text is empty."""
    if text:
        file.write_text(text, "utf-8")
    else:
        file.unlink(missing_ok=True)


def promising(clause, text):
    """A function that promises this clause alone."""
    at = 0
    while found := re.compile(r"^ +ensures (?:(\w+) )?\{", re.MULTILINE).search(text, at):
        at = found.end()
        if found[1] != clause:
            end = end_of_braces(text, at)
            text = f"{text[:at]} ⊤ {text[end:]}"
    return text


def end_of_braces(text, at):
    """The place of the brace that closes the one right before `at`."""
    depth = 1
    while depth:
        depth += (text[at] == "{") - (text[at] == "}")
        at += 1
    return at - 1


def answers_for(clause, text):
    """The answers in a proof file without those for what other clauses ensure."""
    other = re.compile(rf"(?:--.*\n)*(?:pub )?returns\S*-clause-(?!{clause}\b)\S* :")
    return "\n\n".join(it for it in text.split("\n\n") if not other.match(it.lstrip("\n")))


def answer_in(paragraph):
    """The name of the answer in a paragraph of a proof file."""
    found = re.match(r"\n*(?:--.*\n)*pub (\S+) : goal\.", paragraph)
    return found[1] if found else ""


def without(answers, text):
    """A file of answers without these. Empty if they are all."""
    return "" if ALL in answers else "\n\n".join(it for it in text.split("\n\n") if answer_in(it) not in answers)
