"""The checker's output on a crate with edits: which functions it proves, and why not the others."""
import re

from parts.planted_kit import kit

# Stands for all answers of a function, if one of its `use` lines names what an edit took away.
ALL = "*"


class Checked:
    """The verdict on each function, and the lines about it."""

    def __init__(self, crate, said, texts):
        self.crate, self.lines = crate.name, said.rstrip("\n").split("\n")
        self.is_judged = bool(re.match(r"only=|logic=|rattle: no verdict", self.lines[-1]))
        self.unread = [it for it in self.lines if kit().unread(it, texts)]
        if not self.is_judged:
            errors = [it for it in self.lines if re.match(r"(rattle: )?error|\S+:\d+:\d+: error", it)]
            self.unread += errors or self.lines[:1]
        self.is_stale = bool(kit().rtlib.STALE.search(said))
        found = {at: re.match(r"fn [^:]+::(\S+): (.*)", it) for at, it in enumerate(self.lines)}
        self.functions = {it[1]: it[2] for it in found.values() if it}
        self.places = {it[1]: at for at, it in found.items() if it}
        self.errors = errors_of(self.lines)

    def of(self, name):
        """The verdicts on a function and on its closures."""
        module, _, last = name.rpartition("::")
        around, _, outer = module.rpartition("::")
        folders = (module, "fn", last), (around, "fn", outer, last)
        closures = tuple("::".join(filter(None, it)) + "::" for it in folders)
        return {it: said for it, said in self.functions.items() if it == name or it.startswith(closures)}

    def failed(self, names):
        """Those of the functions, and of their closures, that aren't proved by themselves."""
        return [it for name in names for it in self.of(name) if self.fails_by_itself(it)]

    def fails_by_itself(self, name):
        """Whether a function isn't proved, and not only since its proof cites the proof of another such function."""
        said = self.functions[name]
        if re.match(r"no proof: .*`search` did not", said) or self.errors_in_proof(name) or self.unfound(name):
            return True
        cited = re.match(r"not proved; it stands on (.*?), which antt refuses", said)
        others = [it for it in self.functions if it not in self.of(name)]
        return said.startswith("not proved") and not (
            cited and all(any(self.is_of(it, other) for other in others) for it in re.findall(r"`(.*?)`", cited[1])))

    def is_of(self, cited, function):
        """Whether a cited declaration is in the proof of a function."""
        return cited.startswith(f"Rattle.{self.crate}.proofs.{function.replace('::', '.')}.")

    def errors_in_proof(self, name):
        """The errors in the proof of a function."""
        folder = "proofs/" + name.replace("::", "/") + "/"
        return [text for path, text in self.errors if path.startswith(folder)]

    def notes(self, name):
        """The notes on a function at places of its source."""
        here, above = self.places[name], []
        while here and self.lines[here - 1].startswith(("note: ", "help: ")):
            here -= 1
            above = [self.lines[here], *above]
        return [it for it in above if re.match(r"note: src/\S+:\d+:\d+: ", it)]

    def unfound(self, name):
        """The goals of a function that the search looked for and didn't prove."""
        at_source = (re.match(r"note: \S+ it is not proved that .*?\(`([^`]+)`\)", it) for it in self.notes(name))
        listed = re.search(r"`search` did not prove ((?:`[^`]+`(?:, | and )?)+)", self.functions[name])
        return {it[1] for it in at_source if it} | set(re.findall(r"`([^`]+)`", listed[1]) if listed else ())

    def unfit(self, name):
        """The answers of a function that antt refuses. Empty if another file of its proof has an error."""
        answers = re.escape("proofs/" + name.replace("::", "/") + "/Answers.antt")
        named = rf"(?:\./)?{answers}:\S+ error: (?:`([^`]+)`: )?"
        found = [re.match(named, it) for it in self.errors_in_proof(name)]
        return {it[1] or ALL for it in found} if all(found) else set()

    def names_what_is_gone(self, name):
        """Whether each error in a function's proof names what an edit took away, which says little of its contract."""
        errors = self.errors_in_proof(name)
        gone = r"has no field|is not in scope|has no `|was not admitted"
        return bool(errors) and all(re.search(gone, it) for it in errors)

    def reason(self, name):
        """The first line on a function's failure: a goal that isn't proved, an error in its proof, or the verdict."""
        return next(iter([*self.notes(name), *self.errors_in_proof(name), self.functions[name]]))


def errors_of(lines):
    """The errors in proof files, each a path, and the line with those that go on with it."""
    errors, goes_on = [], False
    for line in lines:
        found = re.match(r"(?:\./)?(proofs/[^:]+):\S+ error", line)
        if found:
            errors.append((found[1], line))
        elif goes_on and line.startswith("  "):
            errors[-1] = (errors[-1][0], errors[-1][1] + line[1:])
        goes_on = bool(found) or goes_on and line.startswith("  ")
    return errors


def is_proved(said):
    """Whether a function is proved, or would be if those that are taken for proved are."""
    return bool(re.match(r"proved|no holes|depends on a hole", said))
