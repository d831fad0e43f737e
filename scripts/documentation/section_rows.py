"""The rows of the table sections.tsv, one for each section but custom ones, and the words that follow from each.

The columns are:

- `id`, `rank`: the id, and the place in the standard's order;
- `name`, `item`: the names of the section and of an item in messages;
- `shape`: `list`, or `number` for a section that is one number;
- `variant`, `type`, `use`: the variant of `ModuleSection`, the type of an item, and the path to import it from;
- `value`, `format`, `law`: the paths of what an item stands for, of its format, and of the law of that format;
- `view`: the function from the item to its value, if they differ;
- `counted`, `closed`: when an item can be written, and when its expressions close their blocks, if not always. The
  variable is the first letter of `part`;
- `about`, `production`, `bytes`: a note in the documentation, the standard's production, and the item's bytes;
- `other`: `name=value` for each name that departs from `Section.names`.
"""
import re
import string

from documentation.sources import ROOT

TABLE = ROOT / "scripts/sections.tsv"


def predicate(condition, variable):
    """The function of a condition on a variable: its name alone, if it is a name with the variable."""
    name = condition.removesuffix(f" {variable}")
    return name if re.fullmatch(r"\w+", name) else f"(λ {variable}. {condition})"


class Section:
    """A row, with the words that templates use."""

    def __init__(self, row):
        self.id, self.rank, self.name, self.shape = int(row["id"]), int(row["rank"]), row["name"], row["shape"]
        other = dict(word.split("=", 1) for word in row["other"].split())
        self.words = row | self.names(row, **other) | other
        told, closed = ["told"] * ("facts" in other), ["closed"] * (row["closed"] != "")
        # A template is looked up by these keys in turn.
        self.keys = [self.name, *told, *closed, self.shape, "any"]
        for key in ("value", "format", "law"):
            self.words[f"{key}_home"], _, self.words[key] = row[key].rpartition(".")
        self.words["note"] = row["about"] and f": {row['about']}"
        self.words["visited"] = self.visited(row["use"])
        self.words["format_rt"] = self.words["format"].replace("u32", "u32_format")
        if self.shape == "list":
            self.words |= self.item_words(row["view"], row["closed"])
            self.words |= self.written_words(row["view"], row["counted"], row["closed"])

    def names(self, row, part=None, **other):
        """The names that a usual section has."""
        snake = re.sub(r"(?<=\w)(?=[A-Z])", "_", row["variant"]).lower()
        part = part or snake
        kind = "".join(word.capitalize() for word in row["name"].split())
        lent = "<'_>" if "'a" in row["type"] else ""
        bare, builder = row["type"].removesuffix("<'a>"), f"{kind}Section"
        exported = sorted([bare, builder] if row["use"].startswith("crate::") else [builder])
        return {
            "snake": snake, "plural": snake.replace("_", " "), "one": row["name"].replace(" ", "_"),
            "word": row["name"], "kind": kind, "builder_name": builder, "builder": builder + lent, "bare": bare,
            "exported": exported[0] if len(exported) == 1 else f"{{{', '.join(exported)}}}",
            "part": part, "getter": f"{part}_part",
            # The variables of items: in code, in definitions, a short one, and that of one item.
            "binder": part, "bound": "entries", "short": f"{part[0]}s", "v": part[0],
        }

    def visited(self, use):
        """The type whose `SectionKind` the section is: items of `wasm_sections` and `wasm_externals` are wrapped."""
        kind = self.words["type"].replace("'a", "'static")
        return f"Item<'static, {kind}>" if use.startswith(("crate::", "wasm_externals::")) else kind

    def item_words(self, view, closed):
        """What laws of items say: what they stand for, and when they close their blocks."""
        one, bound, value = (self.words[key] for key in ("one", "bound", "value"))
        return {
            "viewed": view or "(λ x. x)",
            "typed_view": view or f"(λ ({one} : {value}). {one})",
            "own_value": "" if view else value,
            "all_view": view and f"all_{view}",
            "all_parts": f"(all_{view} {bound})" if view else bound,
            "closing": predicate(closed, self.words["v"]),
            "closed_name": closed.split(" ")[0],
        }

    def written_words(self, view, counted, closed):
        """What laws about writing a list say: the encoding of an item, what is counted, and what is written."""
        v, made, one = (self.words[key] for key in ("v", "format", "one"))
        part = f"({view} {v})" if view else v
        minimal = f"IsMinimal {made}.Encodes {made}.bytes"
        law = f"{one}_counted" if counted else f"(λ {v} few. tt)"
        return {
            "encoding": f"(λ {v}. {made}.bytes {part})" if view else f"{made}.bytes",
            "can": predicate(counted, v) if counted else "Always",
            "counting": predicate(counted or "Unit {0}", v),
            "conditions": ", ".join(re.findall(r"\bIs(?:Closed|Counted)\w+", f"{closed} {counted}")),
            "counter": "counted_list" if view else "counted_values",
            "counted_law": counted and law,
            "count_law": f"(λ {v}. {law} {part})" if view else law,
            "written": f"(λ {v}. {closed and f'{closed} → '}{minimal} {part})" if view or closed else f"({minimal})",
            "refuses": "OnlyTooLong" if counted else "NoError",
            "only": "(λ x e is. is)" if counted else "(λ x e no. absurd no)",
            "same": "(λ ys. refl)" if view else f"(λ ys. ap {self.words['part']} (sym (map-id ys)))",
            "closes": "(λ ys closed. closed)" if closed else "(λ ys closed k d lt. tt)",
        }

    def lines(self, templates):
        """What its template makes of the section: of one for all, or of templates by keys."""
        if isinstance(templates, dict):
            templates = next((templates[key] for key in self.keys if key in templates), "")
        return string.Template(templates).substitute(self.words)


def sections():
    """The rows, by their ids."""
    head, *lines = (line.split("\t") for line in TABLE.read_text("utf-8").splitlines())
    return [Section(dict.fromkeys(head, "") | dict(zip(head, line))) for line in lines]
