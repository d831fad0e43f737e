"""Definitions that clauses of public calls cite, and that callers can't name through the specs of `wasm_encoder`."""
import re

from documentation.promises import all_calls
from documentation.sources import ROOT

SPECS = ROOT / "crates/wasm_encoder/specs"
# Groups of calls whose own specs callers name: programs, and the static library.
OF_OTHERS = re.compile(r"wasm(norm|canon)::|nosgrivel_.*")


def handed_on():
    """The modules that `wasm_encoder` re-exports whole, and the names that it re-exports of others."""
    names, listing = set(), (SPECS / "Lib.antt").read_text("utf-8")
    modules = set(re.findall(r"^pub use Rattle\.([\w.]+)(?: as \w+)?$", listing, re.M))
    for file in SPECS.glob("*.antt"):
        for module, listed in re.findall(r"^pub use Rattle\.([\w.]+)\.\{(.*?)\}", file.read_text("utf-8"), re.M | re.S):
            names |= {(module, name.partition(" as ")[0].strip()) for name in listed.split(",")}
    return modules, names


def module_of(definition):
    return ".".join(definition.file.relative_to(ROOT / "crates").with_suffix("").parts)


def kept_back(interface):
    """A line for each cited definition that `wasm_encoder` doesn't re-export."""
    modules, names = handed_on()
    found = {}
    for call in all_calls(interface):
        if OF_OTHERS.fullmatch(call.group) or call.name.startswith("nosgrivel_"):
            continue
        imports = interface.imports_of(call.item)
        for clause, text in call.clauses:
            for definition in interface.specifications.cited(text, imports):
                module = module_of(definition)
                known = module.startswith("wasm_encoder.") or module in modules or (module, definition.name) in names
                if not known:
                    found.setdefault((module, definition.name), f"{call.name}: {clause or 'ensures'}")
    return [("crates/wasm_encoder/specs", f"{module}.{name} isn't re-exported, but {call} cites it")
            for (module, name), call in sorted(found.items())]
