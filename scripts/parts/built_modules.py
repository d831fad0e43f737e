"""The modules of built/ in node, as they are and in their canonical form.

They are rows of crates/replay/data. wasm-validate and wasm-objdump (wabt) and wasm-opt (binaryen) must accept those
that they know, and a module that wasm-opt writes must run as well. If node doesn't know an instruction of a module,
that module isn't run.
"""
import shutil

from parts.common import ROOT, VECTORS, lacks, room, run as run_command, said

# The modules, and the tools that know their features.
MODULES = {"every_section": ("wabt", "binaryen"), "passive_elements": ("wabt",), "try_table": ()}
WABT = [["wasm-validate", "--enable-exceptions"], ["wasm-objdump", "--headers", "--details", "--disassemble"]]
BINARYEN = ["wasm-opt", "-O", "--enable-bulk-memory", "--enable-exception-handling", "--enable-mutable-globals",
            "--enable-reference-types"]
# The status of run.mjs if node doesn't know an instruction.
UNKNOWN = 3


def tried(report, name, *words):
    """Runs a tool on a module, if the machine has the tool."""
    if not shutil.which(words[0]):
        return
    ran = run_command(*words)
    if ran.returncode == UNKNOWN:
        report.skipped(name, f"{words[0]} doesn't know an instruction of it")
    else:
        report.check(f"{name}: {words[0]}", ran.returncode == 0, said(ran))


def try_module(report, name, data, folder):
    module, optimised = folder / "module", folder / "optimised"
    module.write_bytes(data)
    in_node = ["node", ROOT / "built/run.mjs", name]
    tried(report, name, *in_node, module)
    if "wabt" in MODULES[name]:
        for words in WABT:
            tried(report, name, *words, module)
    if "binaryen" in MODULES[name]:
        optimised.unlink(missing_ok=True)
        tried(report, name, *BINARYEN, module, "-o", optimised)
        if optimised.exists():
            tried(report, f"{name}, optimised", *in_node, optimised)


def run(report):
    if lacks(report, "node", "no module was run"):
        return
    for tool in ("wasm-validate", "wasm-objdump", "wasm-opt"):
        lacks(report, tool, "no module was given to it")
    with room() as folder:
        for name in MODULES:
            rows = (VECTORS / f"{name}.tsv").read_text("utf-8").splitlines()
            if not rows:
                report.failed(f"{name}.tsv", "has no rows")
            for row in rows:
                _, data, answer = row.split("\t")
                for hexadecimal in (data, answer.split()[-1]):
                    try_module(report, name, bytes.fromhex(hexadecimal), folder)
