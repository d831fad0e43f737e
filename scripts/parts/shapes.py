"""Shapes of code that the page on calling says can't be proved: each must be refused with its message.

The table of docs/CALLING.md under "Shapes that prove" has a row for each shape, whose second cell is the message. The
part checks each shape as a program above the libraries that `rt ci` built.
"""
import pathlib
import re

from parts.common import ROOT, last_lines, room, run as run_command, said
from parts.planted_kit import kit

PAGE = ROOT / "docs/CALLING.md"
# A crate that stands on what the shapes stand on. The checker takes the shapes for its sources.
BESIDE = "example_hello"
# The head of each program, and the shapes by the names of their functions.
HEAD = """//! Shapes that can't be proved.
#![tactic(auto)]

use std::alloc::Global;
use wasm_encoder::{EncodeError, InstructionSink, Module, StartSection};

fn main() {}
"""
SHAPES = {
    "operator": """
/// Appends an operator, if the symbol has one, through a sink passed by value.
pub fn operator(sink: InstructionSink<'_, Global>, symbol: u8) -> Result<(), EncodeError> {
    match symbol {
        b'+' => {
            sink.i32_add()?;
        }
        b'-' => {
            sink.i32_sub()?;
        }
        _ => {}
    }
    Ok(())
}
""",
    "handed_on": """
/// Appends an operator through a sink passed by value.
pub fn handed_on(sink: InstructionSink<'_, Global>) -> Result<(), EncodeError> {
    emit(sink)?;
    Ok(())
}

fn emit(sink: InstructionSink<'_, Global>) -> Result<InstructionSink<'_, Global>, EncodeError> {
    sink.i32_add()
}
""",
    "chain": """
/// Appends two sections in one chain.
pub fn chain(module: &mut Module, start: &StartSection) -> Result<(), EncodeError> {
    module.section(start)?.section(start)?;
    Ok(())
}
""",
}


def messages():
    """The messages of the page's table, in the order of its rows."""
    section = PAGE.read_text("utf-8").split("\n## Shapes that prove\n")[-1].split("\n## ")[0]
    return re.findall(r"^\|[^|]*\| `([^`|]*)` \|", section, re.MULTILINE)


def check_shape(crate, name):
    """Checks a shape as a program above the libraries of a crate, and returns what the checker prints."""
    rtlib = kit().rtlib
    with room() as folder:
        (folder / "src").mkdir()
        (folder / "src/main.rt").write_text(HEAD + SHAPES[name], "utf-8")
        words = crate.words(["--jobs", "1", "--only", name], keeps=False)
        return said(run_command(*rtlib.guarded(), rtlib.RATTLE, "check", *words, cwd=folder))


def run(report):
    expected = messages()
    report.check("docs/CALLING.md", len(expected) == len(SHAPES), f"{len(SHAPES)} shapes, but {len(expected)} messages")
    crate = next(it for it in kit().rtlib.crates_below(str(ROOT)) if it.name == BESIDE)
    missing = [it.name for it in crate.below() if not pathlib.Path(it.rlib).is_dir()]
    if missing:
        report.failed(", ".join(missing), "not built: rt ci builds it")
        return
    for name, message in zip(SHAPES, expected):
        printed = check_shape(crate, name)
        # A message on one function names it; an error of the compiler ends with what the message quotes.
        lines = [line.replace("`", "") for line in printed.splitlines()
                 if line.startswith(f"fn {BESIDE}::{name}: ") or ": error" in line]
        refused = any(message in line for line in lines)
        report.check(name, refused, f"expected a refusal with `{message}`" + last_lines(printed))
