"""Modules of the examples in node.

Each module of example_compiler must compute what node computes of the same expression in whole numbers, cut to 32
bits. Each module of example_language must print what example_programs says, or trap with the functions that it says in
the stack trace; so must the modules that example_edit makes of them, with the names that it keeps. wasm-objdump and
wasm2wat (wabt) must show the names of functions and locals. That of example_hello must print its line through node's
WASI. Another text must be refused with its message and status 1, and nothing written. wasm-validate (wabt) and wasm-opt
(binaryen) must accept each module. `rt ci` builds two programs of each example, with LLVM and with Rattle's own
compiler; this part runs both.
"""
import dataclasses
import pathlib
import re

from parts.built_modules import BINARYEN, WABT
from parts.common import both_programs, lacks, room, run as run_command, said, text_of
from parts.example_programs import NAMES, PROGRAMS, REFUSED as REFUSED_PROGRAMS, TRAPS

# Compares the function that a module exports with an expression over a and b, which JavaScript writes alike.
COMPARE = r"""
import { readFileSync } from "node:fs";
const [file, expression] = process.argv.slice(2);
const numbers = expression.replace(/\d+/g, "$&n");
const expected = new Function("a", "b", `return BigInt.asIntN(32, ${numbers});`);
const module = new WebAssembly.Module(readFileSync(file));
const { compute } = new WebAssembly.Instance(module).exports;
const values = [0, 1, -1, 2, 7, 70, -64, 65535, 1000003, 2147483647, -2147483648];
for (const a of values) {
    for (const b of values) {
        if (BigInt(compute(a, b)) !== expected(BigInt(a), BigInt(b))) {
            console.log(`${expression} at ${a} and ${b}: ${compute(a, b)}`);
            process.exit(1);
        }
    }
}
"""

EXPRESSIONS = [
    "0",
    "a",
    "  b  ",
    "2147483647",
    "64 - 128 + 8191 - 8192 + 1048576 - 134217728",
    "a - b - 1",
    "a - (b - 1)",
    "a + b * 2",
    "a * b + 2",
    "(a + b) * 2",
    "-a * -b",
    "- - a - -b",
    "-(a - b) * (3 + a) * -(-2)",
    "((((a))))*((b+1)*(a-(2-(b))))",
    "a*a*a - 3*a*a*b + 3*a*b*b - b*b*b",
]
REFUSED = {
    "": "the expression ends where an operand is wanted",
    "a +": "the expression ends where an operand is wanted",
    "(a + 1": "a parenthesis isn't closed",
    "a + 1)": "')' has no place there",
    "()": "')' has no place there",
    "* a": "'*' has no place there",
    "a / b": "'/' has no place there",
    "a b": "'b' has no place there",
    "c": "'c' has no place there",
    "(a) 1": "a number follows a number, a name or a parenthesis",
    "2147483648": "a number is past 2147483647",
    "99999999999999999999": "a number is past 2147483647",
}


# Runs `main` of a module of the example language and prints what it printed and returned. In an edited module,
# `trace.enter` must get the index of a function that the module defines, as often as `trace.calls` says.
RUN = r"""
import { readFileSync } from "node:fs";
const shown = [];
const env = { print: number => shown.push(number), show: address => shown.push({ address }) };
const entered = [];
const calls = new WebAssembly.Global({ value: "i32", mutable: true }, 0);
const trace = { enter: index => entered.push(index), calls };
const module = new WebAssembly.Module(readFileSync(process.argv[2]));
const { exports } = new WebAssembly.Instance(module, { env, trace });
const textAt = ({ address }) => {
    const { buffer } = exports.memory;
    const length = new DataView(buffer).getUint32(address, true);
    return new TextDecoder().decode(new Uint8Array(buffer, address + 4, length));
};
shown.push(exports.main());
const imports = WebAssembly.Module.imports(module);
const imported = imports.filter(({ kind }) => kind === "function").length;
if (imports.some(({ module }) => module === "trace") && entered.length === 0) console.log("no function was traced");
if (entered.some(index => index < imported)) console.log("an import was traced");
if (calls.value !== entered.length) console.log(`${calls.value} calls of ${entered.length} were counted`);
for (const item of shown) console.log(typeof item === "number" ? item : textAt(item));
"""

# Runs `main` of a module of the example language, edited or not, and prints the module's functions in the stack trace
# of the trap.
TRACE = r"""
import { readFileSync } from "node:fs";
const calls = new WebAssembly.Global({ value: "i32", mutable: true }, 0);
const imports = { env: { print: () => {} }, trace: { enter: () => {}, calls } };
const module = new WebAssembly.Module(readFileSync(process.argv[2]));
const { exports } = new WebAssembly.Instance(module, imports);
try {
    exports.main();
} catch (error) {
    for (const [, name] of error.stack.matchAll(/^ *at (\S+) \(wasm:/gm)) console.log(name);
}
"""

# Runs a command of WASI.
COMMAND = r"""
import { readFileSync } from "node:fs";
import { WASI } from "node:wasi";
const wasi = new WASI({ version: "preview1" });
const module = new WebAssembly.Module(readFileSync(process.argv[2]));
wasi.start(new WebAssembly.Instance(module, wasi.getImportObject()));
"""


@dataclasses.dataclass
class Trial:
    """What the trials of an example share: the report, a folder, and the tools that must accept each module."""

    report: object
    folder: pathlib.Path
    tools: list

    def printed(self, programs, words, text, script, *arguments):
        """Lets a program write a module and the others edit it, gives it to the tools, and runs it. Returns what it
        printed, or the fault.
        """
        module = self.folder / "module"
        written = text.encode()
        for program in programs:
            ran = run_command(program, *words, input=written)
            if ran.returncode:
                return "", text_of(ran.stderr)
            written = ran.stdout
        module.write_bytes(written)
        for tool in self.tools:
            checked = run_command(*tool, module)
            if checked.returncode:
                return "", f"{tool[0]}: {said(checked)}"
        ran = run_command("node", "--no-warnings", self.folder / script, module, *arguments)
        return ran.stdout.decode("utf-8", "replace"), f"node: {said(ran)}" if ran.returncode else ""

    def must_print(self, name, programs, words, text, script, *arguments, expected=""):
        """The module of these programs must print this."""
        printed, fault = self.printed(programs, words, text, script, *arguments)
        self.report.check(name, not fault and printed == expected, fault or f"prints {printed!r}")

    def must_name(self, program, text, shown):
        """Both tools of wabt must show these names of a program's module."""
        module = self.folder / "module"
        module.write_bytes(run_command(program, input=text.encode()).stdout)
        listed = text_of(run_command("wasm-objdump", "-x", "-j", "name", module).stdout)
        found = re.findall(r"^ - (func\[.*)$", listed, re.MULTILINE)
        self.report.check(f"{program.name}: names in wasm-objdump", found == shown, f"shows {found}")
        text = text_of(run_command("wasm2wat", module).stdout)
        wanted = [f"${name}" for line in shown for name in re.findall("<(.*)>", line)]
        missing = [name for name in wanted if not re.search(rf"{re.escape(name)}\b", text)]
        self.report.check(f"{program.name}: names in wasm2wat", not missing, f"lacks {missing}")

    def must_print_all(self, title, programs):
        """The modules of all programs of the example language must print their lines."""
        for texts, script in ((PROGRAMS, "run.mjs"), (TRAPS, "trace.mjs")):
            for name, (text, lines) in texts.items():
                self.must_print(f"{title}: {name}", programs, [], text, script,
                                expected="".join(f"{line}\n" for line in lines))

    def must_refuse(self, program, words, refused):
        """A program must refuse each text with its message."""
        for text, message in refused.items():
            ran = run_command(program, *words, input=text.encode())
            found = (ran.returncode, ran.stdout, text_of(ran.stderr))
            self.report.check(f"{program.name}: {text!r}", found == (1, b"", f"Error: {message}"), f"answers {found}")


def run(report):
    if lacks(report, "node", "no module of the examples was run"):
        return
    tools = [words for words in (WABT[0], [*BINARYEN, "-o", "/dev/null"])
             if not lacks(report, words[0], "no module was given to it")]
    with room() as folder:
        scripts = {"compare.mjs": COMPARE, "run.mjs": RUN, "trace.mjs": TRACE, "command.mjs": COMMAND}
        for name, script in scripts.items():
            (folder / name).write_text(script, "utf-8")
        trial = Trial(report, folder, tools)
        for program in both_programs(report, "example_compiler"):
            for expression in EXPRESSIONS:
                trial.must_print(f"{program.name}: '{expression}'", [program], ["module"], f"{expression}\n",
                                 "compare.mjs", expression)
            trial.must_refuse(program, ["module"], REFUSED)
        compilers = list(both_programs(report, "example_language"))
        for program in compilers:
            trial.must_print_all(program.name, [program])
            if not lacks(report, "wasm-objdump", "no names were shown"):
                trial.must_name(program, *NAMES)
            trial.must_refuse(program, [], REFUSED_PROGRAMS)
        for compiler, program in zip(compilers, both_programs(report, "example_edit")):
            trial.must_print_all(program.name, [compiler, program])
        for program in both_programs(report, "example_hello"):
            trial.must_print(program.name, [program], [], "", "command.mjs", expected="Hello, world!\n")
