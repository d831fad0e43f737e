"""Modules of clang and wasm-ld, from the C programs of linked/, rewritten and run in node.

Each normal form must be no longer than its module and its own normal form, and that of a linked module must print the
same in node as the module. The same is asked of each canonical form, which `wasmcanon --check` must accept, and of a
linked module with the trace that example_edit adds. Modules that wasm-ld writes with and without --compress-relocations
must have the same canonical form. wasm-validate (wabt) must accept each canonical form and each traced module.
wasm-objdump must disassemble the same instructions as `wasmcanon --list` shows, also of bench/linked_json.wasm. The
programs are those of `rt ci`; without it, wasmnorm is the one that bin/wasmnorm builds.
"""
from parts.common import ROOT, lacks, program, room, run as run_command, said, text_of
from parts.objdump import difference


def fault_of_normal(modules, module):
    """Writes the normal form of a module beside it, and returns what is wrong with it."""
    ran = run_command(modules.wasmnorm, "module", input=module.read_bytes())
    beside(module, "normal").write_bytes(ran.stdout)
    if ran.returncode:
        return text_of(ran.stderr)
    if len(ran.stdout) > module.stat().st_size:
        return "longer than the module"
    again = run_command(modules.wasmnorm, "module", input=ran.stdout)
    return "" if again.stdout == ran.stdout else "not its own normal form"


def fault_of_canonical(modules, module, *words):
    """Writes the canonical form of a module beside it, and returns what is wrong with it."""
    canonical = beside(module, "canonical")
    ran = run_command(modules.wasmcanon, module, "-o", canonical, *words)
    if ran.returncode:
        return said(ran)
    if canonical.stat().st_size > beside(module, "normal").stat().st_size:
        return "longer than the normal form"
    for command in [(modules.wasmcanon, "--check"), *[("wasm-validate",)] * modules.validates]:
        ran = run_command(*command, canonical)
        if ran.returncode:
            return f"{' '.join(map(str, command))}: {said(ran)}"
    return ""


def fault_of_traced(modules, module):
    """Writes a module with a trace beside it, and returns what is wrong with it."""
    traced = beside(module, "traced")
    ran = run_command(modules.edit, input=module.read_bytes())
    traced.write_bytes(ran.stdout)
    if ran.returncode:
        return text_of(ran.stderr)
    if modules.validates:
        checked = run_command("wasm-validate", traced)
        if checked.returncode:
            return f"wasm-validate: {said(checked)}"
    return fault_in_node(module, "traced")


def fault_in_node(module, form):
    """Runs a linked module and this form of it, and returns what is wrong."""
    one, two = (run_command("node", ROOT / "linked/run.mjs", file) for file in (module, beside(module, form)))
    if one.returncode or two.returncode:
        return f"node can't run it: {said(one)}{said(two)}"
    return "" if one.stdout == two.stdout else f"prints {said(two)}, not {said(one)}"


def beside(module, form):
    return module.with_name(f"{module.name}.{form}")


class Modules:
    """The programs and tools that rewrite and run modules, and the report on them."""

    def __init__(self, report):
        self.report = report
        self.wasmnorm = program("wasmnorm") if program("wasmnorm").exists() else ROOT / "bin/wasmnorm"
        self.wasmcanon = program("wasmcanon")
        self.edit = program("example_edit")
        self.edits = self.edit.exists()
        if not self.edits:
            report.skipped("traced modules", "crates/example_edit isn't built")
        self.canonicalises = self.wasmcanon.exists()
        if not self.canonicalises:
            report.skipped("canonical forms", "crates/wasmcanon isn't built")
        self.validates = not lacks(report, "wasm-validate", "no canonical form was given to it")
        self.lists = self.canonicalises and not lacks(report, "wasm-objdump", "no listing was compared")
        self.differed = False

    def holds(self, name, fault):
        return self.report.check(name, not fault, fault)

    def normalises(self, name, module):
        right = self.holds(f"{name}: normal form", fault_of_normal(self, module))
        if right:
            size, normal = module.stat().st_size, beside(module, "normal").stat().st_size
            self.report.note(f"{name}: {size} bytes, normal {normal}")
        return right

    def is_listed(self, name, module):
        """Compares the listing of a module with that of wasm-objdump."""
        if self.lists:
            count, fault = difference(self.wasmcanon, module)
            if self.holds(f"{name}: listing", fault):
                self.report.note(f"{name}: {count} instructions listed")

    def rewrites_object(self, name, module):
        self.normalises(name, module)
        self.is_listed(name, module)
        if self.canonicalises:
            self.holds(f"{name}: canonical form", fault_of_canonical(self, module, "--force"))

    def rewrites_linked(self, name, module, compiled):
        self.is_listed(name, module)
        if self.normalises(name, module):
            self.holds(f"{name}: normal form in node", fault_in_node(module, "normal"))
        if self.canonicalises:
            if self.holds(f"{name}: canonical form", fault_of_canonical(self, module)):
                self.holds(f"{name}: canonical form in node", fault_in_node(module, "canonical"))
            self.holds(f"{name}: --compress-relocations", self.fault_of_compressed(module, compiled))
        if self.edits:
            self.holds(f"{name}: traced by example_edit", fault_of_traced(self, module))

    def fault_of_compressed(self, module, compiled):
        """Links a module with padded numbers and in fewer bytes. Both must have one canonical form."""
        files = [beside(module, form) for form in ("plain", "compressed")]
        for file, more in zip(files, ([], ["--compress-relocations"])):
            ran = run_command("wasm-ld", "--no-entry", "--strip-debug", *more, "-o", file, compiled)
            if ran.returncode:
                return f"can't be linked: {said(ran)}"
        ran = run_command(self.wasmcanon, "--diff", *files)
        self.differed |= files[0].read_bytes() != files[1].read_bytes()
        return said(ran) if ran.returncode else ""


def try_source(modules, source, level, folder):
    """Compiles and links a C program at this level of optimisation, and rewrites both files."""
    name = f"{source.name} -O{level}"
    compiled, linked = (folder / f"{source.stem}{level}.{ending}" for ending in ("o", "wasm"))
    ran = run_command("clang", "--target=wasm32", f"-O{level}", "-ffreestanding", "-nostdlib", "-Wall", "-Werror", "-c",
                      "-o", compiled, source)
    if not ran.returncode:
        ran = run_command("wasm-ld", "--no-entry", "-o", linked, compiled)
    if ran.returncode:
        modules.report.failed(name, f"can't be compiled: {said(ran)}")
        return
    modules.rewrites_object(f"{name}, object file", compiled)
    modules.rewrites_linked(f"{name}, linked", linked, compiled)


def run(report):
    if any([lacks(report, tool, "no module of a toolchain was tried") for tool in ("clang", "wasm-ld", "node")]):
        return
    modules = Modules(report)
    with room() as folder:
        for source in sorted((ROOT / "linked").glob("*.c")):
            for level in (0, 2):
                try_source(modules, source, level, folder)
    # wasm-objdump takes only valid modules, so not linked_code.wasm.
    modules.is_listed("linked_json.wasm", ROOT / "bench/linked_json.wasm")
    if modules.canonicalises and not modules.differed:
        report.failed("--compress-relocations", "makes no difference")
