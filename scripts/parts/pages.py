"""The pages: links, paths, commands and their output, code, and numbers in prose.

A block ```console has lines `$ command`, each followed by its output; a line `..` matches any lines. A block ```sh has
commands without output. Those of OF_THE_GATE, which prove, measure or name a PREFIX, don't run here; the others must
succeed. Commands run in a copy of the tree, with app.wasm at its top. There, `wasmnorm` and `wasmcanon` are the
programs of `rt ci`, unless --unproved follows. The modules of bench/ that they read are valid. A block ```rust is text
of a source, whatever its comments and line breaks.
"""
import collections
import functools
import os
import pathlib
import re
import shutil
import subprocess

from documentation import sources
from parts.common import ROOT, copy_tree, kit_line, last_lines, program as built, room, run as run_command

PAGES = [ROOT / "README.md", ROOT / "CHANGELOG.md", *sorted(ROOT.glob("docs/*.md")), *sorted(ROOT.glob("bench/*.md")),
         *(ROOT / folder / "README.md" for folder in ("bindings", "bindings/js", "built", "linked"))]
MADE = sorted(ROOT.glob("docs/api/*.md"))
# Limit of a command, for one that hangs: far more than any takes on a busy machine, a build without proof too.
SECONDS = 900
LINES_OF_README = 120
WORDS = 13500
WRITTEN_BY_THE_GATE = re.compile(r"<!-- \w+: written by scripts/gate -->.*?<!-- end of \w+ -->", re.DOTALL)

# Commands that prove or measure, or that the gate runs.
OF_THE_GATE = re.compile(r"(bash \.ci/run|rt \w+|scripts/(gate|c-library|install|vendor|bench|wasm-module)|cd \S+"
                         r"|npm install|node --\S+)( |$)|.*\bPREFIX/")
# The tools and built files that commands need.
ARCHIVE = "bindings/out/libnosgrivel.a"
NEEDS = {"cc ": ["cc", ARCHIVE], "cargo ": ["cargo", ARCHIVE], "node ": ["node"], "xxd": ["xxd"], "clang ": ["clang"]}
LANGUAGES = ("console", "sh", "rust", "c", "toml", "text", "wat", "json", "js")
# The beginnings of paths, and built files, which need not exist.
TOPS = ("crates/", "docs/", "scripts/", "bin/", "bench/", "bindings/", "built/", "linked/", ".ci/")
BUILT = re.compile(r"(^|/)out(/|$)")


class Judge:
    """Counts the checks by their kinds."""

    def __init__(self, report):
        self.report, self.kinds = report, collections.Counter()

    def __call__(self, kind, where, wrong):
        """Counts a check. `wrong` is the message, or empty if all is well."""
        if self.report.check(where, not wrong, wrong):
            self.kinds[kind] += 1

    def leave_out(self, where, why):
        self.report.skipped(where, why)


class Markdown:
    """A page: its blocks, and its other lines with their numbers."""

    def __init__(self, file):
        self.file, self.name = file, str(file.relative_to(ROOT))
        self.lines = file.read_text("utf-8").splitlines()
        self.blocks = list(sources.blocks(self.lines, 1))
        inside = set()
        for block in self.blocks:
            inside.update(range(block.line - 1, block.line + len(block.lines) + 1))
        self.prose = [(number, line) for number, line in enumerate(self.lines, 1) if number not in inside]

    def place(self, number):
        return f"{self.name}:{number}"

    def anchors(self):
        counted, found = collections.Counter(), set()
        for _, line in self.prose:
            heading = re.match(r"#+ (.*)", line)
            if heading:
                anchor = sources.slug(heading[1])
                found.add(anchor + (f"-{counted[anchor]}" if counted[anchor] else ""))
                counted[anchor] += 1
        return found


def without_code(line):
    return re.sub(r"`[^`]*`", lambda found: "`" + "x" * (len(found[0]) - 2) + "`", line)


# ---- links and paths


def check_links(judge, page, pages):
    for number, line in page.prose:
        targets = re.findall(r"\]\(([^)\s]+)\)", line) + re.findall(r"^\[[^\]]+\]: (\S+)", line)
        for target in targets:
            if re.match(r"[a-z]+:", target):
                judge.leave_out(page.place(number), f"the link {target} leads outside of the repository")
                continue
            judge("links", page.place(number), leads_nowhere(page, target, pages))
    labels = {found[1].lower() for _, line in page.prose for found in [re.match(r"\[([^\]]+)\]: ", line)] if found}
    for number, line in page.prose:
        for label in re.findall(r"\[(`[^`\]]+`)\](?![(:\[])", line):
            judge("links", page.place(number), "" if label.lower() in labels else f"the link [{label}] has no target")


def leads_nowhere(page, target, pages):
    path, _, anchor = target.partition("#")
    file = (page.file.parent / path).resolve() if path else page.file
    if not file.exists():
        return f"the link {target} leads nowhere"
    if not anchor:
        return ""
    line = re.match(r"L(\d+)$", anchor)
    if line and file.suffix != ".md":
        count = len(file.read_text("utf-8").splitlines())
        return "" if int(line[1]) <= count else f"the link {target} leads past the end of its file"
    if file not in pages:
        pages[file] = Markdown(file)
    return "" if anchor in pages[file].anchors() else f"the link {target}: no heading of this anchor"


def check_paths(judge, page):
    crates, around = sorted(path.name for path in ROOT.glob("crates/*")), None
    for number, line in page.prose:
        found = re.match(r"(?:.* )?[Ii]n `(\w+)`:", line)
        if line.startswith("#"):
            around = None
        elif found and found[1] in crates:
            around = found[1]
        elif re.match(r"In other crates:", line):
            around = None
        for path in re.findall(r"`([\w.*…-]+/[\w./*…-]*)`", line):
            if BUILT.search(path) or re.search(r"NAME|…|[A-Z]{4,}/", path) or "kit's" in line:
                continue
            known = path.startswith(TOPS) or path.split("/")[0] in crates
            own = path.split("/")[0] in ("src", "specs", "proofs", "planted", "must-fail", "c", "rust")
            if known or own:
                folders = [ROOT, ROOT / "crates", page.file.parent]
                folders += [ROOT / "crates" / around] if own and around else ROOT.glob("crates/*") if own else []
                there = any(any(folder.glob(path.rstrip("/"))) for folder in folders)
                judge("paths", page.place(number), "" if there else f"`{path}` doesn't exist")


@functools.lru_cache(maxsize=None)
def file_names():
    """The names of the files that git has, without their folders."""
    listed = subprocess.check_output(["git", "ls-files", "-co", "--exclude-standard"], cwd=ROOT, text=True)
    return {line.rpartition("/")[2] for line in listed.splitlines()}


def check_names(judge, page):
    """A name of a source file or a script, such as `order.rt`, is that of a file somewhere in the tree."""
    for number, line in page.prose:
        for name in re.findall(r"`(\w+\.(?:rt|antt|py|sh|bash|wat|tsv))`", line):
            judge("names of files", page.place(number), "" if name in file_names() else f"no file is named `{name}`")


# ---- commands


class Tree:
    """A copy of the tree, in which commands run."""

    def __init__(self, folder):
        self.folder = folder / "tree"
        self.programs = folder / "programs"
        self.programs.mkdir()
        copy_tree(self.folder)
        for out in ROOT.glob("crates/*/out"):
            copied = self.folder / out.relative_to(ROOT)
            # A clone keeps the folder of a crate that was renamed.
            if copied.parent.is_dir():
                copied.symlink_to(out)
        (self.folder / "bindings/out").mkdir(parents=True)
        if (ROOT / ARCHIVE).exists():
            shutil.copy2(ROOT / ARCHIVE, self.folder / ARCHIVE)
        shutil.copy2(ROOT / "bench/linked_json.wasm", self.folder / "app.wasm")
        for program in ("wasmnorm", "wasmcanon"):
            self.stand_in(program)

    def stand_in(self, program):
        """Puts the program of `rt ci` in the place of the command that would prove it again."""
        text = ("#!/bin/sh\n"
                f'case "$#:${{1-}}" in\n'
                f"    1:-h | 1:--help | 1:-V | 1:--version | *:--unproved) exec '{ROOT}/bin/{program}' \"$@\" ;;\n"
                "esac\n"
                f"exec '{built(program)}' \"$@\"\n")
        for file in (self.folder / "bin" / program, self.programs / program):
            file.unlink(missing_ok=True)
            file.write_text(text, "utf-8")
            file.chmod(0o755)

    def run(self, command):
        """The status, and the output: standard output, and both outputs in either order."""
        env = {**os.environ, "PATH": f"{self.programs}:{os.environ['PATH']}", "LC_ALL": "C.UTF-8"}
        try:
            ran = run_command("bash", "-c", command, cwd=self.folder, env=env, text=True, errors="replace",
                              timeout=SECONDS)
        except subprocess.TimeoutExpired:
            return 124, [f"no end after {SECONDS} seconds"]
        return ran.returncode, [ran.stdout, ran.stdout + ran.stderr, ran.stderr + ran.stdout]


def lacks(command):
    """The first tool or file that the command needs and that isn't here, or None."""
    for word, needed in NEEDS.items():
        if re.search(rf"(^|[\s|;&(]){re.escape(word)}", command):
            for name in needed:
                if "/" in name and not (ROOT / name).exists() or "/" not in name and not shutil.which(name):
                    return name
    for program in ("wasmnorm", "wasmcanon"):
        if re.search(rf"(^|[\s|;&(]|bin/){program} (?!--unproved|--help|--version)", command):
            if not built(program).exists():
                return built(program).relative_to(ROOT)
    return None


def is_same(expected, printed):
    """Whether the output is the expected lines; `..` matches any lines."""
    pattern = "".join("(?:.*\n)*" if line.strip() == ".." else re.escape(line) + "\n" for line in expected)
    text = printed if printed.endswith("\n") or not printed else printed + "\n"
    return re.fullmatch(pattern, text) is not None


def check_console(judge, page, block, tree):
    commands = []
    for number, line in enumerate(block.lines, block.line):
        if line.startswith("$ "):
            commands.append((number, line[2:], []))
        elif commands and commands[-1][1].endswith("\\"):
            commands[-1] = (commands[-1][0], commands[-1][1][:-1] + line.lstrip("> "), [])
        elif commands:
            commands[-1][2].append(line)
        else:
            judge("commands", page.place(number), "expected a line `$ command`")
    for number, command, expected in commands:
        missing = lacks(command)
        if missing:
            judge.leave_out(page.place(number), f"`{command}`: {missing} not found")
            continue
        _, printed = tree.run(command)
        same = any(is_same(expected, text) for text in printed)
        shown = last_lines(printed[-1])
        judge("commands", page.place(number), "" if same else f"`{command}` prints something else:{shown}")


def check_sh(judge, page, block, tree):
    commands = [line.strip() for line in block.lines if line.strip() and not line.strip().startswith("#")]
    if all(OF_THE_GATE.match(command) for command in commands):
        for _ in commands:
            judge("commands of the gate", page.place(block.line), "")
        return
    whole = "\n".join(commands)
    missing = next((name for name in map(lacks, commands) if name), None)
    if missing:
        judge.leave_out(page.place(block.line), f"{missing} not found")
        return
    status, printed = tree.run(f"set -e\n{whole}")
    shown = last_lines(printed[-1])
    judge("commands", page.place(block.line), "" if status == 0 else f"a command ends with status {status}:{shown}")


IS_VALID = "process.exit(WebAssembly.validate(require('fs').readFileSync(process.argv[1])) ? 0 : 1)"


def check_modules(judge, page):
    """Modules that commands read are valid."""
    for block in page.blocks:
        names = set(re.findall(r"[\w./]+\.wasm\b", "\n".join(block.lines)))
        for file in sorted((ROOT / "bench" / pathlib.Path(name).name) for name in names):
            if not file.exists():
                continue
            if not shutil.which("node"):
                judge.leave_out(page.place(block.line), f"{file.name}: node not found")
                continue
            ran = run_command("node", "-e", IS_VALID, file)
            judge("modules", page.place(block.line), f"{file.name} isn't a valid module" if ran.returncode else "")


def check_unfenced(judge, page):
    """Indented lines without a fence aren't commands."""
    commands = ("$ ", "bin/", "scripts/", "bash ", "cargo ", "cc ", "cd ", "clang ", "git ", "make ", "node ",
                "printf ", "python3 ", "rt ", "sh ", "wasmcanon ", "wasmnorm ")
    for number, line in page.prose:
        if re.match(r"    \S", line):
            command = line.strip().startswith(commands)
            judge("indented lines", page.place(number), "a command without a fence" if command else "")


# ---- code


def plain(code):
    """Code without comments, spaces, and commas before closing brackets."""
    code = re.sub(r"^\s*//[/!]? ?```.*$|//[^\n]*", "", code, flags=re.M)
    return re.sub(r",(?=[)\]}])", "", re.sub(r"\s+", "", code))


def texts():
    """The plain text of each source, and of the documentation of Rust sources."""
    found = []
    for file in sorted([*ROOT.glob("crates/*/src/**/*.rt"), *ROOT.glob("bindings/rust/**/*.rs")]):
        if "target" not in file.parts:
            text = file.read_text("utf-8")
            found.append(plain(text))
            if file.suffix == ".rs":
                for documented in re.findall(r"(?:^[ \t]*//[/!].*\n)+", text, re.M):
                    found.append(plain(re.sub(r"^[ \t]*//[/!] ?(# )?", "", documented, flags=re.M)))
    return found


def check_code(judge, page, block, known):
    parts = items_of("\n".join(block.lines))
    for first, code in parts:
        text = plain(code)
        line = page.place(block.line + first)
        if text:
            name = code.strip().splitlines()[0][:60]
            body = re.sub(r"^fnmain\(\)(->[\w:<>(),]+)?\{(.*?)(Ok\(\(\)\))?\}$", r"\2", text)
            found = any(part in other for part in (text, body) for other in known)
            judge("code", line, "" if found else f"no source has this text: {name}")


def items_of(code):
    """The parts of a block between empty lines outside brackets, each with its line."""
    lines, parts, start, depth = code.splitlines(), [], 0, 0
    for number, line in enumerate(lines):
        bare = re.sub(r"//.*", "", line)
        depth += sum(map(bare.count, "([{")) - sum(map(bare.count, ")]}"))
        following = lines[number + 1] if number + 1 < len(lines) else ""
        if depth == 0 and (not following.strip() or number + 1 == len(lines)):
            parts.append((start, "\n".join(lines[start:number + 1])))
            start = number + 1
    return [part for part in parts if part[1].strip()]


# ---- numbers


def counts():
    """The numbers that pages may name, by the words after them."""
    rows = (ROOT / "scripts/opcodes.tsv").read_text("utf-8").splitlines()[1:]
    tables = [item for file in ROOT.glob("crates/*/src/table/*.rt") for item in sources.read(file).children]
    kinds = next(item for item in tables if item.kind == "enum" and item.name == "Kind")
    header = (ROOT / "bindings/c/nosgrivel.h").read_text("utf-8")
    return {"opcodes": len({row.split("\t")[2] for row in rows}), "kinds of operands": len(kinds.children),
            "C calls": len(set(re.findall(r"\bnosgrivel_\w+(?=\()", header)))}


COUNTED = re.compile(r"(?<![\w.,-])(\d[\d,]*) (opcodes|kinds of operands|C calls|crates|planted bugs|vectors|tests"
                     r"|lines of code|source files|definitions|clauses|proofs|pages|scripts|decisions)\b")


def check_numbers(judge, page, known):
    for number, line in page.prose:
        if page.name.startswith("bench/"):
            continue
        for value, words in COUNTED.findall(without_code(line)):
            is_right = known.get(words) == int(value.replace(",", ""))
            expected = f"expected {known[words]}" if words in known else "nothing checks this number"
            judge("numbers", page.place(number), "" if is_right else f"{value} {words}: {expected}")


def check_limits(judge):
    readme = (ROOT / "README.md").read_text("utf-8")
    logic = kit_line().partition(" ")[2]  # kits of one logic prove the same
    named = re.search(rf"`rattle-kit-\w+ {re.escape(logic)}`", readme)
    judge("limits", "README.md", "" if named else f"expected the line of a kit with {logic}")
    lines = len(readme.splitlines())
    judge("limits", "README.md", "" if lines <= LINES_OF_README else f"{lines} lines, more than {LINES_OF_README}")
    texts = (file.read_text("utf-8") for file in [ROOT / "README.md", *ROOT.glob("docs/*.md")])
    words = sum(len(WRITTEN_BY_THE_GATE.sub("", text).split()) for text in texts)
    judge("limits", "README.md and docs", "" if words <= WORDS else f"{words} words, more than {WORDS}")


def check_blocks(judge, page, tree, code):
    for block in page.blocks:
        if block.info not in LANGUAGES:
            judge("blocks", page.place(block.line - 1), f"a block of `{block.info}`: expected {LANGUAGES}")
        elif block.info == "console":
            check_console(judge, page, block, tree)
        elif block.info == "sh":
            check_sh(judge, page, block, tree)
        elif block.info == "rust":
            check_code(judge, page, block, code)


def run(report):
    judge = Judge(report)
    pages = {file: Markdown(file) for file in [*PAGES, *MADE]}
    known, code = counts(), texts()
    for file in MADE:
        check_links(judge, pages[file], pages)
    with room() as folder:
        tree = Tree(folder)
        for page in (pages[file] for file in PAGES):
            check_links(judge, page, pages)
            check_paths(judge, page)
            check_names(judge, page)
            check_unfenced(judge, page)
            check_modules(judge, page)
            check_numbers(judge, page, known)
            check_blocks(judge, page, tree, code)
    check_limits(judge)
    report.note(", ".join(f"{count} {kind}" for kind, count in judge.kinds.items()))
