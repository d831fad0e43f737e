"""scripts/vendor in projects: empty, with crates of their own, updated, changed."""
import hashlib
import pathlib

from parts.common import ROOT, VERSION, room, run as run_command, said
from parts.trial import declared_crates

CRATES = pathlib.Path("crates")
RECORD, SAMPLE = "nosgrivel.vendored", CRATES / "wasm_codec/src/lib.rt"
APP = """//! Prints how many sections the module on standard input has.
#![tactic(auto)]

use anyhow::Result;
use std::io::Read;
use wasm_encoder::read_module;

fn main(rt: HostRuntime) -> Result<()> {
    let mut bytes = Vec::new(rt.alloc());
    rt.stdin().read_to_end(&mut bytes)?;
    let sections = read_module(rt.alloc(), &bytes)?;
    println!(rt; "{}", sections.len())?;
    Ok(())
}
"""
OWN_LINES = ["# The project's own.", "app: wasm_encoder anyhow", "", "low:"]


class Project:
    """A project in a folder, and the report on it."""

    def __init__(self, report, folder, name, files):
        self.report, self.name, self.folder = report, name, folder / name
        self.folder.mkdir()
        for path, text in files.items():
            self.write(path, text)

    def write(self, path, text):
        (self.folder / path).parent.mkdir(parents=True, exist_ok=True)
        (self.folder / path).write_text(text, "utf-8")

    def check(self, name, right, why=""):
        return self.report.check(f"{self.name}: {name}", right, why)

    def files(self):
        return {file.relative_to(self.folder): file.read_bytes() for file in self.folder.rglob("*") if file.is_file()}

    def lines(self):
        return (self.folder / "crates.txt").read_text("utf-8").splitlines()

    def vendor(self, name):
        ran = run_command(ROOT / "scripts/vendor", self.folder)
        self.check(name, ran.returncode == 0, said(ran))

    def refuses(self, name, message):
        """Nothing is written, and the message names what is in the way."""
        before = self.files()
        ran = run_command(ROOT / "scripts/vendor", self.folder)
        self.check(name, ran.returncode == 1 and message in said(ran) and self.files() == before, said(ran))


def reached(name, declared):
    return {name}.union(*(reached(used, declared) for used in declared[name] if used in declared))


def expected(crates=CRATES):
    """The files of the library's crates, but no planted bugs: what each crate has in src, specs and proofs."""
    found = {crates / "wasm_encoder/LICENSE": (ROOT / "LICENSE").read_bytes()}
    for crate in reached("wasm_encoder", declared_crates()):
        folder = ROOT / "crates" / crate
        for file in [*folder.rglob("*.rt"), *folder.rglob("*.antt")]:
            if file.relative_to(folder).parts[0] != "out":
                found[crates / crate / file.relative_to(folder)] = file.read_bytes()
    return found


def is_whole(project, own, crates=CRATES):
    """Whether the project has the library's files and its own, and nothing else."""
    files = project.files()
    record = files.pop(pathlib.Path(RECORD)).decode()
    files.pop(pathlib.Path("crates.txt"))
    ours = expected(crates)
    project.check("its files", files == {**ours, **own}, sorted(map(str, set(files) ^ set({**ours, **own})))[:5])
    noted = "".join(f"{hashlib.sha256(data).hexdigest()}  {path}\n" for path, data in sorted(ours.items()))
    project.check("its record", record == noted, record[:300])
    listed = (ROOT / "crates.txt").read_text("utf-8").splitlines()
    names = reached("wasm_encoder", declared_crates())
    lines = [line for line in listed if line.split(":")[0] in names]
    found = [line for line in project.lines() if line.split(":")[0] in names]
    project.check("its lines", found == lines and f"# Nosgrivel {VERSION}. " in "\n".join(project.lines()), found)


def try_empty(report, folder):
    project = Project(report, folder, "empty", {})
    project.vendor("the first run")
    is_whole(project, {})
    before = project.files()
    project.vendor("the second run")
    project.check("nothing changed", project.files() == before)


def try_own(report, folder):
    """A project with crates and lines of its own, before and after ours, and files beside ours."""
    own = {CRATES / "app/src/main.rt": b"A", CRATES / "low/src/lib.rt": b"L", pathlib.Path("HANDLES"): b"H"}
    texts = {path: data.decode() for path, data in own.items()}
    project = Project(report, folder, "own", {**texts, "crates.txt": "\n".join(OWN_LINES[:2]) + "\n"})
    project.vendor("the first run")
    is_whole(project, own)
    project.write("crates.txt", "\n".join([*project.lines(), *OWN_LINES[2:]]) + "\n")
    out = {CRATES / "wasm_codec/out/kept.rt": b"K", CRATES / "wasm_codec/stdin": b"S"}
    for path, data in out.items():
        project.write(path, data.decode())
    old = {CRATES / "wasm_older/src/lib.rt": b"older", SAMPLE: b"older"}
    for path, data in old.items():
        project.write(path, data.decode())
    record = project.folder / RECORD
    lines = [line for line in record.read_text("utf-8").splitlines() if not line.endswith(str(SAMPLE))]
    lines += [f"{hashlib.sha256(data).hexdigest()}  {path}" for path, data in old.items()]
    record.write_text("\n".join(lines) + "\n", "utf-8")
    text = "\n".join(project.lines()).replace(f"# Nosgrivel {VERSION}. ", "# Nosgrivel 0.0.9. ")
    project.write("crates.txt", text.replace("\nwasm_codec: ", "\nwasm_older:\nwasm_codec: wasm_older ") + "\n")
    project.vendor("an update")
    is_whole(project, {**own, **out})
    kept = [line for line in project.lines() if line in OWN_LINES]
    project.check("its own lines", kept == OWN_LINES and "wasm_older" not in "".join(project.lines()), project.lines())
    project.check("no folder of an older crate", not (project.folder / "crates/wasm_older").exists())


def try_trial(report, folder):
    """A program of the project is built without proof, and runs on a module of a toolchain."""
    project = Project(report, folder, "trial", {"crates.txt": "app: wasm_encoder anyhow\n", "app/src/main.rt": APP})
    project.vendor("the first run")
    for words in (["--keep", "app"], ["--keep", "app", "--project", "there", "app", "more"], ["--project", ".", "app"]):
        ran = run_command(ROOT / "scripts/trial", *words, cwd=project.folder)
        project.check(f"trial {words}", ran.returncode == 1 and "usage: trial" in said(ran), said(ran))
    program = project.folder / "program"
    ran = run_command(ROOT / "scripts/trial", "--keep", program, "--project", project.folder, "app")
    if not project.check("trial keeps a program", ran.returncode == 0 and program.exists(), said(ran)):
        return
    ran = run_command(program, input=(ROOT / "bench/linked_json.wasm").read_bytes())
    project.check("it counts sections", (ran.returncode, ran.stdout) == (0, b"19\n"), said(ran))


def try_layout(report, folder):
    """Without the folder crates, a project has its crates at the top."""
    project = Project(report, folder, "top", {"crates.txt": "app: wasm_encoder\n", "app/src/main.rt": "A"})
    project.vendor("the first run")
    is_whole(project, {pathlib.Path("app/src/main.rt"): b"A"}, pathlib.Path())


def try_refusals(report, folder):
    project = Project(report, folder, "changed", {})
    project.vendor("the first run")
    right = (project.folder / SAMPLE).read_text("utf-8")
    project.write(SAMPLE, "changed")
    project.refuses("a changed file", f"{SAMPLE}: changed")
    (project.folder / SAMPLE).unlink()
    project.vendor("a deleted file")
    project.check("a deleted file is there again", (project.folder / SAMPLE).read_text("utf-8") == right)
    project.write(CRATES / "wasm_codec/src/own.rt", "O")
    project.refuses("a source of its own", "crates/wasm_codec/src/own.rt: a file of the project's own")
    (project.folder / CRATES / "wasm_codec/src/own.rt").unlink()
    lines = project.lines()
    project.write("crates.txt", "\n".join([*lines, "wasm_codec: low"]) + "\n")
    project.refuses("a line of its own", "crates.txt: wasm_codec: ")
    project.write("crates.txt", "\n".join(lines[:-1]) + "\n")
    project.refuses("no end of the lines", "crates.txt: expected")
    other = Project(report, folder, "other", {"crates.txt": "app:\n", "crates/wasm_types/src/lib.rt": "T"})
    other.refuses("a crate of this name", "crates/wasm_types/src/lib.rt: a file of the project's own")
    for name, words in {"no folder": [folder / "none"], "its own clone": [ROOT], "below its clone": [ROOT / "docs"],
                        "no word": [], "an option": ["--force"]}.items():
        ran = run_command(ROOT / "scripts/vendor", *words)
        report.check(name, ran.returncode == 1 and "vendor" in said(ran), said(ran))


def run(report):
    with room() as folder:
        for use in (try_empty, try_own, try_layout, try_trial, try_refusals):
            use(report, folder)
