"""What `wasmcanon` writes to files, and what it leaves as it was: part of wasmcanon_runs.py."""
import fcntl
import json
import os
import re
import signal
import subprocess
import termios
import time

from parts.common import lacks, run as run_command
from parts.wasmcanon_cases import FILES, HEADER, NO, NOT_CANONICAL, REPORT


def try_outputs(runs):
    runs.holds("a file", runs.writes("long"))
    runs.holds("what is canonical", runs.writes("canonical"))
    for name, words in (("standard input", []), ("standard input by its name", ["-", "-o", "-"])):
        with open(runs.room / "long", "rb") as source:
            runs.run(*words, stdin=source)
        runs.holds(name, runs.status == 0 and runs.out == FILES["canonical"])
    runs.fresh()
    runs.holds("a new file", runs.puts("long", "-o", "there"))
    runs.fresh()
    runs.holds("a new file by the long option", runs.puts("--output=there", "long"))
    runs.fresh(0o640)
    right = runs.puts("long", "-o", "there")
    runs.holds("the permissions of a file", right and (runs.room / "there").stat().st_mode & 0o777 == 0o640)
    runs.fresh()
    runs.link("link", "there")
    runs.holds("a link", runs.puts("long", "-o", "link") and (runs.room / "link").is_symlink())
    (runs.room / "there").unlink()
    runs.holds("a link that leads nowhere", runs.puts("long", "-o", "link") and (runs.room / "link").is_symlink())
    runs.fresh()
    runs.holds("a file that a killed run left", goes_past_a_stale_file(runs))
    runs.fresh()
    (runs.room / "there").write_bytes(FILES["long"])
    message = "also an input: use --in-place, or --force to replace it\n"
    right = runs.answers(2, f"error: there: {message}", "there", "-o", "there") and runs.there() == FILES["long"]
    runs.link("link", "there")
    runs.holds("a file in its own place", right and runs.answers(2, f"error: there: {message}", "link", "-o", "there"))
    runs.holds("a file in its own place, by force", runs.puts("there", "-o", "there", "--force"))
    try_long_names(runs)
    runs.link("device", "/dev/null")
    runs.holds("a device", runs.answers(0, "", "long", "-o", "device"))
    runs.fresh(0o600)
    right = runs.puts("long", "-o", "there")
    runs.holds("the permissions of a private file", right and (runs.room / "there").stat().st_mode & 0o777 == 0o600)
    runs.holds("a run that is killed while it reads", leaves_nothing_when_killed(runs))
    try_owner(runs)
    try_synced(runs)


def try_long_names(runs):
    """A name may have as many bytes as the file system takes."""
    for name in ("n" * 255, "\u00e4" * 127):
        right = runs.answers(0, "", "long", "-o", name) and (runs.room / name).read_bytes() == FILES["canonical"]
        runs.holds(f"a name of {len(name.encode())} bytes", right and runs.leaves_nothing_beside())
        (runs.room / name).unlink(missing_ok=True)


def try_owner(runs):
    """A file that is replaced keeps its owner and its group, if the program may give them."""
    if os.geteuid():
        runs.report.skipped("the owner of a file", "only root may give files away")
        return
    runs.fresh()
    os.chown(runs.room / "there", 1234, 2345)
    right, found = runs.puts("long", "-o", "there"), (runs.room / "there").stat()
    runs.holds("the owner of a file", right and (found.st_uid, found.st_gid) == (1234, 2345))
    runs.fresh()


def try_synced(runs):
    """If a file is replaced, the new bytes reach the disk before they get its name. A new file is only renamed."""
    if lacks(runs.report, "strace", "writes were not traced"):
        return
    runs.fresh()
    calls = traced(runs)
    runs.holds("a replacement is written to the disk and then renamed", calls in (
        [b"fsync", b"rename"], [b"fdatasync", b"rename"]))
    (runs.room / "there").unlink()
    runs.holds("a new file is only renamed", traced(runs) == [b"rename"])


def traced(runs):
    """The calls of a run that sync or rename, in their order; none if it fails."""
    words = ["strace", "-f", "-e", "trace=fsync,fdatasync,rename", runs.program, "long", "-o", "there"]
    ran = run_command(*words, cwd=runs.room)
    runs.status, runs.out, runs.err = ran.returncode, ran.stdout, ran.stderr.decode("utf-8", "replace")
    return re.findall(rb"^(?:\[pid +\d+\] )?(\w+)\(", ran.stderr, re.MULTILINE) if ran.returncode == 0 else []


def goes_past_a_stale_file(runs):
    stale = runs.room / "there.0.wasmcanon"
    stale.touch()
    right = (runs.answers(0, "warning: there.0.wasmcanon: left by a killed run", "long", "-o", "there")
             and runs.there() == FILES["canonical"] and stale.exists())
    stale.unlink()
    return right and runs.leaves_nothing_beside()


def leaves_nothing_when_killed(runs):
    """Whether a run leaves no file if it is killed while it waits for the rest of its input."""
    # A shell that runs the gate in the background passes on that the signal is ignored.
    process = subprocess.Popen([runs.program, "-o", "there"], cwd=runs.room, stdin=subprocess.PIPE,
                               preexec_fn=lambda: signal.signal(signal.SIGINT, signal.SIG_DFL))
    process.stdin.write(HEADER)
    process.stdin.flush()
    for _ in range(1000):
        unread = fcntl.ioctl(process.stdin, termios.FIONREAD, bytes(4))
        if not any(unread):
            break
        time.sleep(0.01)
    process.send_signal(signal.SIGINT)
    process.wait()
    process.stdin.close()
    return process.returncode == -signal.SIGINT and runs.leaves_nothing_beside()


def try_links(runs):
    runs.link("a", "b")
    runs.link("b", "gone")
    (runs.room / "gone").unlink(missing_ok=True)
    right = runs.answers(0, "", "long", "-o", "a") and (runs.room / "gone").read_bytes() == FILES["canonical"]
    runs.holds("a chain of links that leads nowhere", right and (runs.room / "b").is_symlink())
    runs.link("b", "a")
    right = runs.answers(4, "error: a: write failed: ", "long", "-o", "a")
    runs.holds("a loop of links", right and (runs.room / "a").is_symlink() and (runs.room / "b").is_symlink())
    os.unlink(runs.room / "a")
    os.symlink(b"\xFF", os.fsencode(runs.room / "a"))
    right = runs.answers(4, "error: a: write failed: ", "long", "-o", "a")
    runs.holds("a link to a name that isn't UTF-8", right and (runs.room / "a").is_symlink())
    for name in ("a", "b", "gone"):
        (runs.room / name).unlink()
    (runs.room / "beside").mkdir(exist_ok=True)
    (runs.room / "beside/there").unlink(missing_ok=True)
    runs.link("beside/link", "there")
    runs.fresh()
    right = runs.answers(0, "", "long", "-o", "beside/link") and runs.there() == b"kept"
    runs.holds("a link in another folder is followed from there",
               right and (runs.room / "beside/there").read_bytes() == FILES["canonical"])


def try_read_only(runs):
    runs.fresh(0o444)
    message = "there: read-only file: use --force to replace it"
    runs.holds("a read-only file", runs.refuses(2, f"error: {message}", "long", "-o", "there"))
    right = runs.puts("long", "-o", "there", "--force")
    runs.holds("a read-only file, by force", right and (runs.room / "there").stat().st_mode & 0o777 == 0o444)
    runs.fresh()


def try_object_files(runs):
    """Object files are written to files only by force; without the sections of a linker, a module is none."""
    for name in (b"\x08\7linking", b"\x0B\x0Areloc.CODE"):
        (runs.room / "object").write_bytes(HEADER + b"\1\x81\0\0\0" + name)
        written, word = HEADER + b"\1\1\0\0" + name, name[2:].decode()
        runs.fresh()
        message = "error: object: object file: canonicalise after linking, or use --force\n"
        runs.holds(f"an object file with {word}", runs.refuses(2, message, "object", "-o", "there"))
        (runs.room / "there").write_bytes((runs.room / "object").read_bytes())
        right = runs.answers(2, "error: there: object file: ", "--in-place", "there")
        runs.holds(f"{word} in its place", right and runs.there() == (runs.room / "object").read_bytes())
        runs.fresh()
        right = runs.answers(0, "warning: object: custom sections ", "object", "-o", "there", "--force")
        runs.holds(f"{word}, by force", right and runs.there() == written)
        runs.fresh()
        right = runs.answers(0, "", "object", "-o", "there", "--strip-offsets")
        runs.holds(f"{word}, dropped", right and runs.there() == HEADER + b"\1\1\0")
        runs.run("object")
        runs.holds(f"{word} to standard output", runs.status == 0 and runs.out == written)
        right = runs.answers(NO, "error: object: not canonical: ", "--check", "object")
        runs.holds(f"{word}, checked", right and runs.answers(0, "", "--list", "object") and runs.out)
    (runs.room / "object").unlink()


def try_several(runs):
    for name in ("one", "two"):
        (runs.room / name).write_bytes(FILES["long"])
    (runs.room / "into").mkdir(exist_ok=True)
    right = runs.answers(1, "error: cut: ", "one", "cut", "two", "-o", "into")
    written = {file.name: file.read_bytes() for file in (runs.room / "into").iterdir()}
    runs.holds("a folder", right and written == {name: FILES["canonical"] for name in ("one", "two")})
    runs.holds("two of one name", runs.answers(2, "error: modules that go to a folder need names that differ", "one",
                                               "into/one", "-o", "into/"))
    runs.holds("standard input to a folder",
               runs.answers(2, "error: modules that go to a folder need names", "-o", "into"))
    runs.holds("no such folder", runs.answers(4, "error: gone/one: write failed: ", "one", "-o", "gone/"))
    runs.holds("several to one file",
               runs.answers(2, "error: several modules need -o FOLDER/", "one", "two", "-o", "there"))
    right = runs.answers(1, "error: cut: ", "--in-place", "one", "cut", "two")
    runs.holds("files in their places", right and all((runs.room / name).read_bytes() == FILES["canonical"]
                                                      for name in ("one", "two")))
    try_other_places(runs)
    runs.holds("several checks", runs.answers(NO, f"error: long: {NOT_CANONICAL}", "--check", "one", "long", "two"))
    runs.holds("several checks, one not read", runs.answers(4, "error: none: read failed: ", "--check", "none", "long"))
    runs.run("--report", "one", "long")
    right = runs.out.startswith(b"one:\n") and b"\nlong:\n" + REPORT in runs.out
    runs.holds("several reports", runs.status == 0 and right)
    for words in (["--in-place"], ["--in-place", "-"], ["one", "two"], ["--check", "-", "-"], ["--diff", "-", "-"],
                  ["--diff", "one"], ["--diff", "one", "two", "one"], ["--in-place", "one", "-o", "two"],
                  ["--keep", "a", "one"], ["--no-custom", "one"]):
        runs.holds(" ".join(words), runs.answers(2, "error: ", *words) and "\nUsage: wasmcanon " in runs.err)


def try_other_places(runs):
    """A pipe as an input and output, and the folder of an input as that of the output."""
    os.mkfifo(runs.room / "pipe")
    right = runs.answers(2, "error: pipe: not a regular file: --in-place replaces files\n", "--in-place", "pipe")
    runs.holds("a pipe in its place", right and (runs.room / "pipe").is_fifo())
    (runs.room / "pipe").unlink()
    (runs.room / "one").write_bytes(FILES["long"])
    right = runs.answers(2, "error: ./one: also an input: use --in-place", "one", "-o", ".")
    runs.holds("the folder of an input", right and (runs.room / "one").read_bytes() == FILES["long"])
    right = runs.answers(0, "", "one", "-o", ".", "--force")
    runs.holds("the folder of an input, by force", right and (runs.room / "one").read_bytes() == FILES["canonical"])


def try_names_not_text(runs):
    """Names of files that aren't UTF-8, which can't be opened. The other files are done."""
    name = b"bad\xFFname"
    (runs.room / "one").write_bytes(FILES["long"])
    (runs.room / os.fsdecode(name)).write_bytes(FILES["long"])
    message = "error: bad\\xFFname: read failed: file name is not UTF-8\n"
    right = runs.answers(4, message, "--in-place", name, "one") and runs.err == message
    runs.holds("a name that isn't UTF-8", right and (runs.room / "one").read_bytes() == FILES["canonical"])
    for words in (["--check"], ["--hash"], ["--list"], ["--report"], ["--diff", "one"], ["-o", "there"]):
        runs.fresh()
        right = runs.refuses(4, message, *words, name) and runs.err == message
        runs.holds(f"a name that isn't UTF-8, {' '.join(words)}", right)
    right = runs.answers(0, "", "--check", "one") and runs.answers(4, message, "--check", "--json", name, "one")
    told = [it["file"] for it in json.loads(runs.out)] if right else []
    runs.holds("a name that isn't UTF-8 as JSON", told == ["bad\\xFFname", "one"])
    for words in (["-o", name], ["--strip", name], [b"--strip=" + name], [b"--" + name]):
        right = runs.answers(2, "error: invalid argument: expected UTF-8\n", "one", *words)
        runs.holds(f"an option that isn't UTF-8, {words[0]}", right and not runs.out)
    (runs.room / os.fsdecode(name)).unlink()
