#!/usr/bin/env python3
"""Stands for the kit's rattle in a timed run of `rt ci`: runs it, and adds a line to the file that RATTLE_TIMES names.

A line has the crate, the kind of the call, and the elapsed and processor seconds.
"""
import json
import os
import resource
import subprocess
import sys
import time


def kind_of(words):
    """The kind of a call: a proof, that of tests, or the compilation of what was proved."""
    if "--crate-checked" in words:
        return "compile"
    return "tests" if "--test" in words else "proof"


def main():
    words, began = sys.argv[1:], time.monotonic()
    status = subprocess.run([os.environ["RATTLE"], *words]).returncode
    if words[:1] in (["check"], ["build"]) and "--crate-name" in words:
        use = resource.getrusage(resource.RUSAGE_CHILDREN)
        call = {"crate": words[words.index("--crate-name") + 1], "kind": kind_of(words),
                "elapsed": time.monotonic() - began, "processor": use.ru_utime + use.ru_stime}
        with open(os.environ["RATTLE_TIMES"], "a", encoding="utf-8") as file:
            file.write(json.dumps(call) + "\n")
    if status < 0:
        os.kill(os.getpid(), -status)
    return status


sys.exit(main())
