#!/usr/bin/env python3
"""bench/runs.py SECTIONS COMMAND..: runs commands in turn on linked code, and prints the least of 21 runs.

The least depends least on what else the machine does. The input is the section of linked_code.wasm, so many times: 0
for an empty module, 8 for 16 MB, 23 for 46 MB. Each COMMAND is one argument, such as "bin/wasmnorm module". Assignments
such as "NAME=value" may precede it. Needs rustc.
"""
import os
import subprocess
import sys
import tempfile
from pathlib import Path

HERE = Path(__file__).parent
RUNS = 21
HEADER = 8


def measured(measure, command, module):
    """Runs a command: its processor time in microseconds, peak memory in bytes, page faults, microseconds in all."""
    environment, words = dict(os.environ), command.split()
    while "=" in words[0]:
        name, value = words.pop(0).split("=", 1)
        environment[name] = value
    with module.open("rb") as data:
        ran = subprocess.run([measure, *words], stdin=data, env=environment, stdout=subprocess.PIPE, check=True)
    return [int(number) for number in ran.stdout.split()]


def main(sections, *commands):
    with tempfile.TemporaryDirectory() as folder:
        measure, module = Path(folder, "measure"), Path(folder, "module")
        subprocess.run(["rustc", "-C", "opt-level=3", "-o", measure, HERE / "measure.rs"], check=True)
        linked = (HERE / "linked_code.wasm").read_bytes()
        module.write_bytes(linked[:HEADER] + linked[HEADER:] * int(sections))
        runs = [[measured(measure, command, module) for command in commands] for _ in range(RUNS)]
        print(f"{'time, ms':>9} {'processor':>10} {'faults':>7} {'peak, MB':>9}  {module.stat().st_size} bytes")
    for command, figures in zip(commands, zip(*runs)):
        processor, peak, faults, elapsed = map(min, zip(*figures))
        print(f"{elapsed / 1000:9.2f} {processor / 1000:10.2f} {faults:7} {peak / 1e6:9.2f}  {command}")


if len(sys.argv) < 3:
    sys.exit(__doc__)
main(*sys.argv[1:])
