"""The parts of the gate: each module has a function `run(report)` or `run(report, words)` that makes checks."""
