"""docs/api and docs/PROMISES.md are as scripts/api writes them, and public items are documented."""
from documentation.checks import differing, made, missing
from documentation.interface import Interface


def run(report):
    interface = Interface()
    files = made(interface)
    faults = differing(files) + missing(interface)
    for place, why in faults:
        report.failed(place, why)
    report.passed("pages and items", max(len(files) + len(interface.entries) - len(faults), 0))
