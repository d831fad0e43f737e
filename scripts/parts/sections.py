"""Lines of each section are as scripts/sections writes them."""
from documentation.sections import Made


def run(report):
    made = Made()
    faults = made.faults + [(name, "not as scripts/sections writes it") for name in made.differing]
    for name, why in faults:
        report.failed(name, why)
    report.passed("files", len(made.texts.keys() - {name for name, _ in faults}))
