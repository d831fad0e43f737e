"""Tables of opcodes and documentation of methods are as scripts/opcodes writes them; vectors have their opcodes."""
from documentation.methods import Made, differing_vectors


def run(report):
    made = Made()
    faults = made.faults + [(name, "not as scripts/opcodes writes it") for name in made.differing]
    faults += [(name, "no vector of the opcode that its row has") for name in differing_vectors(made.rows)]
    for name, why in faults:
        report.failed(name, why)
    right = made.rows.keys() - {name for name, _ in faults}
    report.passed("methods", len(right))
