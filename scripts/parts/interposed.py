"""Programs that `rt ci` left, run with C that intercepts some calls of the C library.

The loader is given this C first (LD_PRELOAD), so what runs is the very program that the gate proved and linked.
"""
import os
import pathlib

from parts.common import CannotRun, kit, program, run


class Interposed:
    """A program or the tests of a crate, behind a C file of this folder."""

    def __init__(self, name, code, room):
        """Compiles the C file to a library in `room`. Fails with `CannotRun` if the program isn't built."""
        crate = name[:-len("_tests")] if name.endswith("_tests") else name
        self.path = program(crate).with_name(name)
        if not self.path.is_file():
            raise CannotRun(f"{self.path} not found: rt ci builds it")
        self.library = room / f"{name}.so"
        words = [kit() / "toolchain/bin/clang", "-O1", "-shared", "-fPIC", "-fuse-ld=lld", "-o", self.library]
        run(*words, pathlib.Path(__file__).with_name(code), stderr=None, check=True)

    def run(self, *words, numbers, **how):
        """Runs the program. The C file reads the numbers from the environment."""
        told = {name.upper(): str(number) for name, number in numbers.items()}
        environment = {"PATH": os.environ["PATH"], "LD_PRELOAD": str(self.library), **told}
        return run(self.path, *words, env=environment, timeout=120, **how)
