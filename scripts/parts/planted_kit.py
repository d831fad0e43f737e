"""The kit's command rt as a module: how it reads edits, calls the checker and shares out processors and memory."""
import functools
import importlib.machinery
import importlib.util
import pathlib
import shutil


class Fault(Exception):
    """A reason not to try any edit."""


@functools.lru_cache(maxsize=None)
def kit():
    command = shutil.which("rt")
    if not command:
        raise Fault("the kit's command rt isn't on the PATH")
    loader = importlib.machinery.SourceFileLoader("rt", str(pathlib.Path(command).resolve()))
    module = importlib.util.module_from_spec(importlib.util.spec_from_loader("rt", loader))
    loader.exec_module(module)
    return module
