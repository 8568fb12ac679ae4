"""What the checks share: the folders of the repository, the program and a run of it, and scripts as modules."""
import importlib.machinery
import importlib.util
import os
import sys

sys.dont_write_bytecode = True
CHECKS = os.path.dirname(os.path.abspath(__file__))
TOP = os.path.dirname(CHECKS)
EXAMPLES = os.path.join(TOP, "examples")
TOOLS = os.path.join(TOP, "tools")
sys.path.insert(0, TOOLS)
from arena import FormatError  # noqa: E402,F401
from program import (  # noqa: E402,F401
    PROGRAM, SECONDS, at_most_numbers, begin, files, folders, is_number, lacking, misused, no_words, perform, run, shown,
    unreadable,
)


def changes_and_seed(words):
    """Words are how often a check changes what it has, and a seed; one that tries nothing may not pass."""
    why = at_most_numbers(2)(words)
    return why or ("of 0 changes nothing can be said" if words and int(words[0]) == 0 else None)


def script(folder, name):
    """A script, whose name has no `.py`, as a module."""
    loader = importlib.machinery.SourceFileLoader(name, os.path.join(folder, name))
    module = importlib.util.module_from_spec(importlib.util.spec_from_loader(name, loader))
    sys.modules[name] = module
    loader.exec_module(module)
    return module
