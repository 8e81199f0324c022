"""Scripts whose names don't end with .py, as modules."""
import importlib.machinery
import importlib.util
import pathlib

TOP = pathlib.Path(__file__).resolve().parents[1]


def script_of(name, folder="tests/run"):
    """The script of this name, a check or one of another folder."""
    loader = importlib.machinery.SourceFileLoader(name.replace("-", "_"), str(TOP / folder / name))
    module = importlib.util.module_from_spec(importlib.util.spec_from_loader(loader.name, loader))
    loader.exec_module(module)
    return module
