"""Commands as modules, for their tests: a file whose name has no .py cannot be imported."""

import contextlib
import importlib.util
import io
import pathlib
from importlib.machinery import SourceFileLoader

TOP = pathlib.Path(__file__).resolve().parent.parent


def command(path):
    """The module of a command, by its path from the repository's top."""
    loader = SourceFileLoader(pathlib.PurePath(path).name.replace("-", "_"), str(TOP / path))
    module = importlib.util.module_from_spec(importlib.util.spec_from_loader(loader.name, loader))
    loader.exec_module(module)
    return module


def printed(function, *arguments):
    """What a function returns, and what it prints."""
    with contextlib.redirect_stdout(io.StringIO()) as output:
        result = function(*arguments)
    return result, output.getvalue()
