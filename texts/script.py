"""The script `try` beside this file as a module, `shared`, for the scripts that use parts of it."""
import importlib.machinery
import importlib.util
import os
import sys

HERE = os.path.dirname(os.path.abspath(__file__))


def loaded(path):
    """Returns a script as a module."""
    sys.dont_write_bytecode = True
    loader = importlib.machinery.SourceFileLoader("shared", path)
    module = importlib.util.module_from_spec(importlib.util.spec_from_loader("shared", loader))
    loader.exec_module(module)
    return module


shared = loaded(f"{HERE}/try")
