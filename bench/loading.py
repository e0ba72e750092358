"""Loads benchmarks as modules, so that others can use what they generate, build and compare."""

from __future__ import annotations

import importlib.machinery
import importlib.util
import os
from types import ModuleType

BENCH = os.path.dirname(os.path.realpath(__file__))


def bench(name: str) -> ModuleType:
    """The benchmark of this name, as a module."""
    loader = importlib.machinery.SourceFileLoader(f"bench_{name}", os.path.join(BENCH, name))
    spec = importlib.util.spec_from_loader(loader.name, loader)
    if spec is None:
        raise ImportError(name)
    module = importlib.util.module_from_spec(spec)
    loader.exec_module(module)
    return module
