"""Loads scripts, whose names end in no `.py`, as modules."""

from __future__ import annotations

import importlib.machinery
import importlib.util
import pathlib
import sys
from types import ModuleType


def loaded(script: pathlib.Path) -> ModuleType:
    """A script as a module with its name."""
    loader = importlib.machinery.SourceFileLoader(script.name, str(script))
    spec = importlib.util.spec_from_loader(loader.name, loader)
    assert spec is not None
    module = importlib.util.module_from_spec(spec)
    sys.modules[loader.name] = module  # for dataclasses with postponed annotations
    loader.exec_module(module)
    return module
