"""The families, in the order of the README. Each is registered when its module is imported."""

import importlib

from generator.book import ABOUT, FAMILIES

__all__ = ["ABOUT", "FAMILIES"]

for _name in ("received", "sent", "arbitration", "flags", "overload", "passive", "off", "counts"):
    importlib.import_module(f"generator.families.{_name}")
