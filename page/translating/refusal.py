"""The error that ends a translation."""

from __future__ import annotations


class Refused(Exception):
    """Something in the object that is not known here; the text names it and its place."""
