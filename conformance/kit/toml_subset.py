"""Reads the part of TOML that kit documents use, for Python before 3.11.

This part has arrays of tables, and keys with strings, whole numbers and arrays of them.
"""

from __future__ import annotations

import re
from typing import Any

_SPACE = re.compile(r"(?:[ \t\r\n]|#[^\n]*)*")
_HEADER = re.compile(r"\[\[[ \t]*([A-Za-z0-9_-]+)[ \t]*\]\]")
_KEY = re.compile(r"([A-Za-z0-9_-]+)[ \t]*=[ \t]*")
_LINE_END = re.compile(r"[ \t]*(?:#[^\n]*)?\r?(?:\n|$)")
_BASIC = re.compile(r'"((?:[^"\\\n]|\\["\\bfnrt])*)"')
_LITERAL = re.compile(r"'([^'\n]*)'")
_NUMBER = re.compile(r"[+-]?(?:0|[1-9][0-9]*)")
_ESCAPE = re.compile(r"\\(.)")
_ESCAPES = {'"': '"', "\\": "\\", "b": "\b", "f": "\f", "n": "\n", "r": "\r", "t": "\t"}


def loads(text: str) -> dict[str, Any]:
    """The document as a dictionary. Raises ValueError if the text is none."""
    document: dict[str, Any] = {}
    table = document
    at = _skip(text, 0)
    while at < len(text):
        header = _HEADER.match(text, at)
        if header is not None:
            table = {}
            document.setdefault(header.group(1), []).append(table)
            at = _end_line(text, header.end())
        else:
            at = _read_pair(text, at, table)
        at = _skip(text, at)
    return document


def _skip(text: str, at: int) -> int:
    space = _SPACE.match(text, at)
    return space.end() if space else at


def _end_line(text: str, at: int) -> int:
    end = _LINE_END.match(text, at)
    if end is None:
        raise ValueError(f"expected the end of the line after a value, at {at}")
    return end.end()


def _read_pair(text: str, at: int, table: dict[str, Any]) -> int:
    key = _KEY.match(text, at)
    if key is None or key.group(1) in table:
        raise ValueError(f"expected a new key at {at}")
    table[key.group(1)], at = _read_value(text, key.end())
    return _end_line(text, at)


def _read_value(text: str, at: int) -> tuple[Any, int]:
    if text.startswith("[", at):
        return _read_array(text, at + 1)
    basic = _BASIC.match(text, at)
    if basic is not None:
        return _ESCAPE.sub(lambda it: _ESCAPES[it.group(1)], basic.group(1)), basic.end()
    literal = _LITERAL.match(text, at)
    if literal is not None:
        return literal.group(1), literal.end()
    number = _NUMBER.match(text, at)
    if number is not None:
        return int(number.group()), number.end()
    raise ValueError(f"expected a value at {at}")


def _read_array(text: str, at: int) -> tuple[list[Any], int]:
    values: list[Any] = []
    at = _skip(text, at)
    while not text.startswith("]", at):
        value, at = _read_value(text, at)
        values.append(value)
        at = _skip(text, at)
        if text.startswith(",", at):
            at = _skip(text, at + 1)
        elif not text.startswith("]", at):
            raise ValueError(f"expected the end of an array at {at}")
    return values, at + 1
