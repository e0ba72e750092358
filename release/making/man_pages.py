"""Man pages in mdoc, from the help texts of the programs."""

from __future__ import annotations

import time
from collections.abc import Iterator

from making.programs import PROGRAMS, Help, Program

_SIGNS = {"\\": r"\e", "-": r"\-", "`": r"\(ga", "'": r"\(aq", "^": r"\(ha", "~": r"\(ti", '"': r"\(dq"}


def _plain(line: str) -> str:
    """The line, escaped."""
    text = "".join(_SIGNS.get(it, it) for it in line)
    return rf"\&{text}" if text.startswith(".") else text


def _as_is(paragraphs: Iterator[list[str]]) -> Iterator[str]:
    """Paragraphs unchanged from the help text, with their columns."""
    lines = [line for it in paragraphs for line in ["", *it]][1:]
    if lines:
        yield from [".Bd -literal", *map(_plain, lines), ".Ed"]


def _status(text: Help) -> Iterator[str]:
    block = text.block("Exit status:")
    if block:
        yield ".Sh EXIT STATUS"
        first = block[0][len("Exit status:") :].strip()
        yield from _as_is(iter([[first] * bool(first) + block[1:]]))


def _commands(described: Program) -> Iterator[str]:
    for name, text in described.helps.items():
        yield from [f".Sh {name.upper()}", f"{_plain(text.summary)}."]
        yield from _as_is(text.others("Options:"))


def _see_also(described: Program) -> Iterator[str]:
    others = sorted(PROGRAMS.keys() - {described.name})
    yield ".Sh SEE ALSO"
    yield from (f".Xr {it} 1{' ,' * (it != others[-1])}" for it in others)
    for document, what in PROGRAMS[described.name].items():
        yield from [".Pp", f".Pa share/doc/riddlesage/docs/{document}.md", f"has {what}."]


def page(described: Program, version: str, seconds: int) -> str:
    """The man page of a program, with this version and date."""
    day = time.gmtime(seconds)
    summary = described.help.summary
    lines = [
        f".Dd {time.strftime('%B', day)} {day.tm_mday}, {day.tm_year}",
        f".Dt {described.name.upper()} 1",
        f".Os riddlesage {version}",
        ".Sh NAME",
        f".Nm {described.name}",
        f".Nd {_plain(summary[0].lower() + summary[1:])}",
        ".Sh SYNOPSIS",
        *(line for call in described.help.usage for line in [".Nm", *map(_word, call)]),
        ".Sh DESCRIPTION",
        *_as_is(described.help.others("Exit status:", "Options:")),
        *_commands(described),
        *_status(described.help),
        *_see_also(described),
    ]
    return "\n".join(lines) + "\n"


def _word(word: str) -> str:
    """A word of a synopsis: a placeholder or an option."""
    if word.startswith("["):
        return f".Op Fl {_plain(word.strip('[]')[1:])}"
    if word.startswith("-"):
        return f".Fl {_plain(word[1:])}"
    return f".Ar {word.strip('<>').lower()}"
