"""The programs of a release, and their help texts. This is the only list of the programs."""

from __future__ import annotations

import pathlib
import re
from collections.abc import Iterator
from typing import NamedTuple

from making.tree import output

# The name of each program's crate, and the documents that its man page names.
PROGRAMS = {
    "canbit": {"FORMATS": "the formats", "CODES": "every code that is printed"},
    "canhold": {"CONFORMANCE": "cases, transcripts and verdicts"},
    "canplan": {"PLANNING": "networks: documents and outputs", "CODES": "every code that is printed"},
    "cangates": {"CIRCUIT": "the circuit, its files and their proofs", "CODES": "every code that is printed"},
}
_COMMAND = re.compile(r"  (\w[\w-]*) +(\S.*)")


class Help(NamedTuple):
    """A help text: its first line, the words of each usage line, and its other paragraphs."""

    summary: str
    usage: list[list[str]]
    paragraphs: list[list[str]]

    def block(self, head: str) -> list[str] | None:
        """The paragraph whose first line begins with `head`."""
        return next((it for it in self.paragraphs if it[0].startswith(head)), None)

    def others(self, *heads: str) -> Iterator[list[str]]:
        """The paragraphs whose first lines begin with none of these."""
        return (it for it in self.paragraphs if not it[0].startswith(heads))


class Program(NamedTuple):
    """A program, its help text, and its commands: the effect of each, and its own help if it has one."""

    name: str
    help: Help
    commands: dict[str, str]
    helps: dict[str, Help]

    @property
    def options(self) -> dict[str, bool]:
        """The options without a command, except help, and whether each has an argument."""
        calls = (it for it in self.help.usage if it and it[0].startswith("--") and it != ["--help"])
        return {call[0]: len(call) > 1 for call in calls}


def _read(text: str) -> Help:
    summary, *paragraphs = (it.splitlines() for it in re.split(r"\n\n+", text.strip("\n")))
    (usage,) = (it for it in paragraphs if it[0].startswith("Usage: "))
    calls = [it.removeprefix("Usage: ").split()[1:] for it in usage]
    return Help(summary[0], calls, [it for it in paragraphs if it is not usage])


def program(path: pathlib.Path) -> Program:
    """The help texts of the program at this path."""
    whole = output(path, "--help")
    text = _read(whole)
    lines = (text.block("Commands:") or ["Commands:"])[1:]
    commands = {it[1]: it[2] for it in map(_COMMAND.fullmatch, lines) if it}
    helps = {it: output(path, it, "--help") for it in commands if it != "help"}
    return Program(path.name, text, commands, {it: _read(own) for it, own in helps.items() if own != whole})
