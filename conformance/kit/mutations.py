"""Mutations of a controller: named changes of an adapter's sources.

A file of mutations has blocks, separated by blank lines:

    mutation suspend-7
    what suspend transmission of seven bits
    family suspend
    shows levels
    - can->place == 8
    + can->place == 7

The lines after `-` must occur exactly once in all sources, in this order, whatever their indentation. Those after `+`
replace them. A mutation may have several such changes. `family` must detect it, and `shows` says by what: `levels`,
`events`, `counters` or `nothing`.
"""

from __future__ import annotations

from dataclasses import dataclass, field

SHOWS = ("levels", "events", "counters", "nothing")


@dataclass
class Mutation:
    """One change of a correct controller."""

    name: str
    source: str
    what: str = ""
    family: str = ""
    shows: str = ""
    changes: list[tuple[list[str], list[str]]] = field(default_factory=list)

    def applied(self, texts: dict[str, str]) -> dict[str, str]:
        """The sources, by path, with the mutation. Raises ValueError if an old text does not occur exactly once."""
        sources = {path: text.split("\n") for path, text in texts.items()}
        for old, new in self.changes:
            found = [(path, at) for path, lines in sources.items() for at in _places(lines, old)]
            if len(found) != 1:
                raise ValueError(f"{self.name}: {old[0]!r} occurs {len(found)} times")
            path, at = found[0]
            sources[path][at : at + len(old)] = new
        return {path: "\n".join(lines) for path, lines in sources.items()}


def _places(lines: list[str], wanted: list[str]) -> list[int]:
    """Where these lines occur in this order, whatever their indentation."""
    stripped = [line.strip() for line in lines]
    return [at for at in range(len(lines)) if stripped[at : at + len(wanted)] == wanted]


def _take(mutation: Mutation, line: str, was_new: bool) -> bool:
    """Takes a line of a block. Returns whether it was a line with `+`."""
    word, _, rest = line.partition(" ")
    if word == "-":
        if was_new or not mutation.changes:
            mutation.changes.append(([], []))
        mutation.changes[-1][0].append(rest.strip())
    elif word == "+":
        mutation.changes[-1][1].append(rest)
    elif word in ("what", "family", "shows"):
        setattr(mutation, word, rest)
    else:
        raise ValueError(f"{mutation.name}: not a line of a mutation: {line!r}")
    return word == "+"


def read_mutations(text: str, source: str) -> list[Mutation]:
    """The mutations of a file, all of one source."""
    mutations: list[Mutation] = []
    was_new = False
    for line in text.split("\n"):
        if not line.strip() or line.startswith("#"):
            continue
        if line.startswith("mutation "):
            mutations.append(Mutation(line.split(" ", 1)[1], source))
            was_new = False
        else:
            was_new = _take(mutations[-1], line, was_new)
    for mutation in mutations:
        if not (mutation.what and mutation.family and mutation.changes) or mutation.shows not in SHOWS:
            raise ValueError(f"{mutation.name}: `what`, `family`, `shows` or a change is missing")
    if len({mutation.name for mutation in mutations}) < len(mutations):
        raise ValueError("two mutations have the same name")
    return mutations
