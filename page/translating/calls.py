"""The functions of an object by their prototypes in C, for a file that calls them as the object's own language does."""

from __future__ import annotations

import re
from collections.abc import Iterator
from dataclasses import dataclass

from translating.module import Unit
from translating.refusal import Refused

# a prototype, as bindings/proved.h has them: what precedes it, the type of its result, its name, and its parameters
PROTOTYPE = r"^(RIDDLESAGE_INTERNAL (uint8_t|void) (\w+)\(([^;]*)\));"


@dataclass(frozen=True)
class Call:
    """A function by its prototype."""

    head: str
    result: str
    name: str
    parameters: tuple[str, ...]

    def names(self) -> list[str]:
        """The names of its parameters."""
        return [re.findall(r"\w+", parameter)[-1] for parameter in self.parameters]

    def values(self) -> list[str]:
        """Its parameters as values of 64 bits, in C; an address by its number."""
        pairs = zip(self.names(), self.parameters)
        return [f"ADDRESS({name})" if "*" in parameter else name for name, parameter in pairs]


def calls_of(text: str, prefix: str) -> list[Call]:
    """The functions whose names begin with the prefix, by their prototypes in a text."""
    found = []
    for head, result, name, parameters in re.findall(PROTOTYPE, text, re.M):
        if name.startswith(prefix):
            found.append(Call(re.sub(r"\s+", " ", head), result, name, tuple(parameters.split(","))))
    if not found:
        raise Refused(f"there are no prototypes of functions {prefix}..")
    return found


def without(text: str, known: str) -> str:
    """A text without those of its prototypes whose functions another text has."""
    names = {name for _, _, name, _ in re.findall(PROTOTYPE, known, re.M)}
    return re.sub(PROTOTYPE, lambda it: "" if it[3] in names else it[0], text, flags=re.M)


def definitions(path: str, prefix: str, calls: list[Call]) -> Iterator[str]:
    """What these functions need of the object in a file, in C; names of the object begin with the prefix."""
    unit = Unit(path, prefix, {call.name: call.result != "void" for call in calls})
    yield from unit.text()
    for call in calls:
        value = unit.call(call.name, call.values())
        yield f"{call.head}"
        yield "{"
        yield from (f"  (void){name};" for name in call.names() if not re.search(rf"\b{name}\b", value))
        yield f"  {value};" if call.result == "void" else f"  return ({call.result}){value};"
        yield "}"
