"""The register of families: the function that makes the cases of each, and the cases made."""

from __future__ import annotations

import contextlib
from typing import Callable, Iterator, Sequence, TypeVar

from kit.adapter import Adapter
from kit.documents import Case, Transcript

from generator.scene import Scene

Maker = Callable[["Book"], None]
Row = TypeVar("Row")
FAMILIES: dict[str, Maker] = {}
ABOUT: dict[str, str] = {}


def family(name: str, about: str) -> Callable[[Maker], Maker]:
    """Registers the maker of a family, with one line on how its levels are made."""

    def enter(maker: Maker) -> Maker:
        FAMILIES[name] = maker
        ABOUT[name] = about
        return maker

    return enter


class Book:
    """The cases of one family, in the order in which they are made. The long set has more of a kind."""

    def __init__(self, name: str, reference: Adapter, is_long: bool = False) -> None:
        self.name = name
        self.is_long = is_long
        self.cases: list[Case] = []
        self.transcripts: list[Transcript] = []
        self._reference = reference

    def rows(self, standard: Sequence[Row], more: Sequence[Row]) -> list[Row]:
        """The rows from which cases are made: those of the standard set, and more in the long set."""
        return [*standard, *(more if self.is_long else ())]

    @contextlib.contextmanager
    def case(self, suffix: str, purpose: str, choices: Sequence[str] = (), start: str = "idle") -> Iterator[Scene]:
        """A case to be filled by the tester's steps."""
        scene = Scene(self._reference, self.name, suffix, purpose, start)
        yield scene
        case, transcript = scene.finished(choices)
        self.cases.append(case)
        self.transcripts.append(transcript)
