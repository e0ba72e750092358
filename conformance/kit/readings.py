"""Controllers that chose otherwise where the standard leaves a choice: a case that one fails needs the word.

mutations/choices.txt names these mutants of the controller in C, in lines `choice WORD: NAME..`, and has those that
mutations/controller.txt lacks.
"""

from __future__ import annotations

import concurrent.futures
import os
import tempfile
from dataclasses import dataclass

from .choices import FURTHER, outcomes
from .documents import CHOICES, Case, Transcript
from .models import controller
from .mutations import Mutation, read_mutations
from .trying import played, script

_MUTATIONS = os.path.join(os.path.dirname(os.path.dirname(os.path.realpath(__file__))), "mutations")
_HEAD = """\
# Further words of choices: what a controller shows that chose otherwise, and in which cases of the standard set.
# Made by `conformance/mutants --choices --write`.
"""


@dataclass(frozen=True)
class Failed:
    """A case that such a controller fails, and what a run may print."""

    word: str
    mutation: str
    case: Case
    outcomes: list[str]


def _read(name: str) -> str:
    with open(os.path.join(_MUTATIONS, name), encoding="utf-8") as file:
        return file.read()


def readings() -> list[tuple[str, Mutation]]:
    """The words, each with a controller that chose otherwise. Raises KeyError for a name that is no mutation."""
    lines = _read("choices.txt").split("\n")
    mutations = read_mutations(_read("controller.txt"), "controller")
    mutations += read_mutations("\n".join(line for line in lines if not line.startswith("choice ")), "controller")
    named = {mutation.name: mutation for mutation in mutations}
    heads = [line[len("choice ") :].partition(": ") for line in lines if line.startswith("choice ")]
    return [(word, named[name]) for word, _, names in heads for name in names.split()]


def failed(cases: list[Case], jobs: int) -> list[Failed]:
    """The cases that these controllers fail."""
    text = script(cases)
    found: list[Failed] = []
    with tempfile.TemporaryDirectory(prefix="choices-") as kept:
        model = controller()
        model.keep_objects(kept)

        def transcripts(mutation: Mutation | None = None) -> list[Transcript]:
            with tempfile.TemporaryDirectory(prefix="choice-") as folder:
                return played(model.build(folder, mutation), cases, text)

        expected = transcripts()
        with concurrent.futures.ThreadPoolExecutor(jobs) as pool:
            pending = [(word, one.name, pool.submit(transcripts, one)) for word, one in readings()]
            for word, name, future in pending:
                each = zip(cases, future.result(), expected)
                found += [Failed(word, name, case, outcomes(given, right)) for case, given, right in each]
    return [one for one in found if one.outcomes]


def document_faults(cases: list[Case], found: list[Failed]) -> list[str]:
    """What is wrong with the words in these cases: each has the words of the choices that fail it, and no other."""
    failing = {(one.word, one.case.name): one.mutation for one in found if one.word in CHOICES}
    has = {(word, case.name): "" for case in cases for word in case.choices}
    missing = [f"{key[1]} lacks the choice {key[0]}: {by} fails it" for key, by in failing.items() if key not in has]
    needless = [key for key in has if key not in failing]
    return missing + [f"{name} has the choice {word}, but no other reading fails it" for word, name in needless]


def further(found: list[Failed]) -> str:
    """The text of kit/choices.txt."""
    cases: dict[str, list[str]] = {}
    for one in found:
        for what in one.outcomes if one.word not in CHOICES else []:
            cases.setdefault(f"{one.word}, {what}", []).append(one.case.name)
    return _HEAD + "".join(f"\n{head}: {' '.join(dict.fromkeys(names))}\n" for head, names in cases.items())


def word_faults(cases: list[Case], found: list[Failed]) -> list[str]:
    """What is wrong with the words in these cases and in kit/choices.txt; controllers that no case fails."""
    with open(FURTHER, encoding="ascii") as file:
        stale = file.read() != further(found)
    idle = sorted({mutation.name for _, mutation in readings()} - {one.mutation for one in found})
    return [
        *document_faults(cases, found),
        *(["kit/choices.txt is out of date: conformance/mutants --choices --write"] if stale else []),
        *(f"no case fails {name}" for name in idle),
    ]
