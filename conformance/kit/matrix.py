"""Which case detects which mutation: the results of `conformance/mutants` as text and figures."""

from __future__ import annotations

from collections import Counter
from dataclasses import dataclass

from .comparing import COUNTERS, END, EVENT, LEVEL, differences
from .documents import Case, Transcript
from .mutations import Mutation

KINDS = {LEVEL: "levels", EVENT: "events", COUNTERS: "counters", END: "counters"}


@dataclass
class Caught:
    """The cases that detect a mutation, by what differs in them: levels, events or counters."""

    mutation: Mutation
    cases: dict[str, list[Case]]

    def shows(self) -> str:
        """The first of levels, events and counters in which some case differs."""
        return _first_kind(self.cases)

    def names(self) -> list[str]:
        """The cases that detect it by the means that its file names."""
        return [case.name for case in self.cases.get(self.mutation.shows, [])]

    def families(self) -> list[str]:
        """The families of these cases."""
        return sorted({case.family for case in self.cases.get(self.mutation.shows, [])})

    def fault(self) -> str:
        """Why the mutation is not detected in the way that its file says; empty if it is."""
        if self.shows() != self.mutation.shows:
            return f"{self.mutation.name} shows in {self.shows()}, not in {self.mutation.shows}"
        if self.mutation.shows != "nothing" and self.mutation.family not in self.families():
            return f"{self.mutation.name} is not detected by {self.mutation.family}"
        return ""


def _by_kind(cases: list[Case], given: list[Transcript], expected: list[Transcript]) -> dict[str, list[Case]]:
    by_kind: dict[str, list[Case]] = {"levels": [], "events": [], "counters": []}
    for case, one, other in zip(cases, given, expected):
        for kind in {KINDS[difference[1]] for difference in differences(one, other)}:
            by_kind[kind].append(case)
    return by_kind


def _first_kind(by_kind: dict[str, list[Case]]) -> str:
    return next((kind for kind in ("levels", "events", "counters") if by_kind[kind]), "nothing")


def shown_by(cases: list[Case], given: list[Transcript], expected: list[Transcript]) -> str:
    """The first of levels, events and counters in which a model differs in some case, or `nothing`."""
    return _first_kind(_by_kind(cases, given, expected))


def caught_by(mutation: Mutation, cases: list[Case], given: list[Transcript], expected: list[Transcript]) -> Caught:
    """The cases that detect a mutation, from the transcripts of the model with it and without it."""
    return Caught(mutation, _by_kind(cases, given, expected))


def cover(caught: list[Caught]) -> list[str]:
    """Cases that together detect all mutations. Each one chosen detects the most of those that are left."""
    left: list[set[str]] = [set(one.names()) for one in caught if one.names()]
    chosen: list[str] = []
    while left:
        counts = Counter(name for names in left for name in sorted(names))
        most = max(counts.values())
        chosen.append(min(name for name, count in counts.items() if count == most))
        left = [names for names in left if chosen[-1] not in names]
    return chosen


def count_lines(caught: list[Caught], cases: list[Case]) -> list[str]:
    """What is detected, in figures."""
    shown = Counter(one.mutation.shows for one in caught)
    alone = {one.names()[0] for one in caught if len(one.names()) == 1}
    return [
        f"{len(caught)} mutations and {len(cases)} cases: driven levels detect {shown['levels']}, "
        f"{shown['events']} need events, {shown['counters']} need counters, {shown['nothing']} not detected",
        f"{len(cover(caught))} cases together would detect all; {len(alone)} cases each detect one that no other does",
    ]


def idle_cases(caught: list[Caught], cases: list[Case]) -> list[str]:
    """Cases that detect no mutation at all."""
    detecting = {name for one in caught for name in one.names()}
    return [case.name for case in cases if case.name not in detecting]


def reason_faults(reasons: dict[str, str], caught: list[Caught], cases: list[Case]) -> list[str]:
    """A family needs a reason if one of its cases is not the only one to detect some mutation; no other has one."""
    alone = {one.names()[0] for one in caught if len(one.names()) == 1}
    wanting = {case.family for case in cases if case.name not in alone}
    faults = [f"no reason is given for the cases of {name}" for name in sorted(wanting - set(reasons))]
    return faults + [f"a reason is given for {name}, which needs none" for name in sorted(set(reasons) - wanting)]


def matrix(caught: list[Caught], cases: list[Case]) -> str:
    """The whole matrix as text."""
    lines = ["# Which case detects which mutation. Made by `conformance/mutants --write`."]
    lines += [f"# {line}." for line in count_lines(caught, cases)]
    lines += [
        "",
        "# Each mutation: the mutated model, what differs, the number of cases and families that detect it, the cases.",
    ]
    detects: dict[str, list[str]] = {case.name: [] for case in cases}
    alone: Counter[str] = Counter()
    for one in caught:
        names = one.names()
        head = f"{one.mutation.name} ({one.mutation.source}, {one.mutation.shows}): "
        lines.append(f"{head}{len(names)} cases, {len(one.families())} families: {' '.join(names)}".rstrip(": "))
        for name in names:
            detects[name].append(one.mutation.name)
        if len(names) == 1:
            alone[names[0]] += 1
    lines += [
        "",
        "# Each case: the number of mutations that it detects, and of those that it alone detects. For the other cases",
        "# reasons.txt says, family by family, why they are there.",
    ]
    lines += [f"{name}: {len(by)}, alone {alone[name]}" for name, by in detects.items()]
    return "\n".join(lines) + "\n"
