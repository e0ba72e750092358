"""Writes what was found as a register mapping: the wiring with parts holds_.., in Verilog that a person can read."""

from __future__ import annotations

import re
from collections.abc import Iterable, Iterator, Sequence
from dataclasses import dataclass
from typing import Any

from finding.learning import Learning
from finding.wiring import CLOCK_AGO, EARLIER, PREFIX, clock_ago, earlier, earlier_words, instance
from holding.asking import HOLDS, SAME
from holding.faults import Fault
from holding.relation import Relation, blanked, read_relation

BIT = re.compile(r"(.*)\[(\d+)\]$", re.S)
NAME = re.compile(r"[^A-Za-z0-9]+")
LEVEL = re.compile(r"(?:past|left|below|from|before_crc)_(\d+)")
LOOPED = ("level ", "identifier to", "data to", "frame to", "later to")
LINE = 118
MOST_LOST = 12  # tests of a register in a guess that is not proved
LOOP = 4  # places from which on a loop is shorter


@dataclass(frozen=True)
class Guess:
    """Under a condition, a register equals a literal; both as the learner numbers them."""

    condition: int
    target: int
    literal: int


@dataclass(frozen=True)
class Limit:
    """A word of the design that is never more than a number."""

    word: int
    most: int


@dataclass(frozen=True)
class Mapping:
    """What is written: guesses that are proved, outputs that are parts of the invariant, a note; lost guesses."""

    guesses: Sequence[Guess]
    held: Sequence[str]
    note: Sequence[str]
    lost: Sequence[Guess] = ()


Place = tuple[str, int, bool]  # a word, a place in it, whether it is negated


class Writing:
    """The text of a register mapping."""

    def __init__(self, model: Learning, limits: dict[int, Limit]) -> None:
        self.model, self.limits = model, limits
        self.names: dict[int, Place] = {}
        self.name_all()
        self.wires: dict[int, str] = {}  # gates without a name
        self.lines: list[str] = []
        self.turned: dict[str, str] = {}
        self.guesses: list[Guess] = []
        self.falling: dict[tuple[str, str], bool] = {}
        self.loops = 0

    def name_all(self) -> None:
        """Names the circuit's words first, then those of words.v, then atoms and registers."""
        words = self.model.words
        order = [name for name in words if name.startswith("gates.")]
        order += [name for name in words if name.startswith(PREFIX)]
        for name in order:
            for place, literal in enumerate(words[name]):
                if literal > 1:
                    self.names.setdefault(literal >> 1, (name, place, bool(literal & 1)))
        for signal, (name, place) in self.model.names.items():
            self.names[signal] = (name, place, False)

    def word(self, name: str) -> str:
        """A word in Verilog: a row of a memory has an escaped name."""
        return f"\\{name} " if "[" in name else name

    def index(self, name: str, place: int) -> int:
        """The index of a place, as the design declares it."""
        low, is_upto = self.model.netlist.indexes.get(name, (0, False))
        return low + (len(self.model.words[name]) - 1 - place if is_upto else place)

    def bit(self, name: str, place: int) -> str:
        """A bit in Verilog."""
        return self.word(name) if len(self.model.words[name]) == 1 else f"{self.word(name)}[{self.index(name, place)}]"

    def slice(self, name: str, low: int, high: int) -> str:
        """Some bits in Verilog; the whole word without its range."""
        if low == high:
            return self.bit(name, low)
        if (low, high) == (0, len(self.model.words[name]) - 1):
            return self.word(name)
        return f"{self.word(name)}[{self.index(name, high)}:{self.index(name, low)}]"

    def literal(self, literal: int) -> str:
        """A literal in Verilog."""
        if literal < 2:
            return f"1'b{literal}"
        if literal >> 1 in self.names:
            name, place, is_negated = self.names[literal >> 1]
            return "!" * (is_negated ^ bool(literal & 1)) + self.bit(name, place)
        return "!" * (literal & 1) + self.wire(literal >> 1)

    def wire(self, signal: int) -> str:
        """The name of a gate, which is written with those that it reads."""
        if text := self.test(signal):
            return text
        waiting = [signal]
        while waiting:
            at = waiting[-1]
            missing = [it >> 1 for it in self.model.gates.gates[at] if it > 1 and not self.is_named(it >> 1)]
            if at in self.wires or not missing:
                waiting.pop()
                if at not in self.wires:
                    self.wires[at] = f"gate_{len(self.wires) + 1}"
                    a, b = (self.read(it) for it in self.model.gates.gates[at])
                    self.lines.append(f"    wire {self.wires[at]} = {a} && {b};")
            else:
                waiting += missing
        return self.wires[signal]

    def test(self, signal: int) -> str:
        """A signal as the test that it is; empty if it is none."""
        for name, literal in self.model.conditions.literals.items():
            if literal >> 1 == signal:
                text = self.model.conditions.atoms[name].text(lambda word: len(self.model.any_word(word)))
                return f"({text})" if not literal & 1 else f"!({text})"
        return ""

    def is_named(self, signal: int) -> bool:
        """Whether a signal has a name, or a wire by now."""
        return signal in self.names or signal in self.wires

    def read(self, literal: int) -> str:
        """A literal that has a name, or a wire by now."""
        if literal > 1 and literal >> 1 not in self.names:
            return "!" * (literal & 1) + self.wires[literal >> 1]
        return self.literal(literal)

    def terms(self, name: str, bits: dict[int, int]) -> list[str]:
        """That bits of a word of the design equal these literals: runs of places as one comparison."""
        made, places = [], sorted(bits)
        while places:
            run = self.longest_run(bits, places)
            made.append(self.comparison(name, [(place, bits[place]) for place in run]))
            places = places[len(run) :]
        return made

    def longest_run(self, bits: dict[int, int], places: Sequence[int]) -> Sequence[int]:
        """The first places as far as their literals are consecutive bits of one word, up or down, or constants."""
        for count in range(len(places), 1, -1):
            run = places[:count]
            literals = [bits[place] for place in run]
            if run[-1] - run[0] == count - 1 and (max(literals) < 2 or self.step(literals)):
                return run
        return places[:1]

    def step(self, literals: Sequence[int]) -> int:
        """1 or -1 if these are consecutive bits of one word, all negated or none; otherwise 0."""
        named = [self.names.get(it >> 1) if it > 1 else None for it in literals]
        for by in (1, -1):
            is_run = all(
                one and other and one[0] == other[0] and other[1] - one[1] == by
                and one[2] ^ bool(a & 1) == other[2] ^ bool(b & 1)
                for one, other, a, b in zip(named, named[1:], literals, literals[1:])
            )
            if is_run:
                return by
        return 0

    def comparison(self, name: str, run: Sequence[tuple[int, int]]) -> str:
        """One comparison."""
        low, high = run[0][0], run[-1][0]
        left, literals = self.slice(name, low, high), [literal for _, literal in run]
        if max(literals) < 2:
            number = sum(bit << at for at, bit in enumerate(literals))
            return f"{left} == {len(run)}'d{number}" if len(run) < 33 else f"{left} == {len(run)}'h{number:x}"
        if len(run) == 1:
            return f"{left} == {self.literal(literals[0])}"
        (word, first, is_negated), by = self.names[literals[0] >> 1], self.step(literals)
        sign = "~" * (is_negated ^ bool(literals[0] & 1))
        if by > 0:
            return f"{left} == {sign}{self.slice(word, first, first + len(run) - 1)}"
        if len(run) < LOOP:
            return f"{left} == {sign}{{{', '.join(self.bit(word, first - at) for at in reversed(range(len(run))))}}}"
        width = len(self.model.words[word])
        start = width - 1 - first
        return f"{left} == {sign}{self.turned_word(word)}[{start + len(run) - 1}:{start}]"

    def turned_word(self, word: str) -> str:
        """A word in reverse order."""
        if word not in self.turned:
            made = self.turned[word] = f"turned_{NAME.sub('_', word)}"
            width = len(self.model.words[word])
            self.lines += [
                f"    wire [{width - 1}:0] {made};",
                f"    generate for (at = 0; at < {width}; at = at + 1) begin : in_{made}",
                f"        assign {made}[at] = {self.word(word)}[{width - 1} - at];",
                "    end endgenerate",
            ]
        return self.turned[word]

    def parts(self, guesses: Iterable[Guess]) -> list[tuple[str, list[str]]]:
        """For each word of the design its name, and what it equals under each condition."""
        found: dict[str, dict[int, list[Guess]]] = {}
        loops: dict[tuple[str, str, int, int], dict[int, Guess]] = {}
        for guess in guesses:
            if guess.condition == self.model.given_condition:
                continue
            subject = self.subject(guess)
            if shape := self.shape(guess):
                loops.setdefault((subject, self.model.conditions.all[guess.condition].family, *shape[:2]), {})[
                    shape[2]
                ] = guess
            else:
                found.setdefault(subject, {}).setdefault(guess.condition, []).append(guess)
        made: dict[str, list[str]] = {}
        for subject, conditions in found.items():
            for condition, group in sorted(conditions.items()):
                made.setdefault(subject, []).append(self.implied(condition, self.terms_of(subject, group)))
        for (subject, *_), levels in loops.items():
            made.setdefault(subject, []).extend(self.looped(levels))
        return sorted(made.items())

    def said(self, guess: Guess) -> str:
        """A guess in Verilog, or the name of the part that it is."""
        if guess.condition == self.model.given_condition:
            return self.model.given_name(guess.target)
        return self.implied(guess.condition, self.terms_of(self.subject(guess), [guess]))

    def implied(self, condition: int, terms: Sequence[str]) -> str:
        """That some terms are true under a condition."""
        test, text = self.model.conditions.text(condition), " && ".join(terms)
        if not test:
            return text
        return f"({negated(test)} || {text})" if len(terms) == 1 else f"({negated(test)} || ({text}))"

    def shape(self, guess: Guess) -> tuple[int, int, int] | None:
        """For a level that is received or still to be sent: how a register's place follows from the level's number.

        It is the first number, plus the second times the level's. The third is the level's number.
        """
        condition = self.model.conditions.all[guess.condition]
        if not condition.family.startswith(LOOPED) or guess.target not in self.model.names:
            return None
        level = LEVEL.search(" ".join(sorted(condition.atoms)))
        if not level or (guess.literal & 1) != self.names[guess.literal >> 1][2]:
            return None
        number, place = int(level[1]) - 1, self.index(*self.model.names[guess.target])
        by = -1 if self.is_falling(guess, condition.family) else 1
        return place - by * number, by, number

    def is_falling(self, guess: Guess, family: str) -> bool:
        """Whether places of a word fall while levels of a family rise."""
        name = self.model.names[guess.target][0]
        key = (name, family)
        if key not in self.falling:
            self.falling[key] = self.slope(name, family) < 0
        return self.falling[key]

    def slope(self, name: str, family: str) -> int:
        """How many pairs of guesses about a word rise, less how many fall."""
        rows = []
        for guess in self.guesses:
            condition = self.model.conditions.all[guess.condition]
            if condition.family == family and self.model.names.get(guess.target, ("",))[0] == name:
                level = LEVEL.search(" ".join(sorted(condition.atoms)))
                rows.append((int(level[1]) if level else 0, self.index(name, self.model.names[guess.target][1])))
        rows.sort()
        steps = [(after[0] - before[0], after[1] - before[1]) for before, after in zip(rows, rows[1:])]
        return sum((places == levels) - (places == -levels) for levels, places in steps)

    def looped(self, group: dict[int, Guess]) -> Iterator[str]:
        """Guesses of one shape: as a loop, or one by one if there are few. Each run has one set of tests."""
        numbers = sorted(group)
        while numbers:
            first, count = numbers[0], 1
            tests = self.tests(group[first], first)
            while count < len(numbers) and numbers[count] == first + count:
                if self.tests(group[first + count], first + count) != tests:
                    break
                count += 1
            run, numbers = [group[number] for number in numbers[:count]], numbers[count:]
            yield from [self.loop(run, first, tests)] if count >= LOOP else [
                self.said(it) for it in run
            ]

    def tests(self, guess: Guess, number: int) -> str:
        """The condition with `at` for the level's number."""
        text = self.model.conditions.text(guess.condition)
        return re.sub(rf" < 7'd{number + 1}\b", " <= at", re.sub(rf" >= 7'd{number + 1}\b", " > at", text))

    def loop(self, run: Sequence[Guess], first: int, tests: str) -> str:
        """A loop over levels, and its result."""
        name, place = self.model.names[run[0].target]
        other, _, _ = self.names[run[0].literal >> 1]
        start, by, _ = self.shape(run[0]) or (0, 1, 0)
        self.loops += 1
        made = f"levels_{self.loops}"
        index = f"{start} - at" if by < 0 else f"at + {start}" if start > 0 else f"at - {-start}" if start else "at"
        self.lines += [
            f"    wire [{first + len(run) - 1}:{first}] {made};",
            f"    generate for (at = {first}; at < {first + len(run)}; at = at + 1) begin : in_{made}",
            f"        assign {made}[at] = {negated(tests)} || {self.word(name)}[{index}] == {other}[at];",
            "    end endgenerate",
        ]
        return f"&{made}"

    def subject(self, guess: Guess) -> str:
        """The word that a guess is about."""
        if guess.target in self.limits:
            return self.model.word_numbers[self.limits[guess.target].word]
        if guess.target in self.model.pairs:
            return self.names[self.model.pairs[guess.target][0] >> 1][0]
        if guess.target in self.names:
            return self.names[guess.target][0]
        return "circuit"

    def terms_of(self, subject: str, group: Sequence[Guess]) -> list[str]:
        """What is said of a word under one condition; a bit may equal several literals."""
        made: list[str] = []
        rows: list[dict[int, int]] = []
        for guess in sorted(group, key=lambda it: (it.target, it.literal)):
            if guess.target in self.limits:
                most = self.limits[guess.target].most
                made.append(f"{self.word(subject)} <= {len(self.model.words[subject])}'d{most}")
            elif guess.target not in self.names and guess.target not in self.model.pairs:
                text = self.test(guess.target)
                made.append(text if guess.literal else negated(text.removeprefix("(").removesuffix(")")))
            elif guess.target not in self.model.pairs:
                name, place, is_negated = self.names[guess.target]
                literal = guess.literal ^ is_negated
                other = self.names.get(literal >> 1, ("",))[0] if literal > 1 else ""
                fitting = [it for it in rows if place not in it and self.fits(it, other)]
                if not fitting:
                    fitting = [{}]
                    rows += fitting
                fitting[0][place] = literal
        pairs = [it for it in group if it.target in self.model.pairs]
        return [*made, *(term for row in rows for term in self.terms(subject, row)), *self.terms_of_pairs(pairs)]

    def terms_of_pairs(self, pairs: Sequence[Guess]) -> list[str]:
        """Which bits of two words differ."""
        rows = []
        for guess in pairs:
            a, b = self.model.pairs[guess.target]
            literal = guess.literal ^ (self.model.gates.differ(a, b) & 1)
            rows.append((self.names[a >> 1], self.names[b >> 1], self.names.get(literal >> 1), literal))
        made = []
        rows.sort(key=lambda row: row[0][:2])
        while rows:
            count = 1
            while count < len(rows) and self.is_next(rows[count - 1], rows[count]):
                count += 1
            (one, low, _), (two, start, _), _, _ = rows[0]
            left = f"{self.slice(one, low, low + count - 1)} ^ {self.slice(two, start, start + count - 1)}"
            made.append(f"({left}) == {{{', '.join(self.literal(row[3]) for row in reversed(rows[:count]))}}}")
            rows = rows[count:]
        return made

    def is_next(self, one: Any, other: Any) -> bool:
        """Whether the places of both words are the next ones."""
        return all(one[at][0] == other[at][0] and other[at][1] == one[at][1] + 1 for at in (0, 1))

    def fits(self, row: dict[int, int], other: str) -> bool:
        """Whether a row compares with this word."""
        literal = next(iter(row.values()))
        return other == (self.names.get(literal >> 1, ("",))[0] if literal > 1 else "")

    def text(self, relation: Relation, mapping: Mapping) -> str:
        """The whole register mapping."""
        guesses = mapping.guesses
        self.guesses, self.falling, self.loops = [*guesses, *mapping.lost], {}, 0
        names, lines = [], []
        for name, terms in [*self.parts(guesses), *((name, [name]) for name in mapping.held)]:
            names.append(part_name(HOLDS, name, relation))
            lines += statement("assign", names[-1], terms)
        for name, terms in self.parts(mapping.lost):
            shown = [it for at, it in enumerate(terms) if at < MOST_LOST or it.startswith("&")]
            more = [f"    // and {len(terms) - len(shown)} more guesses about it:"] if len(shown) < len(terms) else []
            lines += [*more, *statement("wire", part_name("guess_", name, relation), shown)]
        used = {word for line in [*lines, *self.lines] for word in re.findall(rf"\b{EARLIER}(\w+)", line)}
        widths = {name: width for name, width in earlier_words(self.model.netlist.circuit).items() if name in used}
        body = [f"    // {line}" for line in mapping.note]
        body += [*instance("\n".join([*self.lines, *lines])), *earlier(widths)]
        if any(CLOCK_AGO in line for line in [*self.lines, *lines]):
            body += clock_ago()
        if any("(at = " in line for line in self.lines):
            body.append("    genvar at;")
        kept = {it.target for it in guesses if it.condition == self.model.given_condition}
        lost = [self.model.given_name(signal) for _, signal, _ in self.model.given if signal not in kept]
        return with_parts(relation, names, [*body, *self.lines, *lines], lost)


def negated(test: str) -> str:
    """The negation of a condition."""
    if re.fullmatch(r"!?[\w.\[\]:]+", test):
        return test[1:] if test.startswith("!") else f"!{test}"
    return f"!({test})"


def part_name(prefix: str, subject: str, relation: Relation) -> str:
    """The name of a part about a word, or an output, that the wiring doesn't use."""
    name = prefix + NAME.sub("_", subject.removeprefix("dut.")).strip("_")
    while re.search(rf"\b{name}\b", relation.text):
        name += "_found"
    return name


def statement(kind: str, name: str, terms: Sequence[str]) -> list[str]:
    """A part: one line if it fits, otherwise a line for each term."""
    line = f"    {kind} {name} = {' && '.join(terms)};"
    if len(line) <= LINE:
        return [line]
    made = [f"    {kind} {name} ="]
    for at, term in enumerate(terms):
        made += broken(f"        {term}{';' if at + 1 == len(terms) else ' &&'}")
    return made


def broken(line: str) -> list[str]:
    """A line in several, each after an operator."""
    made = []
    while len(line) > LINE:
        at = max(line.rfind(" && ", 0, LINE - 3), line.rfind(" || ", 0, LINE - 3), line.rfind(", ", 0, LINE - 3) - 2)
        if at < 20:
            break
        made.append(line[: at + 3])
        line = "            " + line[at + 3 :].lstrip()
    return [*made, line]


def with_parts(relation: Relation, names: Sequence[str], body: Sequence[str], lost: Sequence[str]) -> str:
    """The wiring with these outputs and these lines, and without some outputs."""
    for name in lost:
        relation = without_part(relation, name)
    code = blanked(relation.text)
    close = code.rindex(")", 0, relation.head_end)
    if not re.search(r"\binput\b", code[: relation.head_end]):
        raise Fault("the wiring must declare its ports in the head of its module")
    outputs = "".join(f",\n    output {name}" for name in names)
    end = code.rindex("endmodule")
    head = relation.text[:close].rstrip() + outputs + "\n"
    return "\n".join([head + relation.text[close:end].rstrip(), "", *body, "endmodule", ""])


def without_part(relation: Relation, name: str) -> Relation:
    """The wiring with an output that is a wire instead."""
    head, rest = relation.text[: relation.head_end], relation.text[relation.head_end :]
    gone = re.sub(rf"\b(output\s+){name}\s*,\s*(?!input\b|output\b)", r"\1", head)  # the first of some outputs
    if gone == head:
        gone = re.sub(rf",\s*(output\s+)?{name}\b", "", head)
    return read_relation(f"{gone}\n    wire {name};{rest}", relation.path)


def held_outputs(model: Learning, held: Sequence[int]) -> list[str]:
    """The outputs that depend on registers alone: they are parts of the register mapping."""
    names = [name for name in model.parts if name.startswith(SAME)]
    return [name for name, flag in zip(names, held) if flag]
