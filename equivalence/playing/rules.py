"""What a play counts: events, and the rules of docs/ACCESS.md by role and error state."""

from __future__ import annotations

from collections.abc import Callable
from dataclasses import dataclass

from playing.model import Model

EVENTS = {"sent": 1, "received": 2, "arbitration lost": 3}
ERRORS = {"bit": 4, "stuff": 5, "crc": 6, "form": 7, "ack": 8}
OTHERS = {"overload": 9, "bus-off": 10, "recovered": 11}
ROLES = ("transmitter", "receiver")
STATES = ("active", "passive")
# the columns in which a rule can apply; the other pairs of role and error state exclude it
ALL = ("transmitter active", "transmitter passive", "receiver active", "receiver passive")
IDLE, JOINING, STUFFED_PART, CRC_DELIMITER, ACK_SLOT, ACK_DELIMITER, END_OF_FRAME = range(7)
ERROR_FLAG, PASSIVE_FLAG, OVERLOAD_FLAG, AFTER_FLAG, DELIMITER, INTERMISSION, SUSPEND, BUS_OFF = range(7, 15)
RUN = 5  # of equal levels, after which a stuff bit is due


class Words:
    """The circuit's words in a bit time, and conditions on them."""

    def __init__(self, model: Model) -> None:
        self.model, self.gates = model, model.gates
        self.dominant = self.bit("bus") ^ 1
        self.sender, self.recessive = self.bit("sender"), self.bit("bus")

    def bit(self, name: str) -> int:
        """A word of one bit."""
        return self.model.word(name)[0]

    def both(self, *literals: int) -> int:
        """AND."""
        return self.gates.all(*literals)

    def one_of(self, *literals: int) -> int:
        """OR."""
        return self.gates.all(*(it ^ 1 for it in literals)) ^ 1

    def is_number(self, word: list[int], number: int) -> int:
        """Whether a word has this value."""
        return self.gates.all(*(literal ^ 1 ^ (number >> place & 1) for place, literal in enumerate(word)))

    def phase(self, *numbers: int) -> int:
        """Whether the phase is one of these."""
        return self.one_of(*(self.is_number(self.model.word("phase"), number) for number in numbers))

    def event(self, number: int) -> int:
        """Whether the event of this bit time is this one."""
        return self.is_number(self.model.word("event_code"), number)

    def at_most(self, name: str, number: int) -> int:
        """Whether a word is at most this number."""
        return self.one_of(*(self.is_number(self.model.word(name), value) for value in range(number + 1)))

    def in_arbitration(self) -> int:
        """Whether a transmitter has not sent more than its RTR bit."""
        extended = self.model.word("own")[13]
        return self.gates.choose(extended, self.at_most("heard_count", 32), self.at_most("heard_count", 12))


@dataclass
class Rule:
    """A rule of docs/ACCESS.md: the bit times in which it decides, and the columns in which that is possible."""

    name: str
    applies: Callable[[Words], int]
    columns: tuple[str, ...] = ALL
    becomes_sender: bool = False  # the role is that after the bit time


SENDER, RECEIVER = ALL[:2], ALL[2:]
RULES = [
    Rule("Joining", lambda it: it.phase(JOINING), ("receiver active",)),
    Rule("Start of frame", lambda it: it.both(it.phase(IDLE), it.one_of(it.dominant, it.bit("waits"))), ALL, True),
    Rule("Arbitration", lambda it: it.both(in_part(it), it.sender, it.in_arbitration()), SENDER),
    Rule("Kept frame", lambda it: it.both(in_part(it), it.sender, it.in_arbitration() ^ 1), SENDER),
    Rule("Stuff places", lambda it: it.both(it.phase(STUFFED_PART), is_stuff(it))),
    Rule("Overridden stuff bit", lambda it: overridden(it), SENDER),
    Rule("End of the stuffed part", lambda it: it.phase(CRC_DELIMITER)),
    Rule("Fixed form", lambda it: it.phase(CRC_DELIMITER, ACK_DELIMITER, END_OF_FRAME)),
    Rule("Acknowledgement", lambda it: it.phase(ACK_SLOT)),
    Rule("Unacknowledged passive sender", lambda it: unacknowledged(it), (ALL[1],)),
    Rule("Refused CRC sequence", lambda it: it.event(ERRORS["crc"]), RECEIVER),
    Rule("Frame validation", lambda it: it.both(it.phase(END_OF_FRAME), it.one_of(it.event(1), it.event(2)))),
    Rule("Dominant last level", lambda it: it.both(it.phase(END_OF_FRAME), last(it), it.dominant), RECEIVER),
    Rule("Error flags", lambda it: it.phase(ERROR_FLAG, PASSIVE_FLAG)),
    Rule("Error in an own flag", lambda it: it.both(it.phase(ERROR_FLAG, OVERLOAD_FLAG), it.recessive)),
    Rule("After a flag", lambda it: it.phase(AFTER_FLAG)),
    Rule("Delimiter", lambda it: it.phase(DELIMITER)),
    Rule("Overload flags", lambda it: it.phase(OVERLOAD_FLAG)),
    Rule("Own overload frames", lambda it: it.both(it.event(9), it.recessive), RECEIVER),
    Rule("Intermission", lambda it: it.phase(INTERMISSION)),
    Rule("Suspend transmission", lambda it: it.phase(SUSPEND), (ALL[1],)),
    Rule("Bus off", lambda it: it.phase(BUS_OFF), ()),
]


def is_stuff(words: Words) -> int:
    """Whether a stuff bit is due."""
    return words.is_number(words.model.word("heard_run"), RUN)


def in_part(words: Words) -> int:
    """In the stuffed part, and no stuff bit is due."""
    return words.both(words.phase(STUFFED_PART), is_stuff(words) ^ 1)


def overridden(words: Words) -> int:
    """A transmitter's recessive stuff bit before its RTR bit is dominant on the bus."""
    is_seen = words.both(words.bit("drive"), words.dominant)
    return words.both(words.phase(STUFFED_PART), is_stuff(words), words.sender, words.in_arbitration(), is_seen)


def unacknowledged(words: Words) -> int:
    """The first dominant level in the passive flag of a transmitter without acknowledgement."""
    return words.both(words.phase(PASSIVE_FLAG), words.bit("unacknowledged"), words.dominant)


def last(words: Words) -> int:
    """At the last level of the end of frame."""
    return words.is_number(words.model.word("place"), 6)


class Counts:
    """The literals to count, and the numbers that a play has counted."""

    def __init__(self, model: Model) -> None:
        words = Words(model)
        self.names = [*EVENTS, *ERRORS, *OTHERS]
        self.literals = [words.event(number) for number in {**EVENTS, **ERRORS, **OTHERS}.values()]
        for rule in RULES:
            for column, literal in columns_of(rule, words):
                self.names.append(f"{rule.name}: {column}")
                self.literals.append(literal)
        self.numbers: dict[str, int] = {}

    def take(self, numbers: list[int]) -> None:
        """Takes what the simulator has counted."""
        self.numbers = dict(zip(self.names, numbers))

    def of(self, rule: Rule, column: str) -> int:
        """In how many bit times a rule decided, in one of its columns."""
        return self.numbers[f"{rule.name}: {column}"]

    def missing(self) -> list[str]:
        """The rules that were not reached, with their role and error state."""
        return [
            f"{rule.name} ({column})" if rule.columns else rule.name
            for rule in RULES
            for column in rule.columns or ("",)
            if not self.of(rule, column)
        ]


def columns_of(rule: Rule, words: Words) -> list[tuple[str, int]]:
    """The columns of a rule, with the literals to count."""
    applies, passive = rule.applies(words), words.bit("passive")
    if not rule.columns:
        return [("", applies)]
    sender = words.bit("waits") if rule.becomes_sender else words.sender
    made = []
    for column in rule.columns:
        role, state = column.split(" ")
        is_role, is_state = sender ^ (role != ROLES[0]), passive ^ (state != STATES[1])
        made.append((column, words.both(applies, is_role, is_state)))
    return made
