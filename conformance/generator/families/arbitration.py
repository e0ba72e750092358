"""Arbitration: lost at each bit, won, undecided, and stuff bits within it."""

from __future__ import annotations

from kit.frames import Frame

from generator.book import Book, family
from generator.probes import probe_tec, raise_tec
from generator.scene import Scene

STANDARD = "S 7ff R 0"
EXTENDED = "E 1fffffff R 0"


def _lose(scene: Scene, own: str, tester: str) -> None:
    scene.anchor(own)
    scene.receive(tester)
    scene.rest(3, "intermission")
    scene.sent(own)
    scene.rest(3)


@family("arbitration-lost-standard", "the controller sends all bits recessive, the tester one of them dominant")
def lost_standard(book: Book) -> None:
    bits = book.rows((10, 6, 3, 0), (9, 8, 7, 5, 4, 2, 1))
    winners = [(f"identifier-{bit}", f"S {0x7FF ^ 1 << bit:03x} R 0") for bit in bits]
    winners.append(("rtr", "S 7ff D 0"))
    for suffix, winner in winners:
        with book.case(suffix, f"lost at {suffix}: {winner} is acknowledged, the own frame follows") as scene:
            _lose(scene, STANDARD, winner)


@family("arbitration-lost-extended", "the same with extended frames, also at SRR and IDE")
def lost_extended(book: Book) -> None:
    standard = (28, 23, 18, 17, 9, 0)
    bits = book.rows(standard, [bit for bit in range(28, -1, -1) if bit not in standard])
    winners = [(f"identifier-{bit}", f"E {0x1FFFFFFF ^ 1 << bit:08x} R 0") for bit in bits]
    winners += [("srr", "S 7ff D 0"), ("ide", "S 7ff R 0"), ("rtr", "E 1fffffff D 0")]
    for suffix, winner in winners:
        with book.case(suffix, f"lost at {suffix}: {winner} is acknowledged, the own frame follows") as scene:
            _lose(scene, EXTENDED, winner)


@family("arbitration-won", "the tester sends until it loses arbitration, then the controller goes on")
def won(book: Book) -> None:
    cases = [
        ("identifier", "S 123 D 1 c3", "S 127 D 1 c3"),
        ("rtr", "S 123 D 1 c3", "S 123 R 1"),
        ("srr", "S 123 D 1 c3", "E 048d5555 D 1 c3"),
        ("ide", "S 123 R 1", "E 048d5555 D 1 c3"),
        ("extended-identifier", "E 048d5555 D 1 c3", "E 048d5557 D 1 c3"),
        ("extended-rtr", "E 048d5555 D 1 c3", "E 048d5555 R 1"),
    ]
    for suffix, own, tester in cases:
        wire = Frame.parse(own).wire()
        levels = Frame.parse(tester).wire().levels
        loses = next(place for place, (a, b) in enumerate(zip(levels, wire.levels)) if a != b)
        with book.case(suffix, f"{tester} loses arbitration against {own} at {suffix}") as scene:
            scene.anchor(own)
            scene.play(levels[: loses + 1], f"sends {tester} and loses")
            scene.play("1" * (wire.place("ack") - loses - 1) + "0" + "1" * 8, "listens")
            scene.rest(6)


@family("arbitration-equal", "the tester sends the same frame, or one with different data")
def equal(book: Book) -> None:
    own = "S 123 D 2 c3a5"
    with book.case("same", "the tester sends the same frame: nobody loses arbitration") as scene:
        scene.anchor(own)
        scene.play(Frame.parse(own).wire().acknowledged(), f"sends {own}, too, and acknowledges")
        scene.rest(6)
    with book.case("other-data", "after arbitration an overridden bit is a bit error") as scene:
        scene.anchor(own)
        other = Frame.parse("S 123 D 2 83a5").wire()
        levels = Frame.parse(own).wire().levels
        differ = next(place for place, (a, b) in enumerate(zip(other.levels, levels)) if a != b)
        scene.play(other.levels[: differ + 1], "sends S 123 D 2 83a5, up to and including the bit that differs")
        scene.recover()
        scene.sent(own)
        scene.rest(3)


def stuffed_places() -> list[tuple[str, str, int]]:
    """Frames with a recessive stuff bit before RTR, right after it or later: name, frame, number of the stuff bit."""
    return [
        ("standard-first", "S 000 D 0", 0),
        ("standard-second", "S 000 D 0", 1),
        ("standard-before-rtr", "S 020 D 0", 1),
        ("standard-after-rtr", "S 010 D 0", 1),
        ("standard-after-arbitration", "S 000 D 0", 2),
        ("extended-first", "E 00000000 D 0", 0),
        ("extended-second", "E 00000000 D 0", 1),
        ("extension-first", "E 15540000 D 0", 0),
        ("extension-second", "E 15540000 D 0", 1),
        ("extended-before-rtr", "E 15555520 D 0", 0),
        ("extended-after-rtr", "E 15555510 D 0", 0),
        ("extended-after-arbitration", "E 1555555f R 0", 0),
    ]


def _with_run(bits: int, first: int) -> str:
    """This number of bits: five dominant ones from a place on, a recessive one before them, no other run of five."""
    before = ("01" * first)[2 * first - first :]
    return (before + "00000" + "10" * bits)[:bits]


def more_stuffed_places() -> list[tuple[str, str, int]]:
    """Frames with one recessive stuff bit before RTR, one frame for each place in the identifier that it can have."""
    more = [(f"standard-at-{at + 5}", f"S {int(_with_run(11, at), 2):03x} D 0", 0) for at in range(1, 6)]
    for at in range(1, 7):
        identifier = int(_with_run(11, at) + "01" * 9, 2)
        more.append((f"extended-at-{at + 5}", f"E {identifier:08x} D 0", 0))
    for at in range(14):
        identifier = int("10" * 5 + "1" + _with_run(18, at), 2)
        more.append((f"extension-at-{at + 5}", f"E {identifier:08x} D 0", 0))
    return more


@family("arbitration-stuff", "a recessive stuff bit before RTR, directly after it or later overridden; probe of TEC")
def stuff(book: Book) -> None:
    for suffix, frame, number in book.rows(stuffed_places(), more_stuffed_places()):
        wire = Frame.parse(frame).wire()
        recessive = [place for place in wire.stuff if wire.levels[place] == "1"]
        choices = [] if suffix.endswith("after-arbitration") else ["stuff-exception"]
        with book.case(suffix, f"recessive stuff bit {number + 1} of {frame} overridden", choices) as scene:
            scene.anchor(frame)
            scene.sending(frame, recessive[number])
            scene.play("0", "the stuff bit dominant")
            # dominant bits after the flag show whether the controller is still the transmitter
            scene.after_flag(8 if suffix.endswith("second") else 0)
            scene.sent(frame)
            probe_tec(scene)
    if book.is_long:
        _stuff_bit_while_passive(book)


def _stuff_bit_while_passive(book: Book) -> None:
    frame = "S 020 D 0"
    wire = Frame.parse(frame).wire()
    purpose = "a stuff bit is overridden while error passive: dominant bits in the flag do not count either"
    with book.case("standard-passive", purpose, ["stuff-exception"]) as scene:
        scene.anchor(frame)
        raise_tec(scene, 128, frame)
        scene.wait()
        scene.sending(frame, next(place for place in wire.stuff if wire.levels[place] == "1"))
        scene.play("0", "the stuff bit dominant")
        scene.play("0111111", "within the passive flag, the first bit dominant")
        scene.wait("delimiter, intermission, suspend transmission")
        scene.sent(frame)
        probe_tec(scene)
