"""Each cause that changes a counter, at each place where it can occur; a probe shows the effect."""

from __future__ import annotations

from typing import Callable, Sequence

from kit.frames import Frame

from generator.book import Book, family
from generator.families.flags import FRAME, sender_error
from generator.families.received import break_stuff_bit
from generator.families.sent import override
from generator.probes import probe_rec, probe_tec, raise_rec
from generator.scene import Scene, dominant_bits
from generator.search import stuff_place, stuffed_in

RECEIVED = "S 123 D 2 c3a5"
LOSER = "S 7ff R 0"
Step = Callable[[Scene], None]
ONCE = ["flag-error-once"]


def _stuff(frame: str, part: str, level: str) -> Step:
    return lambda scene: break_stuff_bit(scene, frame, part, level)


def _until(part: str, level: str, turned: str = "") -> Step:
    """The tester's frame before a part, then another level there."""

    def step(scene: Scene) -> None:
        wire = Frame.parse(RECEIVED).wire(turned)
        scene.receive(RECEIVED, before=wire.place(part), wire=wire)
        scene.play(level, f"{part} {'forced' if level == 'f' else 'dominant'}")

    return step


def _crc_error(scene: Scene) -> None:
    wire = Frame.parse(RECEIVED).wire("crc-6")
    levels = wire.acknowledged()[: wire.place("eof 1")]
    scene.play(levels, f"sends {RECEIVED} with crc-6 inverted, acknowledged by another node")


def _delimiter(scene: Scene) -> None:
    scene.stuff_error()
    scene.rest(6 + 4, "the flag, four bits of the delimiter")
    scene.play("0", "delimiter bit 5 dominant")


def _flag_bit(scene: Scene) -> None:
    scene.stuff_error()
    scene.play("1f", "flag bit 2 forced")


def _overload_flag_bit(scene: Scene) -> None:
    scene.receive(RECEIVED)
    scene.play("0", "the first bit of intermission dominant")
    scene.play("1f", "bit 2 of the overload flag forced")


def _received(scene: Scene) -> None:
    scene.receive(RECEIVED)
    scene.rest(5)


def _received_twice(scene: Scene) -> None:
    """The first frame takes REC below the limit, the second one lowers it by 1."""
    _received(scene)
    _received(scene)


def _sent(scene: Scene) -> None:
    scene.receive(RECEIVED, [FRAME])
    scene.rest(3)
    scene.sent(FRAME)


def _lost(scene: Scene) -> None:
    scene.receive(RECEIVED, [LOSER])
    scene.rest(3)
    scene.receive("S 001 D 1 77", before=Frame.parse("S 001 D 1 77").wire().stuffed)
    scene.play("0", "the CRC delimiter dominant")
    scene.recover()
    scene.sent(LOSER)


def _after(dominant: int) -> Step:
    def step(scene: Scene) -> None:
        scene.stuff_error()
        scene.rest(6, "the flag")
        scene.play("0" * dominant, f"{dominant_bits(dominant)} after the flag")

    return step


@family("count-rx", "each cause that changes REC, at each place; frames received at REC 0, 1, 128, 200; probe")
def count_rx(book: Book) -> None:
    errors: list[tuple[str, int, Step, Sequence[str]]] = [
        ("stuff-identifier", 0, _stuff("S 000 D 0", "base", "1"), []),
        ("stuff-data", 0, _stuff("S 555 D 2 0000", "data", "1"), []),
        ("stuff-crc", 0, _stuff(stuffed_in("S", 2, "crc", "0"), "crc", "0"), []),
        ("crc", 9, _crc_error, []),
        ("crc-delimiter", 0, _until("crc-delimiter", "0"), []),
        ("ack-delimiter", 9, _until("ack-delimiter", "0"), []),
        ("end-of-frame", 9, _until("eof 3", "0"), []),
        ("wrong-crc-ack-delimiter", 9, _until("ack-delimiter", "0", "crc-6"), []),
        ("acknowledgement-unseen", 9, _until("ack", "f"), []),
        ("delimiter", 0, _delimiter, []),
        ("first-dominant", 0, _after(1), []),
        ("run", 0, _after(8), []),
        ("flag-bit", 0, _flag_bit, ONCE),
        ("overload-flag-bit", 9, _overload_flag_bit, ONCE),
    ]
    others: list[tuple[str, int, Step, Sequence[str]]] = [
        ("received-at-0", 0, _received, []),
        ("received-at-1", 1, _received, []),
        ("received-at-128", 128, _received_twice, ["rec-127"]),
        ("received-at-200", 200, _received, ["rec-127"]),
        ("sent", 9, _sent, []),
        ("lost", 9, _lost, []),
    ]
    more: list[tuple[str, int, Step, Sequence[str]]] = [
        ("stuff-recessive", 0, _stuff("S 7ff D 0", "base", "0"), []),
        ("end-of-frame-6", 9, _until("eof 6", "0"), []),
    ]
    errors = book.rows(errors, more)
    for suffix, rec, step, choices in errors + others:
        with book.case(suffix, f"{suffix.replace('-', ' ')}: the effect on a REC of {rec}", choices) as scene:
            scene.rest(1, "idle")
            raise_rec(scene, rec)
            step(scene)
            if (suffix, rec, step, choices) in errors:
                scene.recover()
            probe_rec(scene)


def _overridden(part: str, index: int = 0, level: str = "0") -> Step:
    """The controller sends FRAME: of the part's bits that the level changes, the one with this index is overridden."""

    def step(scene: Scene) -> None:
        wire = Frame.parse(FRAME).wire()
        kept = "0" if level == "f" else "1"
        places = [place for place in wire.places[part] if wire.levels[place] == kept]
        scene.anchor(FRAME)
        override(scene, FRAME, places[index], level, f"a bit of {part} {'forced' if level == 'f' else 'dominant'}")
        scene.sent(FRAME)

    return step


def _own_stuff(scene: Scene) -> None:
    frame = "S 555 D 2 0000"
    scene.anchor(frame)
    override(scene, frame, stuff_place(Frame.parse(frame).wire(), "data", "1"), "0", "a stuff bit dominant")
    scene.sent(frame)


def _unacknowledged(scene: Scene) -> None:
    scene.anchor(FRAME)
    override(scene, FRAME, Frame.parse(FRAME).wire().place("ack"), "1", "no acknowledgement")
    scene.sent(FRAME)


def _own_delimiter(scene: Scene) -> None:
    sender_error(scene)
    scene.rest(6 + 4, "the flag, four bits of the delimiter")
    scene.play("0", "delimiter bit 5 dominant")
    scene.recover()
    scene.sent(FRAME)


def _own_after(dominant: int) -> Step:
    def step(scene: Scene) -> None:
        sender_error(scene)
        scene.after_flag(dominant)
        scene.sent(FRAME)

    return step


def _own_flag_bit(scene: Scene) -> None:
    sender_error(scene)
    scene.play("1f", "flag bit 2 forced")
    scene.recover()
    scene.sent(FRAME)


def _own_overload_flag_bit(scene: Scene) -> None:
    scene.anchor(FRAME)
    scene.sending(FRAME)
    scene.play("0", "the first bit of intermission dominant")
    scene.play("1f", "bit 2 of the overload flag forced")
    scene.recover()


def _sent_often(errors: int, frames: int) -> Step:
    """Errors in a frame, and then that frame sent, each this number of times."""

    def step(scene: Scene) -> None:
        scene.anchor(*[FRAME] * frames)
        for _ in range(errors):
            scene.sending(FRAME, Frame.parse(FRAME).wire().stuffed)
            scene.play("0", "the CRC delimiter dominant")
            scene.recover()
        for _ in range(frames):
            scene.sent(FRAME)

    return step


def _received_with_tec(scene: Scene) -> None:
    _sent_often(1, 1)(scene)
    _received(scene)


def _own_lost(scene: Scene) -> None:
    scene.anchor(LOSER)
    scene.receive("S 001 D 1 77")
    scene.rest(3)
    scene.sent(LOSER)


@family("count-tx", "each cause that changes TEC, at each place where it can occur; probe")
def count_tx(book: Book) -> None:
    causes: list[tuple[str, Step, Sequence[str]]] = [
        ("start-of-frame", _overridden("sof", 0, "f"), ["own-start"]),
        ("identifier-unseen", _overridden("base", 2, "f"), []),
        ("dlc", _overridden("dlc"), []),
        ("data", _overridden("data", 1), []),
        ("data-unseen", _overridden("data", 1, "f"), []),
        ("crc", _overridden("crc", 1), []),
        ("crc-delimiter", _overridden("crc-delimiter"), []),
        ("ack-delimiter", _overridden("ack-delimiter"), []),
        ("end-of-frame", _overridden("eof", 3), []),
        ("stuff", _own_stuff, []),
        ("acknowledgement", _unacknowledged, []),
        ("delimiter", _own_delimiter, []),
        ("first-dominant", _own_after(1), []),
        ("run", _own_after(8), []),
        ("flag-bit", _own_flag_bit, ONCE),
        ("overload-flag-bit", _own_overload_flag_bit, ONCE),
        # from 8 down to 0, and once more: TEC neither stops above 0 nor goes below it
        ("sent-at-0", _sent_often(1, 9), []),
        ("received", _received_with_tec, []),
        ("lost", _own_lost, []),
    ]
    more: list[tuple[str, Step, Sequence[str]]] = [
        ("dlc-unseen", _overridden("dlc", 0, "f"), []),
        ("crc-unseen", _overridden("crc", 1, "f"), []),
        ("end-of-frame-7", _overridden("eof", 6), []),
    ]
    for suffix, step, choices in book.rows(causes, more):
        with book.case(suffix, f"{suffix.replace('-', ' ')}: the effect on TEC", choices) as scene:
            step(scene)
            probe_tec(scene)
