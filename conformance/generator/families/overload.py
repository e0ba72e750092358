"""Overload frames: as the reaction to an overload condition, and on request."""

from __future__ import annotations

from typing import Sequence

from kit.frames import Frame

from generator.book import Book, family
from generator.families.flags import FRAME
from generator.probes import probe_rec, probe_tec
from generator.scene import Scene, dominant_bits

RECEIVED = "S 123 D 1 c3"


def after_received(scene: Scene, offers: Sequence[str] = ()) -> None:
    scene.receive(RECEIVED, offers)


def after_sent(scene: Scene) -> None:
    scene.anchor(FRAME)
    scene.sending(FRAME)


def dominant_in_intermission(scene: Scene, level: int) -> None:
    scene.rest(level - 1)
    scene.play("0", f"bit {level} of intermission dominant")


@family("overload-intermission", "bit 1 or 2 dominant after a received, sent, error or overload frame; probes")
def overload_intermission(book: Book) -> None:
    for level in (1, 2):
        _dominant_after_frames(book, level)
    with book.case("overload-1", "bit 1 of intermission dominant after an overload frame") as scene:
        after_received(scene)
        dominant_in_intermission(scene, 2)
        scene.rest(6 + 8, "flag, delimiter")
        dominant_in_intermission(scene, 1)
        scene.recover()
        probe_rec(scene)
    for level in (1, 2):
        purpose = f"bit {level} of intermission dominant while a frame is pending: it follows"
        with book.case(f"waiting-{level}", purpose) as scene:
            after_received(scene, (FRAME,))
            dominant_in_intermission(scene, level)
            scene.recover()
            scene.sent(FRAME)
            probe_rec(scene)
    with book.case("five-in-a-row", "five overload conditions in a row") as scene:
        after_received(scene)
        for level in (1, 2, 1, 2, 1):
            dominant_in_intermission(scene, level)
            scene.rest(6 + 8, "flag, delimiter")
        scene.rest(3, "intermission")
        probe_rec(scene)
    if book.is_long:
        _more_in_intermission(book)


def _dominant_after_frames(book: Book, level: int) -> None:
    with book.case(f"received-{level}", f"bit {level} of intermission dominant after a received frame") as scene:
        after_received(scene)
        dominant_in_intermission(scene, level)
        scene.recover()
        probe_rec(scene)
    with book.case(f"sent-{level}", f"bit {level} of intermission dominant after a sent frame") as scene:
        after_sent(scene)
        dominant_in_intermission(scene, level)
        scene.recover()
        probe_tec(scene)
    with book.case(f"error-{level}", f"bit {level} of intermission dominant after an error frame") as scene:
        scene.rest(1, "idle")
        scene.stuff_error()
        scene.rest(6 + 8, "flag, delimiter")
        dominant_in_intermission(scene, level)
        scene.recover()
        probe_rec(scene)


def _more_in_intermission(book: Book) -> None:
    with book.case("overload-2", "bit 2 of intermission dominant after an overload frame") as scene:
        after_received(scene)
        dominant_in_intermission(scene, 1)
        scene.rest(6 + 8, "flag, delimiter")
        dominant_in_intermission(scene, 2)
        scene.recover()
        probe_rec(scene)
    with book.case("extended-received-1", "bit 1 of intermission dominant after an extended frame") as scene:
        scene.receive("E 01234567 D 1 c3")
        dominant_in_intermission(scene, 1)
        scene.recover()
        probe_rec(scene)


@family("overload-last-eof", "bit 7 of the end of frame dominant at a receiver; probe of REC")
def overload_last_eof(book: Book) -> None:
    frames = [("standard", RECEIVED, ()), ("extended", "E 01234567 D 1 c3", ()), ("waiting", RECEIVED, (FRAME,))]
    for suffix, frame, offers in frames:
        with book.case(suffix, "the last bit of the end of frame is dominant: an overload frame") as scene:
            scene.rest(1, "idle")
            scene.stuff_error()
            scene.recover()
            scene.stuff_error()
            scene.recover()
            scene.receive(frame, offers, before=Frame.parse(frame).wire().place("eof 7"))
            scene.play("0", "the last bit of the end of frame dominant")
            scene.recover()
            if offers:
                scene.sent(FRAME)
            probe_rec(scene)


@family("overload-flag-superposed", "1 to 16 dominant bits after an overload flag; probes")
def overload_superposed(book: Book) -> None:
    for dominant in book.rows((1, 7, 8, 16), (2, 9, 15)):
        with book.case(f"rx-{dominant}", f"{dominant_bits(dominant)} after a receiver's overload flag") as scene:
            after_received(scene)
            dominant_in_intermission(scene, 1)
            scene.after_flag(dominant)
            probe_rec(scene)
    for dominant in book.rows((1, 8), (16,)):
        with book.case(f"tx-{dominant}", f"{dominant_bits(dominant)} after a transmitter's overload flag") as scene:
            after_sent(scene)
            dominant_in_intermission(scene, 1)
            scene.after_flag(dominant)
            probe_tec(scene)


@family("overload-flag-bit-error", "a bit of an overload flag forced; probes")
def overload_flag_bit_error(book: Book) -> None:
    standard = (("rx", 1), ("rx", 3), ("rx", 6), ("tx", 1), ("tx", 6))
    for role, level in book.rows(standard, (("rx", 2), ("rx", 5), ("tx", 3))):
        purpose = f"bit {level} of an overload flag is not seen: an error flag"
        with book.case(f"{role}-{level}", purpose, ["flag-error-once"]) as scene:
            after_received(scene) if role == "rx" else after_sent(scene)
            dominant_in_intermission(scene, 2)
            scene.play("1" * (level - 1) + "f", f"flag bit {level} forced")
            scene.rest(6, "an error flag")
            # after an error flag a first dominant bit counts at a receiver, after an overload flag it does not
            scene.play("0", "a dominant bit after the flag")
            scene.rest(8 + 3, "delimiter, intermission")
            probe_rec(scene) if role == "rx" else probe_tec(scene)


@family("overload-delimiter-form-error", "bit 2 to 7 of an overload delimiter dominant; probes")
def overload_delimiter_form_error(book: Book) -> None:
    standard = (("rx", 2), ("rx", 4), ("rx", 7), ("tx", 5))
    for role, level in book.rows(standard, (("rx", 3), ("rx", 5), ("tx", 2))):
        with book.case(f"{role}-{level}", f"bit {level} of an overload delimiter is dominant: an error flag") as scene:
            after_received(scene) if role == "rx" else after_sent(scene)
            dominant_in_intermission(scene, 2)
            scene.rest(6 + level - 1, "the flag, and the delimiter bits before")
            scene.play("0", f"delimiter bit {level} dominant")
            scene.recover()
            probe_rec(scene) if role == "rx" else probe_tec(scene)


OVERLOAD = 6 + 8
OWN_OVERLOAD = ["own-overload"]


def _hold_in_a_frame(scene: Scene, overloads: int, offers: Sequence[str] = ()) -> None:
    scene.receive(RECEIVED, offers, hold=overloads)


@family("overload-own", "requests for overload frames: one or two, renewed, replaced, withdrawn; as transmitter")
def overload_own(book: Book) -> None:
    with book.case("one", "one overload frame requested: it begins instead of intermission", OWN_OVERLOAD) as scene:
        _hold_in_a_frame(scene, 1)
        scene.rest(OVERLOAD, "an own overload frame")
        scene.rest(5, "intermission")
        scene.receive(RECEIVED)
        scene.rest(20, "no other follows")
    with book.case("two", "two overload frames requested", OWN_OVERLOAD) as scene:
        _hold_in_a_frame(scene, 2)
        scene.rest(2 * OVERLOAD, "two own overload frames")
        scene.rest(20, "intermission, and no other follows")
    with book.case("two-each", "two overload frames requested in each of two frames", OWN_OVERLOAD) as scene:
        _hold_in_a_frame(scene, 2)
        scene.rest(2 * OVERLOAD + 5, "two own overload frames, intermission")
        _hold_in_a_frame(scene, 2)
        scene.rest(2 * OVERLOAD + 20, "two own overload frames, and no other follows")
    _later_requests(book)
    _requests_elsewhere(book)
    with book.case("waiting", "a pending frame is sent after the requested overload frames", OWN_OVERLOAD) as scene:
        _hold_in_a_frame(scene, 2, (FRAME,))
        scene.rest(2 * OVERLOAD + 3, "two own overload frames, intermission")
        scene.sent(FRAME)
        scene.rest(10)


def _later_requests(book: Book) -> None:
    with book.case("renewed", "request renewed between two frames: at most two overload frames", OWN_OVERLOAD) as scene:
        _hold_in_a_frame(scene, 2)
        scene.rest(OVERLOAD - 5, "the first own overload frame")
        scene.hold(2)
        scene.rest(2 * OVERLOAD + 10, "the rest of it, a second one, and no other follows")
        scene.receive(RECEIVED)
        scene.rest(OVERLOAD + 10, "the overload frame still requested")
    with book.case("replaced", "a request for one replaces a request for two", OWN_OVERLOAD) as scene:
        scene.hold(2)
        _hold_in_a_frame(scene, 1)
        scene.rest(OVERLOAD + 20, "one own overload frame, and no other follows")
    with book.case("replaced-by-two", "a request for two replaces a request for one", OWN_OVERLOAD) as scene:
        scene.rest(2, "idle")
        scene.hold(1)
        _hold_in_a_frame(scene, 2)
        scene.rest(2 * OVERLOAD + 20, "two own overload frames, and no other follows")
    with book.case("taken-back", "a request is withdrawn", OWN_OVERLOAD) as scene:
        scene.hold(1)
        scene.rest(2)
        scene.hold(0)
        scene.receive(RECEIVED)
        scene.rest(20, "no other follows")


def _requests_elsewhere(book: Book) -> None:
    purpose = "a transmitter sends none after its own frame, but later as a receiver"
    with book.case("as-sender", purpose, OWN_OVERLOAD) as scene:
        scene.receive(RECEIVED, (FRAME,))
        scene.rest(3, "intermission")
        scene.sending(FRAME, 8)
        scene.hold(1)
        slot = Frame.parse(FRAME).wire().place("ack")
        scene.play("1" * (slot - 8) + "0" + "1" * 8 + "1" * 8, "the rest of its frame, and intermission")
        scene.receive(RECEIVED)
        scene.rest(OVERLOAD + 20, "an own overload frame")
    with book.case("after-an-error", "a requested overload frame after an error frame, too", OWN_OVERLOAD) as scene:
        scene.rest(1, "idle")
        scene.hold(1)
        scene.stuff_error()
        scene.rest(6 + 8, "flag, delimiter")
        scene.rest(OVERLOAD + 20, "an own overload frame, and no other follows")
    purpose = "a request during intermission takes effect after the next frame"
    with book.case("in-intermission", purpose, OWN_OVERLOAD) as scene:
        scene.receive(RECEIVED)
        scene.rest(1, "intermission")
        scene.hold(1)
        scene.rest(20, "none begins")
        scene.receive(RECEIVED)
        scene.rest(OVERLOAD + 20, "an own overload frame")
