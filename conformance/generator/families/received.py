"""Frames that the controller receives, whole and broken."""

from __future__ import annotations

from kit.frames import Frame, opposite

from generator.book import Book, family
from generator.probes import probe_rec
from generator.scene import Scene
from generator.search import ends_stuffed, stuff_place, stuffed_in

IDENTIFIERS = [
    ("all-dominant", "S 000 D 1 5a"),
    ("all-recessive", "S 7ff D 1 5a"),
    ("mixed", "S 555 D 1 5a"),
    ("other-mixed", "S 2aa D 1 a5"),
    ("seven-recessive", "S 7f0 D 1 5a"),
    ("extended-all-dominant", "E 00000000 D 1 5a"),
    ("extended-all-recessive", "E 1fffffff D 1 5a"),
    ("extended-mixed", "E 15555555 D 1 5a"),
    ("extended-seven-recessive", "E 1fc12345 D 1 5a"),
]
MORE_IDENTIFIERS = [
    ("lowest-recessive", "S 001 D 1 5a"),
    ("highest-recessive", "S 400 D 1 5a"),
    ("halves", "S 03f D 1 5a"),
    ("extended-lowest-recessive", "E 00000001 D 1 5a"),
    ("extended-highest-recessive", "E 10000000 D 1 5a"),
    ("extended-base-recessive", "E 1ffc0000 D 1 5a"),
    ("extended-extension-recessive", "E 0003ffff D 1 5a"),
]
DLCS = [
    ("data-0", "S 123 D 0"),
    ("data-1", "S 123 D 1 c3"),
    ("data-7", "S 123 D 7 01234567890abc"),
    ("data-8", "S 123 D 8 0123456789abcdef"),
    ("data-9", "S 123 D 9 0123456789abcdef"),
    ("data-15", "S 123 D 15 0123456789abcdef"),
    ("remote-1", "S 123 R 1"),
    ("remote-8", "S 123 R 8"),
    ("remote-15", "S 123 R 15"),
    ("extended-data-11", "E 01234567 D 11 fedcba9876543210"),
    ("extended-remote-4", "E 01234567 R 4"),
]
_EIGHT = "0123456789abcdef"
MORE_DLCS = [
    *[(f"data-{dlc}", f"S 123 D {dlc} {_EIGHT[: 2 * dlc]}") for dlc in (2, 3, 4, 5, 6)],
    *[(f"data-{dlc}", f"S 123 D {dlc} {_EIGHT}") for dlc in (10, 11, 12, 13, 14)],
    ("remote-0", "S 123 R 0"),
    ("remote-9", "S 123 R 9"),
    ("extended-data-0", "E 01234567 D 0"),
    ("extended-data-8", f"E 01234567 D 8 {_EIGHT}"),
    ("extended-data-15", f"E 01234567 D 15 {_EIGHT}"),
    ("extended-remote-0", "E 01234567 R 0"),
    ("extended-remote-15", "E 01234567 R 15"),
]
STUFFED = [
    ("dominant-runs", "S 000 D 8 0000000000000000"),
    ("recessive-runs", "S 7ff D 8 ffffffffffffffff"),
    ("runs-of-stuff-bits", "S 078 D 8 787878783c3c3c3c"),
    ("extended-runs", "E 00003fff D 8 000000ffffff07c1"),
]
MORE_STUFFED = [
    ("alternating", "S 555 D 8 aaaaaaaaaaaaaaaa"),
    ("runs-of-four", "S 0f0 D 8 f0f0f0f0f0f0f0f0"),
    ("runs-of-five", "S 01f D 8 07c1f07c1f07c1f0"),
    ("extended-dominant-runs", "E 00000000 D 8 0000000000000000"),
    ("extended-recessive-runs", "E 1fffffff D 8 ffffffffffffffff"),
]
AFTER_CRC = [
    ("recessive", ends_stuffed("S", 2, "1")),
    ("dominant", ends_stuffed("S", 2, "0")),
    ("extended-recessive", ends_stuffed("E", 2, "1")),
    ("extended-dominant", ends_stuffed("E", 2, "0")),
]


def _receive_whole(book: Book, frames: list[tuple[str, str]], what: str) -> None:
    for suffix, frame in frames:
        with book.case(suffix, f"{what}: {frame} is received and acknowledged") as scene:
            scene.rest(1, "idle")
            scene.receive(frame)
            scene.rest(5, "intermission, idle")


@family("rx-identifiers", "the tester sends identifiers of all kinds")
def rx_identifiers(book: Book) -> None:
    _receive_whole(book, book.rows(IDENTIFIERS, MORE_IDENTIFIERS), "identifier")


@family("rx-dlc", "the tester sends data and remote frames with DLC 0 to 15")
def rx_dlc(book: Book) -> None:
    _receive_whole(book, book.rows(DLCS, MORE_DLCS), "DLC")


@family("rx-reserved", "SRR, r1, r0 at the other level; the CRC sequence is that of the bits sent")
def rx_reserved(book: Book) -> None:
    standard, extended = "S 123 D 1 c3", "E 01234567 D 1 c3"
    cases = [
        ("r0", standard, {"r0": "1"}),
        ("extended-srr", extended, {"srr": "0"}),
        ("extended-r1", extended, {"r1": "1"}),
        ("extended-r0", extended, {"r0": "1"}),
        ("extended-r1-r0", extended, {"r1": "1", "r0": "1"}),
        ("extended-all", extended, {"srr": "0", "r1": "1", "r0": "1"}),
    ]
    more = [
        ("remote-r0", "S 123 R 1", {"r0": "1"}),
        ("extended-srr-r0", extended, {"srr": "0", "r0": "1"}),
    ]
    for suffix, frame, given in book.rows(cases, more):
        purpose = f"{', '.join(given)} at the other level: the frame is acknowledged"
        with book.case(suffix, purpose, ["reserved-levels"]) as scene:
            scene.rest(1, "idle")
            scene.receive(frame, wire=Frame.parse(frame).wire(**given))
            scene.rest(5)


@family("rx-stuff", "frames with long runs of equal bits, and with runs that begin with stuff bits")
def rx_stuff(book: Book) -> None:
    _receive_whole(book, book.rows(STUFFED, MORE_STUFFED), "stuff bits")


@family("rx-stuff-after-crc", "CRC sequences that end with five equal bits")
def rx_stuff_after_crc(book: Book) -> None:
    _receive_whole(book, AFTER_CRC, "a stuff bit after the CRC sequence")


@family("rx-spacing", "frames 2, 3 and 200 recessive bits apart")
def rx_spacing(book: Book) -> None:
    for gap in book.rows((3, 2, 200), (20,)):
        with book.case(f"gap-{gap}", f"a frame begins {gap} bits after another: both are acknowledged") as scene:
            scene.receive("S 123 D 1 c3")
            scene.rest(gap, "between the frames")
            scene.receive("S 124 D 1 3c")
            scene.rest(5)


@family("rx-ack", "other nodes acknowledge, or nobody; the controller's own frame")
def rx_ack(book: Book) -> None:
    with book.case("others-too", "other nodes acknowledge the received frame, too") as scene:
        wire = Frame.parse("S 123 D 1 c3").wire()
        scene.play(wire.acknowledged(), "sends S 123 D 1 c3 and acknowledges it")
        scene.rest(5)
    with book.case("own", "a transmitter does not acknowledge its own frame") as scene:
        scene.anchor("S 123 D 1 c3")
        scene.sent("S 123 D 1 c3")
        scene.rest(5)
    with book.case("nobody", "nobody acknowledges its own frame: it is sent again") as scene:
        scene.anchor("S 123 D 1 c3")
        slot = Frame.parse("S 123 D 1 c3").wire().place("ack")
        scene.sending("S 123 D 1 c3", slot)
        scene.rest(1, "no acknowledgement")
        scene.recover()
        scene.sent("S 123 D 1 c3")
        scene.rest(3)


STUFF_ERRORS = [
    ("identifier-dominant", "S 000 D 0", "base", "1"),
    ("identifier-recessive", "S 7ff D 0", "base", "0"),
    ("extended-base-dominant", "E 00000000 D 0", "base", "1"),
    ("extension-dominant", "E 15540000 D 0", "extension", "1"),
    ("extension-recessive", "E 1553ffff D 0", "extension", "0"),
    ("control-dominant", "S 550 D 0", "dlc", "1"),
    ("data-dominant", "S 555 D 2 0000", "data", "1"),
    ("data-recessive", "S 555 D 2 ffff", "data", "0"),
    ("crc-dominant", stuffed_in("S", 2, "crc", "1"), "crc", "1"),
    ("crc-recessive", stuffed_in("S", 2, "crc", "0"), "crc", "0"),
    ("extended-crc", stuffed_in("E", 3, "crc", "1"), "crc", "1"),
    ("after-crc-dominant", AFTER_CRC[0][1], "crc", "1"),
    ("after-crc-recessive", AFTER_CRC[1][1], "crc", "0"),
    ("extended-after-crc", AFTER_CRC[3][1], "crc", "0"),
]


MORE_STUFF_ERRORS = [
    ("identifier-second", "S 000 D 0", "base", "1"),
    ("rtr-dominant", stuffed_in("S", 0, "rtr", "1"), "rtr", "1"),
    ("ide-dominant", stuffed_in("S", 0, "ide", "1"), "ide", "1"),
    ("r0-dominant", stuffed_in("S", 0, "r0", "1"), "r0", "1"),
    ("extended-srr-recessive", stuffed_in("E", 0, "srr", "0"), "srr", "0"),
    ("extended-ide-recessive", stuffed_in("E", 0, "ide", "0"), "ide", "0"),
    ("extended-rtr-dominant", stuffed_in("E", 0, "rtr", "1"), "rtr", "1"),
    ("extended-r1-dominant", stuffed_in("E", 0, "r1", "1"), "r1", "1"),
    ("extended-r0-dominant", stuffed_in("E", 0, "r0", "1"), "r0", "1"),
    ("extended-control-dominant", "E 15555555 D 0", "dlc", "1"),
    ("extended-data-dominant", "E 15555555 D 2 0000", "data", "1"),
    ("extended-data-recessive", "E 15555555 D 2 ffff", "data", "0"),
    ("extended-crc-recessive", stuffed_in("E", 3, "crc", "0"), "crc", "0"),
    ("data-last-dominant", "S 555 D 8 0000000000000000", "data", "1"),
    ("data-last-recessive", "S 555 D 8 ffffffffffffffff", "data", "0"),
    ("extended-after-crc-dominant", AFTER_CRC[2][1], "crc", "1"),
]
# which of the part's stuff bits is meant, if not the first
STUFF_NUMBERS = {"identifier-second": 1, "data-last-dominant": -1, "data-last-recessive": -1}


def break_stuff_bit(scene: Scene, frame: str, part: str, level: str, after_crc: bool = False, number: int = 0) -> None:
    """The tester's frame before a stuff bit, then that bit at the wrong level."""
    wire = Frame.parse(frame).wire()
    place = wire.stuff[-1] if after_crc else stuff_place(wire, part, level, number)
    if place < 0:
        raise ValueError(f"{scene.case.name}: no such stuff bit")
    scene.receive(frame, before=place)
    scene.play(opposite(level), "the stuff bit at the wrong level")


@family("rx-stuff-error", "the tester's frame before a stuff bit, then that bit at the wrong level")
def rx_stuff_error(book: Book) -> None:
    for suffix, frame, part, level in book.rows(STUFF_ERRORS, MORE_STUFF_ERRORS):
        with book.case(suffix, f"a wrong stuff bit in {frame} starts an error flag") as scene:
            break_stuff_bit(scene, frame, part, level, "after-crc" in suffix, STUFF_NUMBERS.get(suffix, 0))
            scene.recover()
            scene.rest(3)


CRC_ERRORS = [
    ("first-bit", "S 123 D 2 c3a5", "crc-0", False),
    ("middle-bit", "S 123 D 2 c3a5", "crc-7", False),
    ("last-bit", "S 123 D 2 c3a5", "crc-14", False),
    ("identifier", "S 123 D 2 c3a5", "base-9", False),
    ("data", "S 123 D 2 c3a5", "data-11", False),
    ("others-acknowledge", "S 123 D 2 c3a5", "crc-9", True),
    ("extended-last-bit", "E 01234567 D 2 c3a5", "crc-14", False),
    ("extended-data", "E 01234567 D 2 c3a5", "data-2", False),
    ("extended-others-acknowledge", "E 01234567 D 2 c3a5", "extension-4", True),
]


MORE_CRC_ERRORS = [
    *[(f"crc-{bit}", "S 123 D 2 c3a5", f"crc-{bit}", False) for bit in (2, 4, 5, 9, 11, 13)],
    ("identifier-first", "S 123 D 2 c3a5", "base-0", False),
    ("data-first", "S 123 D 2 c3a5", "data-0", False),
    ("data-last", "S 123 D 2 c3a5", "data-15", False),
    ("extended-first-bit", "E 01234567 D 2 c3a5", "crc-0", False),
    ("extended-middle-bit", "E 01234567 D 2 c3a5", "crc-7", False),
    ("extended-base", "E 01234567 D 2 c3a5", "base-3", False),
    ("extended-extension-last", "E 01234567 D 2 c3a5", "extension-17", False),
]


@family("rx-crc-error", "one bit inverted before stuffing; with and without an acknowledgement by others")
def rx_crc_error(book: Book) -> None:
    for suffix, frame, inverted, others in book.rows(CRC_ERRORS, MORE_CRC_ERRORS):
        purpose = f"{inverted} inverted in {frame}: not acknowledged, an error flag after the ACK delimiter"
        with book.case(suffix, purpose) as scene:
            wire = Frame.parse(frame).wire(inverted)
            levels = wire.acknowledged() if others else wire.levels
            scene.play(levels[: wire.place("eof 1")], f"sends {frame} with {inverted} inverted")
            scene.recover()
            scene.rest(3)


@family("rx-form-error", "a delimiter, also after a wrong CRC sequence, or bit 1 to 6 of the end of frame dominant")
def rx_form_error(book: Book) -> None:
    standard, extended = "S 123 D 2 c3a5", "E 01234567 D 2 c3a5"
    parts = ("crc-delimiter", "ack-delimiter", "eof 1", "eof 3", "eof 5", "eof 6")
    places = [(standard, part, "") for part in parts]
    places += [(standard, part, "crc-3") for part in parts[:2]]
    more = [(standard, part, "") for part in ("eof 2", "eof 4")]
    more += [(extended, part, "") for part in ("crc-delimiter", "ack-delimiter", "eof 1", "eof 6")]
    for frame, part, inverted in book.rows(places, more):
        suffix = ("extended-" if frame == extended else "") + part.replace(" ", "-")
        suffix += "-wrong-crc" if inverted else ""
        wrong = ", CRC sequence wrong" if inverted else ""
        with book.case(suffix, f"{part} dominant{wrong}: an error flag, and REC rises by 1") as scene:
            wire = Frame.parse(frame).wire(inverted)
            scene.receive(frame, before=wire.place(part), wire=wire)
            scene.play("0", f"{part} dominant")
            scene.recover()
            if part.startswith("eof"):
                probe_rec(scene)
            scene.rest(3)


@family("rx-ack-unseen", "the ACK slot forced")
def rx_ack_unseen(book: Book) -> None:
    for suffix, frame in (("standard", "S 123 D 2 c3a5"), ("extended", "E 01234567 D 2 c3a5")):
        with book.case(suffix, "its acknowledgement does not appear on the bus: an error flag") as scene:
            scene.receive(frame, before=Frame.parse(frame).wire().place("ack"))
            scene.play("f", "the ACK slot forced")
            scene.recover()
            scene.rest(3)
