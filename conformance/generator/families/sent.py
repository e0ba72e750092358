"""Frames that the controller sends, alone and with errors of each kind."""

from __future__ import annotations

from kit.frames import Frame

from generator.book import Book, family
from generator.families.received import (
    AFTER_CRC,
    DLCS,
    IDENTIFIERS,
    MORE_DLCS,
    MORE_IDENTIFIERS,
    MORE_STUFFED,
    STUFFED,
)
from generator.scene import Scene
from generator.search import stuff_place, stuffed_in

FRAME = "S 155 D 2 5aa5"
EXTENDED = "E 0a5a5a5a D 2 5aa5"


def _send_whole(book: Book, frames: list[tuple[str, str]], what: str) -> None:
    for suffix, frame in frames:
        with book.case(suffix, f"{what}: {frame} as it is sent") as scene:
            scene.anchor(frame)
            scene.sent(frame)
            scene.rest(3)


@family("tx-identifiers", "the controller sends the frames of rx-identifiers")
def tx_identifiers(book: Book) -> None:
    _send_whole(book, book.rows(IDENTIFIERS, MORE_IDENTIFIERS), "identifier")


@family("tx-dlc", "the controller sends the frames of rx-dlc")
def tx_dlc(book: Book) -> None:
    _send_whole(book, book.rows(DLCS, MORE_DLCS), "DLC")


@family("tx-stuff", "the controller sends the frames of rx-stuff")
def tx_stuff(book: Book) -> None:
    _send_whole(book, book.rows(STUFFED, MORE_STUFFED), "stuff bits")


@family("tx-stuff-after-crc", "the controller sends the frames of rx-stuff-after-crc")
def tx_stuff_after_crc(book: Book) -> None:
    _send_whole(book, AFTER_CRC, "a stuff bit after the CRC sequence")


def _both_begin(scene: Scene, tester: str, own: str) -> None:
    """The tester's frame begins in the third bit of an intermission. The loser listens, the winner goes on."""
    ours, theirs = Frame.parse(tester).wire(), Frame.parse(own).wire()
    differ = next(place for place, (a, b) in enumerate(zip(ours.levels, theirs.levels)) if a != b)
    scene.rest(2, "two bits of intermission")
    if ours.levels[differ] == "0":
        scene.play(ours.levels, f"sends {tester} from the third bit on")
        scene.rest(3)
        scene.sent(own)
    else:
        slot = theirs.place("ack")
        scene.play(ours.levels[: differ + 1], f"sends {tester} from the third bit on, and loses")
        scene.play("1" * (slot - differ - 1) + "0" + "1" * 8)
        scene.rest(3)


@family("tx-spacing", "three pending frames; the tester begins in the third bit of intermission, loses or wins")
def tx_spacing(book: Book) -> None:
    frames = ["S 100 D 1 11", "S 200 D 1 22", "S 300 D 1 33"]
    with book.case("three", "three pending frames follow one another, three bits apart") as scene:
        scene.anchor(*frames)
        for frame in frames:
            scene.sent(frame)
        scene.rest(3)
    purpose = "the tester begins in the third bit of intermission: the controller does, too, and wins"
    with book.case("third-level-tester-loses", purpose) as scene:
        scene.receive("S 2aa R 0", [frames[0]])
        _both_begin(scene, "S 700 D 1 77", frames[0])
        scene.rest(3)
    purpose = "the tester begins in the third bit of intermission: the controller does, too, and loses"
    with book.case("third-level-tester-wins", purpose) as scene:
        scene.receive("S 2aa R 0", [frames[1]])
        _both_begin(scene, "S 001 D 1 77", frames[1])
        scene.rest(3)
    purpose = "the tester begins in the third bit of intermission after the controller's frame"
    with book.case("third-level-after-own", purpose) as scene:
        scene.anchor(frames[0], frames[1])
        scene.sending(frames[0])
        _both_begin(scene, "S 700 D 1 77", frames[1])
        scene.rest(3)
    purpose = "only a start of frame in the third bit of intermission: the controller sends the rest"
    with book.case("third-level-start-alone", purpose) as scene:
        scene.receive("S 2aa R 0", [frames[0]])
        scene.rest(2, "two bits of intermission")
        slot = Frame.parse(frames[0]).wire().place("ack")
        scene.play("0" + "1" * (slot - 1) + "0" + "1" * 8, "a start of frame")
        scene.rest(3)


@family("tx-order", "frames offered out of priority order; equal ones")
def tx_order(book: Book) -> None:
    equal = ["S 123 D 1 01", "S 123 D 1 02", "S 123 D 1 03"]
    # one base identifier, except in the last: ordered by IDE, the highest and lowest bit of the extension, and RTR
    mixed = ["S 3ff D 0", "E 0ffa0000 D 0", "E 0ff80001 D 0", "E 0ff80000 R 0", "E 0ff80000 D 0", "S 3fe R 0"]
    orders = [
        ("three", "three frames, in order of priority", ["S 300 D 1 33", "S 100 D 1 11", "S 200 D 1 22"], [1, 2, 0]),
        ("equal", "of equal arbitration fields, the one offered first", equal, [0, 1, 2]),
        ("remote", "the data frame before the remote frame", ["S 123 R 1", "S 123 D 1 0f"], [1, 0]),
        ("extended", "extended frames between two standard ones, by priority", mixed, [5, 4, 3, 2, 1, 0]),
    ]
    for suffix, purpose, offers, order in orders:
        with book.case(suffix, f"order of transmission: {purpose}") as scene:
            scene.anchor(*offers)
            for place in order:
                scene.sent(offers[place])
            scene.rest(3)


KEPT, KEPT_EXTENDED = "S 400 D 2 1234", "E 1aaaaaaa D 1 0f"
URGENT = "S 001 D 1 56"


def _offered_within(scene: Scene, frame: str, levels: int = 7) -> None:
    """The controller sends the frame. After this number of bits it is offered one of higher priority."""
    scene.anchor(frame)
    scene.rest(levels, f"listens to {frame}")
    scene.offer(URGENT)


def _kept(scene: Scene, frame: str) -> None:
    _offered_within(scene, frame)
    slot = Frame.parse(frame).wire().place("ack")
    scene.play("1" * (slot - 7) + "0" + "1" * 8 + "111")
    scene.sent(URGENT)
    scene.rest(3)


def _kept_for_later(scene: Scene, frame: str, levels: int) -> None:
    _offered_within(scene, frame, levels)
    scene.rest(Frame.parse(frame).wire().stuffed - levels)
    scene.play("0", "the CRC delimiter dominant")
    scene.recover()
    scene.sent(URGENT)
    scene.sent(frame)
    scene.rest(3)


@family("tx-kept-frame", "a higher-priority frame is offered while the controller sends")
def tx_kept_frame(book: Book) -> None:
    with book.case("sent", "the frame on the bus is sent whole, then the other") as scene:
        _kept(scene, KEPT)
    with book.case("before-an-error", "after an error the higher-priority frame is sent first") as scene:
        _kept_for_later(scene, KEPT, 7)
    with book.case("before-a-loss", "after a lost arbitration the higher-priority frame is sent first") as scene:
        long = "E 10000fff D 0"
        winner = Frame.parse("E 100000ff D 0").wire()
        scene.anchor(long)
        scene.play(winner.levels[:7], "sends E 100000ff D 0")
        scene.offer(URGENT)
        scene.play(winner.levels[7:])
        scene.rest(3)
        scene.sent(URGENT)
        scene.sent(long)
        scene.rest(3)
    with book.case("extended", "an extended frame on the bus is not replaced") as scene:
        _kept(scene, KEPT_EXTENDED)
    if book.is_long:
        _more_kept_frames(book)


def _more_kept_frames(book: Book) -> None:
    with book.case("extended-before-an-error", "after an error the higher-priority frame is sent first") as scene:
        _kept_for_later(scene, KEPT_EXTENDED, 20)
    with book.case("in-end-of-frame", "offered in the end of its own frame, it begins after intermission") as scene:
        scene.anchor(KEPT_EXTENDED)
        slot = Frame.parse(KEPT_EXTENDED).wire().place("ack")
        scene.play("1" * slot + "0" + "1" * 4, f"listens to {KEPT_EXTENDED}")
        scene.offer(URGENT)
        scene.rest(4 + 3, "the rest of the end of frame, intermission")
        scene.sent(URGENT)
        scene.rest(3)


def override(scene: Scene, frame: str, place: int, level: str, comment: str) -> None:
    """The controller sends the frame, which is about to begin; the tester overrides one bit; an error frame follows."""
    scene.sending(frame, place)
    scene.play(level, comment)
    scene.recover()


def _place_of(frame: str, part: str, level: str, index: int = 0) -> int:
    """The place of one of the part's bits with this level, by its index among them."""
    wire = Frame.parse(frame).wire()
    return [place for place in wire.places[part] if wire.levels[place] == level][index]


@family("tx-bit-error-dominant", "a recessive bit after arbitration overridden; then sent again")
def tx_bit_error_dominant(book: Book) -> None:
    cases = [
        ("dlc", FRAME, "dlc", 0),
        ("data-first", FRAME, "data", 0),
        ("data-last", FRAME, "data", -1),
        ("crc-first", FRAME, "crc", 0),
        ("crc-last", EXTENDED, "crc", -1),
        ("crc-delimiter", FRAME, "crc-delimiter", 0),
        ("ack-delimiter", FRAME, "ack-delimiter", 0),
        ("eof-1", FRAME, "eof", 0),
        ("eof-3", FRAME, "eof", 2),
        ("eof-5", EXTENDED, "eof", 4),
        ("eof-6", FRAME, "eof", 5),
        ("eof-7", FRAME, "eof", 6),
    ]
    more = [(f"data-{index + 1}", FRAME, "data", index) for index in (1, 2, 3)]
    more += [(f"crc-{index + 1}", FRAME, "crc", index) for index in (1, 2)]
    more += [(f"eof-{index + 1}", FRAME, "eof", index) for index in (1, 3)]
    more += [("remote-dlc", "S 155 R 5", "dlc", 0), ("remote-crc", "S 155 R 5", "crc", 0)]
    more += [(f"extended-{part}", EXTENDED, part, 0) for part in ("dlc", "data", "crc")]
    more += [("extended-data-last", EXTENDED, "data", -1)]
    more += [(f"extended-{part}", EXTENDED, part, 0) for part in ("crc-delimiter", "ack-delimiter")]
    more += [(f"extended-eof-{index + 1}", EXTENDED, "eof", index) for index in (0, 1, 2, 3, 5, 6)]
    for suffix, frame, part, index in book.rows(cases, more):
        with book.case(suffix, f"a recessive bit of {part} is overridden: an error flag, then sent again") as scene:
            scene.anchor(frame)
            override(scene, frame, _place_of(frame, part, "1", index), "0", f"{suffix} dominant")
            scene.sent(frame)
            scene.rest(3)


@family("tx-bit-error-recessive", "a dominant bit forced recessive; then sent again")
def tx_bit_error_recessive(book: Book) -> None:
    stuffed = "S 7c0 D 2 ff55"
    cases = [
        ("sof", FRAME, "sof"),
        ("identifier", FRAME, "base"),
        ("extension", EXTENDED, "extension"),
        ("rtr", FRAME, "rtr"),
        ("ide", FRAME, "ide"),
        ("r0", FRAME, "r0"),
        ("r1", EXTENDED, "r1"),
        ("dlc", FRAME, "dlc"),
        ("data", FRAME, "data"),
        ("crc", FRAME, "crc"),
    ]
    more = [
        ("extended-identifier", EXTENDED, "base"),
        *[(f"extended-{part}", EXTENDED, part) for part in ("rtr", "dlc", "data", "crc")],
    ]
    places = [(suffix, frame, _place_of(frame, part, "0")) for suffix, frame, part in cases]
    wire = Frame.parse(stuffed).wire()
    places += [("stuff-bit-identifier", stuffed, stuff_place(wire, "base", "0"))]
    places += [("stuff-bit-data", stuffed, stuff_place(wire, "data", "0"))]
    others = [(suffix, frame, _place_of(frame, part, "0")) for suffix, frame, part in more]
    for suffix, frame, place in book.rows(places, others):
        choices = ["own-start"] if suffix == "sof" else []
        with book.case(suffix, f"a dominant bit, {suffix}, is not on the bus: an error flag", choices) as scene:
            scene.anchor(frame)
            override(scene, frame, place, "f", f"{suffix} forced")
            scene.sent(frame)
            scene.rest(3)


@family("tx-stuff-error", "a recessive stuff bit after RTR overridden")
def tx_stuff_error(book: Book) -> None:
    cases = [
        ("control", "S 550 D 0", "dlc"),
        ("data", "S 555 D 2 0000", "data"),
        ("crc", stuffed_in("S", 2, "crc", "1"), "crc"),
        ("after-crc", AFTER_CRC[0][1], "end"),
    ]
    more = [
        ("data-last", "S 555 D 8 0000000000000000", "data"),
        ("extended-control", "E 15555555 D 0", "dlc"),
        ("extended-data", "E 15555555 D 2 0000", "data"),
        ("extended-crc", stuffed_in("E", 2, "crc", "1"), "crc"),
        ("extended-after-crc", AFTER_CRC[2][1], "end"),
    ]
    for suffix, frame, part in book.rows(cases, more):
        wire = Frame.parse(frame).wire()
        number = -1 if suffix == "data-last" else 0
        place = wire.stuff[-1] if part == "end" else stuff_place(wire, part, "1", number)
        with book.case(suffix, f"the stuff bit in {frame} is overridden: an error flag, then sent again") as scene:
            scene.anchor(frame)
            override(scene, frame, place, "0", "the stuff bit dominant")
            scene.sent(frame)
            scene.rest(3)


@family("tx-ack-error", "the ACK slot recessive once or three times; dominant one bit early or late")
def tx_ack_error(book: Book) -> None:
    slot = Frame.parse(FRAME).wire().place("ack")
    for suffix, times in (("once", 1), ("thrice", 3)):
        with book.case(suffix, f"no acknowledgement, {suffix}: an error flag each time, then sent again") as scene:
            scene.anchor(FRAME)
            for _ in range(times):
                override(scene, FRAME, slot, "1", "no acknowledgement")
            scene.sent(FRAME)
            scene.rest(3)
    with book.case("early", "a dominant bit one bit time early is a dominant CRC delimiter") as scene:
        scene.anchor(FRAME)
        override(scene, FRAME, slot - 1, "0", "dominant one bit time early")
        scene.sent(FRAME)
        scene.rest(3)
    with book.case("late", "a dominant bit one bit time late is no acknowledgement") as scene:
        scene.anchor(FRAME)
        scene.sending(FRAME, slot)
        scene.play("10", "no acknowledgement in time, but one bit time late")
        scene.rest(5 + 8 + 3, "the rest of the flag, delimiter, intermission")
        scene.sent(FRAME)
        scene.rest(3)


@family("tx-again", "errors and lost arbitrations in a row; the frame is sent again")
def tx_again(book: Book) -> None:
    def error(scene: Scene) -> None:
        override(scene, FRAME, _place_of(FRAME, "data", "1"), "0", "a data bit dominant")

    def loss(scene: Scene) -> None:
        scene.receive("S 101 D 1 77")
        scene.rest(3)

    def error_in_end(scene: Scene) -> None:
        override(scene, FRAME, _place_of(FRAME, "eof", "1", 5), "0", "bit 6 of the end of frame dominant")

    cases = [
        ("four-errors", [error] * 4),
        ("three-losses", [loss] * 3),
        ("loss-then-error", [loss, error]),
        ("error-then-loss", [error, loss]),
        ("error-in-end-of-frame", [error_in_end]),
    ]
    for suffix, steps in cases:
        with book.case(suffix, f"{suffix.replace('-', ' ')}: the frame is sent again, once") as scene:
            scene.anchor(FRAME)
            for step in steps:
                step(scene)
            scene.sent(FRAME)
            scene.rest(20, "nothing follows")
