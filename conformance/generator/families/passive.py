"""Error passive controllers: their limits, their flags, suspend transmission."""

from __future__ import annotations

from kit.frames import Frame

from generator.book import Book, family
from generator.probes import PROBE_FRAME, break_delimiter, probe_rec, probe_tec, raise_rec, raise_tec
from generator.scene import Scene, dominant_bits

RECEIVED = "S 123 D 1 c3"
OWN = "S 155 D 2 5aa5"
LATER = "S 355 D 1 a5"
WINNER = "S 001 D 1 77"
LOSER = "S 700 D 1 77"
REC_127 = ["rec-127"]


def passive_sender(scene: Scene, *offers: str, goal: int = 128) -> None:
    """An error passive controller that is about to send the first of the frames."""
    scene.anchor(*offers)
    raise_tec(scene, goal, offers[0])
    scene.wait()


def passive_receiver(scene: Scene) -> None:
    """An idle controller that is error passive because of TEC, without a pending frame. REC is 0."""
    passive_sender(scene, PROBE_FRAME, goal=136)
    scene.sent(PROBE_FRAME)
    scene.rest(10, "suspend transmission, idle")


def show_flag(scene: Scene) -> None:
    """A receiver's error: the flag shows whether the controller is error passive."""
    scene.stuff_error()
    scene.recover()
    scene.rest(2)


def show_own_flag(scene: Scene, frame: str = OWN) -> None:
    """A transmitter's error, and the frame is sent again."""
    scene.wait()
    scene.sending(frame, Frame.parse(frame).wire().stuffed)
    scene.play("0", "the CRC delimiter dominant")
    scene.recover()
    scene.wait()
    scene.sent(frame)
    scene.rest(12)


@family("passive-limit", "REC and TEC to 120, 127, 128 and above, and back; the kind of flag shows each")
def passive_limit(book: Book) -> None:
    for goal in (120, 127, 128, 140):
        with book.case(f"rec-{goal}", f"the flag of a receiver with a REC of {goal}") as scene:
            scene.rest(1, "idle")
            raise_rec(scene, goal)
            show_flag(scene)
            if goal == 140:
                scene.stuff_error()
                scene.after_flag(8 * 16)
    with book.case("rec-back", "a frame received brings REC back below the limit", REC_127) as scene:
        scene.rest(1, "idle")
        raise_rec(scene, 128)
        scene.receive(RECEIVED)
        scene.rest(5)
        show_flag(scene)
    with book.case("rec-as-sender", "a REC of 128 makes a transmitter error passive, too") as scene:
        scene.rest(1, "idle")
        raise_rec(scene, 128)
        scene.receive(WINNER, (OWN,), before=Frame.parse(WINNER).wire().stuffed)
        scene.play("0", "the CRC delimiter dominant, so that REC stays above its limit")
        scene.recover()
        show_own_flag(scene)
    for goal in (120, 128, 136):
        with book.case(f"tec-{goal}", f"the flag of a transmitter with a TEC of {goal}") as scene:
            scene.rest(1, "idle")
            # both counters below the limit, their sum above it
            raise_rec(scene, 100 if goal == 120 else 0)
            scene.anchor(OWN)
            raise_tec(scene, goal, OWN)
            show_own_flag(scene)
    with book.case("tec-back", "a frame sent brings TEC back below the limit") as scene:
        passive_sender(scene, OWN, OWN)
        scene.sent(OWN)
        show_own_flag(scene)
    with book.case("tec-as-receiver", "a TEC of 135 makes a receiver error passive, too") as scene:
        passive_receiver(scene)
        show_flag(scene)


@family("rec-wraps", "REC to 255 and beyond, by dominant bits or by errors; then a frame")
def rec_wraps(book: Book) -> None:
    with book.case("by-runs", "dominant bits after a flag take REC to its maximum", REC_127) as scene:
        scene.rest(1, "idle")
        scene.stuff_error()
        scene.after_flag(8 * 32)
        show_flag(scene)
        scene.receive(RECEIVED)
        scene.rest(5)
        probe_rec(scene)
    with book.case("by-errors", "single errors take REC to its maximum", REC_127) as scene:
        scene.rest(1, "idle")
        scene.stuff_error()
        scene.after_flag(8 * 30)
        for _ in range(10):
            show_flag(scene)
        scene.receive(RECEIVED)
        scene.rest(5)
        probe_rec(scene)


PATTERNS = [
    ("recessive", "111111"),
    ("dominant", "000000"),
    ("one-dominant", "0111111"),
    ("five-and-six", "00000111111"),
    ("alternating", "0101010111111"),
    ("five-recessive", "11111000000"),
    ("two-fives", "1111100000111111"),
    ("late-dominant", "1110000001"),
    ("last-dominant", "111110111111"),
]
MORE_PATTERNS = [
    ("two-late-dominant", "11100000111111"),
    ("pairs", "110011001111110"),
    ("five-dominant-often", "0000010000010000011111101"),
]


@family("passive-flag-rx", "patterns within a receiver's passive flag; the start of a frame shows its end")
def passive_flag_rx(book: Book) -> None:
    for suffix, pattern in book.rows(PATTERNS, MORE_PATTERNS):
        with book.case(suffix, f"{pattern} on the bus during a passive flag") as scene:
            scene.rest(1, "idle")
            raise_rec(scene, 128)
            scene.receive(WINNER, (OWN,), before=Frame.parse(WINNER).wire().stuffed)
            scene.play("0", "the CRC delimiter dominant")
            scene.play(pattern, "within the passive flag")
            scene.wait("delimiter, intermission")
            scene.sent(OWN)
            scene.rest(12)


@family("passive-flag-tx", "patterns within a transmitter's passive flag; the start of the frame shows its end")
def passive_flag_tx(book: Book) -> None:
    for suffix, pattern in book.rows(PATTERNS[:1] + PATTERNS[3:], PATTERNS[1:3] + MORE_PATTERNS):
        with book.case(suffix, f"{pattern} on the bus during a passive flag") as scene:
            passive_sender(scene, OWN)
            scene.sending(OWN, Frame.parse(OWN).wire().stuffed)
            scene.play("0", "the CRC delimiter dominant")
            scene.play(pattern, "within the passive flag")
            scene.wait("delimiter, intermission, suspend transmission")
            scene.sent(OWN)
            scene.rest(12)


@family("passive-flag-overload", "a dominant bit in the delimiter or intermission after a passive flag")
def passive_flag_overload(book: Book) -> None:
    places = [("intermission-1", 8), ("intermission-2", 9), ("delimiter-8", 7), ("delimiter-5", 4)]
    for suffix, before in book.rows(places, [("delimiter-2", 1)]):
        with book.case(f"rx-{suffix}", f"{suffix} dominant after a receiver's passive flag") as scene:
            passive_receiver(scene)
            scene.stuff_error()
            scene.rest(6 + before, "the passive flag, and bits after it")
            scene.play("0", f"{suffix} dominant")
            scene.recover()
            scene.rest(3)
    for suffix, before in (places[0], places[2]):
        with book.case(f"tx-{suffix}", f"{suffix} dominant after a transmitter's passive flag") as scene:
            passive_sender(scene, OWN)
            scene.sending(OWN, Frame.parse(OWN).wire().stuffed)
            scene.play("0", "the CRC delimiter dominant")
            scene.rest(6 + before, "the passive flag, and bits after it")
            scene.play("0", f"{suffix} dominant")
            scene.recover("overload flag, delimiter, intermission")
            scene.wait("suspend transmission")
            scene.sent(OWN)
            scene.rest(12)
    if book.is_long:
        _unseen_overload_flag(book)


def _unseen_overload_flag(book: Book) -> None:
    purpose = "a bit of an overload flag is not seen: dominant bits in the passive flag after it do not count"
    with book.case("tx-flag-bit", purpose, ["flag-error-once"]) as scene:
        passive_sender(scene, OWN, OWN, goal=136)
        scene.sending(OWN)
        scene.play("0", "the first bit of intermission dominant")
        scene.play("11f", "bit 3 of the overload flag forced")
        scene.play("0111111", "within the passive flag, the first bit dominant")
        scene.wait("delimiter, intermission, suspend transmission")
        scene.sent(OWN)
        probe_tec(scene)


@family("passive-receiver", "an error passive receiver: a frame, each kind of error, no suspend transmission")
def passive_receiver_family(book: Book) -> None:
    with book.case("frame", "a frame is acknowledged") as scene:
        passive_receiver(scene)
        scene.receive(RECEIVED)
        scene.rest(5)
    _receivers_errors(book)
    with book.case("delimiter", "a dominant bit in a delimiter: another passive flag") as scene:
        passive_receiver(scene)
        scene.stuff_error()
        scene.rest(6 + 3, "passive flag, three bits of the delimiter")
        scene.play("0", "delimiter bit 4 dominant")
        scene.recover()
        scene.receive(RECEIVED)
        scene.rest(5)
    with book.case("no-suspend", "a receiver has no suspend transmission before its frame") as scene:
        passive_receiver(scene)
        scene.receive(RECEIVED, (OWN,))
        scene.wait()
        scene.sent(OWN)
        scene.rest(12)
    with book.case("joins", "a frame begins in the third bit of intermission: the own pending one is sent") as scene:
        passive_receiver(scene)
        scene.receive(RECEIVED, (OWN,))
        scene.rest(2, "two bits of intermission")
        scene.play("0", "the third one dominant")
        scene.play("1" * (Frame.parse(OWN).wire().place("ack") - 1) + "0" + "1" * 8, f"listens to {OWN}")
        scene.rest(12)
    if book.is_long:
        _receivers_overload_frames(book)


def _receivers_errors(book: Book) -> None:
    wire = Frame.parse(RECEIVED).wire()
    wrong = Frame.parse(RECEIVED).wire("crc-5")
    errors = [
        ("stuff", "000000"),
        ("crc", wrong.acknowledged()[: wrong.place("eof 1")]),
        ("crc-delimiter", wire.levels[: wire.stuffed] + "0"),
        ("end-of-frame", wire.levels[: wire.place("eof 4")] + "0"),
        ("acknowledgement-unseen", wire.levels[: wire.place("ack")] + "f"),
    ]
    for suffix, levels in errors:
        with book.case(suffix, f"an error at {suffix}: the flag is passive") as scene:
            passive_receiver(scene)
            scene.play(levels, f"an error: {suffix}")
            scene.after_flag(1 if suffix == "crc-delimiter" else 0)
            scene.receive(RECEIVED)
            scene.rest(5)


def _receivers_overload_frames(book: Book) -> None:
    with book.case("last-eof", "the last bit of the end of frame is dominant: an active overload flag") as scene:
        passive_receiver(scene)
        scene.receive(RECEIVED, before=Frame.parse(RECEIVED).wire().place("eof 7"))
        scene.play("0", "the last bit of the end of frame dominant")
        scene.recover()
        show_flag(scene)
    purpose = "a bit of an overload flag is not seen: a passive error flag"
    with book.case("overload-flag-bit", purpose, ["flag-error-once"]) as scene:
        passive_receiver(scene)
        scene.receive(RECEIVED)
        scene.play("0", "the first bit of intermission dominant")
        scene.play("11f", "bit 3 of the overload flag forced")
        scene.recover("a passive flag, delimiter, intermission")
        scene.receive(RECEIVED)
        scene.rest(5)
    with book.case("own-overload", "a requested overload frame: its flag is active", ["own-overload"]) as scene:
        passive_receiver(scene)
        scene.receive(RECEIVED, hold=1)
        scene.rest(6 + 8 + 3, "an own overload frame, intermission")
        show_flag(scene)


@family("suspend", "after an error, a sent frame, an overload frame; TEC back to 127; nothing pending")
def suspend(book: Book) -> None:
    with book.case("after-error", "a passive transmitter waits eight bits after an error") as scene:
        passive_sender(scene, OWN, goal=136)
        show_own_flag(scene)
    with book.case("after-success", "a passive transmitter waits eight bits after a sent frame") as scene:
        passive_sender(scene, OWN, OWN, goal=136)
        scene.sent(OWN)
        scene.wait("suspend transmission")
        scene.sent(OWN)
        scene.rest(12)
    with book.case("after-overload", "a passive transmitter waits eight bits after an overload frame") as scene:
        passive_sender(scene, OWN, OWN, goal=136)
        scene.sending(OWN)
        scene.play("0", "the first bit of intermission dominant")
        scene.recover()
        scene.wait("suspend transmission")
        scene.sent(OWN)
        scene.rest(12)
    with book.case("back-to-127", "no suspend transmission if the sent frame brings TEC to 127") as scene:
        passive_sender(scene, OWN, OWN)
        scene.sent(OWN)
        scene.sent(OWN)
        scene.rest(12)
    with book.case("nothing-waits", "suspend transmission with nothing pending: a frame offered in it waits") as scene:
        passive_sender(scene, OWN, goal=136)
        scene.sent(OWN)
        scene.rest(2, "two bits of suspend transmission")
        scene.offer(OWN)
        scene.wait("the rest of suspend transmission")
        scene.sent(OWN)
        scene.rest(12)


def _suspended(scene: Scene) -> None:
    """An error passive transmitter at the end of its frame, before intermission; LATER is pending."""
    passive_sender(scene, OWN, LATER, goal=144)
    scene.sending(OWN)


def _meets(scene: Scene, level: int) -> None:
    scene.rest(3 + level - 1, f"intermission, then suspend transmission before its bit {level}")


def _received(scene: Scene, frame: str, waiting: str) -> None:
    """A frame of the tester; the controller's own begins right after intermission."""
    scene.receive(frame)
    scene.rest(3, "intermission, no suspend transmission")
    scene.sent(waiting)
    scene.rest(12)


@family("suspend-reception", "the tester begins in bit 1 to 9 of suspend transmission, or before; errors, losses")
def suspend_reception(book: Book) -> None:
    for level in book.rows((1, 4, 8), (2, 3, 5, 6, 7)):
        with book.case(f"at-{level}", f"a frame begins in bit {level} of suspend transmission: received") as scene:
            _suspended(scene)
            _meets(scene, level)
            _received(scene, LOSER, LATER)
    with book.case("at-9", "a frame begins right after suspend transmission, as its own does, and loses") as scene:
        _suspended(scene)
        _meets(scene, 9)
        scene.wins(LATER, LOSER)
        scene.rest(12)
    with book.case("intermission-3", "a frame begins in the third bit of intermission: it is received") as scene:
        _suspended(scene)
        scene.rest(2, "two bits of intermission")
        _received(scene, LOSER, LATER)
    with book.case("error", "an error in a frame that began in suspend transmission is a receiver's") as scene:
        _suspended(scene)
        _meets(scene, 3)
        scene.stuff_error()
        scene.recover("a passive flag, delimiter, intermission, no suspend transmission")
        scene.sent(LATER)
        scene.rest(12)
    with book.case("lost", "no suspend transmission after a lost arbitration") as scene:
        passive_sender(scene, OWN, goal=136)
        _received(scene, WINNER, OWN)
    with book.case("lost-after-suspend", "arbitration lost after suspend transmission: it is not repeated") as scene:
        _suspended(scene)
        _meets(scene, 9)
        _received(scene, WINNER, LATER)


def _unacknowledged(scene: Scene, pattern: str, frame: str = OWN) -> None:
    """An error passive transmitter without acknowledgement: the pattern follows the ACK slot, then the frame again."""
    scene.sending(frame, Frame.parse(frame).wire().place("ack"))
    scene.play("1", "no acknowledgement")
    flag, _, delimiter = pattern.partition(" ")
    scene.play(flag, "within the passive flag")
    scene.play(delimiter, "within the delimiter")
    scene.wait("delimiter, intermission, suspend transmission")
    scene.sent(frame)


@family(
    "passive-unacknowledged",
    "alone 40 times; dominant bits within the flag, after it, in the delimiter; probes of TEC",
)
def passive_unacknowledged(book: Book) -> None:
    with book.case("alone", "alone on the bus its TEC stays at 128") as scene:
        scene.anchor(PROBE_FRAME)
        for _ in range(40):
            scene.wait("flag, delimiter, intermission, and suspend transmission if error passive")
            slot = Frame.parse(PROBE_FRAME).wire().place("ack")
            scene.sending(PROBE_FRAME, slot)
            scene.rest(1, "no acknowledgement")
        scene.wait("flag, delimiter, intermission, suspend transmission")
        scene.sent(PROBE_FRAME)
        scene.rest(12)
    patterns: tuple[tuple[str, str, str], ...] = (
        ("nothing-dominant", "111111", "TEC stays; the error before it counted"),
        ("level-1", "0111111", "a dominant first bit counts"),
        ("level-3", "110111111", "a dominant third bit counts"),
        ("level-6", "111110111111", "a dominant sixth bit counts"),
        ("several", "01101111111", "several dominant bits count once"),
        ("completed", "000000", "dominant bits that complete the flag count once"),
        ("after-flag", "1111110", "a dominant bit after the flag does not count"),
        ("delimiter-4", "111111 1110", "a dominant fourth bit of the delimiter counts only as an error of its own"),
        ("delimiter-8", "111111 11111110111111", "a dominant last bit of the delimiter does not count"),
    )
    more = (
        ("level-2", "10111111", "a dominant second bit counts"),
        ("level-4", "1110111111", "a dominant fourth bit counts"),
        ("level-5", "11110111111", "a dominant fifth bit counts"),
    )
    for suffix, pattern, purpose in book.rows(patterns, more):
        with book.case(suffix, f"a missing acknowledgement while passive: {purpose}") as scene:
            passive_sender(scene, OWN)
            if suffix == "nothing-dominant":
                break_delimiter(scene, OWN, 0)
                scene.wait()
            _unacknowledged(scene, pattern)
            probe_tec(scene)


@family("passive-after-flag", "dominant bits complete the flag, and more follow; probe of TEC")
def passive_after_flag(book: Book) -> None:
    for dominant in book.rows((1, 2, 8, 16), (9,)):
        with book.case(str(dominant), f"{dominant_bits(dominant)} after a passive flag that six completed") as scene:
            passive_sender(scene, OWN)
            scene.sending(OWN, Frame.parse(OWN).wire().stuffed)
            scene.play("0", "the CRC delimiter dominant")
            scene.play("000000", "completes the passive flag")
            scene.play("0" * dominant, f"{dominant_bits(dominant)} after it")
            scene.wait("delimiter, intermission, suspend transmission")
            scene.sent(OWN)
            probe_tec(scene)
