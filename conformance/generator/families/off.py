"""Bus-off and recovery; bus integration; the start of a frame."""

from __future__ import annotations

from typing import Callable, ContextManager

from kit.frames import Frame

from generator.book import Book, family
from generator.probes import PROBE_FRAME, break_delimiter, probe_rec, probe_tec, raise_tec
from generator.scene import Scene

RECEIVED = "S 123 D 1 c3"
OWN = "S 155 D 2 5aa5"
Step = Callable[[Scene], None]


def tec_to(scene: Scene, goal: int, offers: int = 1) -> None:
    """OWN is about to be sent, and TEC is the goal, a multiple of 8."""
    scene.anchor(*[OWN] * offers)
    raise_tec(scene, goal, OWN)
    scene.wait()


def _tester_sends(scene: Scene) -> None:
    """A pending frame is sent if the controller is not bus-off. Then the tester sends one, which shows the same."""
    waits = len(scene.case.offers) > sum(event.startswith("sent ") for _, event in scene.events)
    if waits and scene.state()[0] != "off":
        scene.wait()
        scene.sent(OWN)
    scene.rest(30, "as long as an error frame and suspend transmission")
    scene.receive(RECEIVED)
    scene.rest(12)


def _at_248(step: Step) -> Step:
    """The step, from a TEC of 248."""

    def make(scene: Scene) -> None:
        tec_to(scene, 248)
        step(scene)

    return make


def _at_247(step: Step) -> Step:
    """The step, from a TEC of 247: 248, and one frame sent."""

    def make(scene: Scene) -> None:
        tec_to(scene, 248, offers=2)
        scene.sent(OWN)
        scene.wait()
        step(scene)

    return make


def _nothing(scene: Scene) -> None:
    pass


def _error(scene: Scene) -> None:
    break_delimiter(scene, OWN, 0)


def _two_errors(scene: Scene) -> None:
    _error(scene)
    scene.wait()
    _error(scene)


def _run(scene: Scene) -> None:
    break_delimiter(scene, OWN, 8)


def _unacknowledged(scene: Scene) -> None:
    scene.sending(OWN, Frame.parse(OWN).wire().place("ack"))
    scene.play("1", "no acknowledgement")
    scene.play("0", "a dominant bit within the passive flag")


def _bit_error(scene: Scene) -> None:
    scene.sending(OWN, 20)
    wire = Frame.parse(OWN).wire()
    place = next(place for place in wire.places["data"] if wire.levels[place] == "1")
    scene.rest(place - 20)
    scene.play("0", "a data bit dominant")


def _overload_flag(scene: Scene) -> None:
    scene.sending(OWN)
    scene.play("0", "the first bit of intermission dominant")
    scene.play("11f", "a bit of the overload flag forced")


def _overload_run(scene: Scene) -> None:
    scene.sending(OWN)
    scene.play("0", "the first bit of intermission dominant")
    scene.rest(6, "the overload flag")
    scene.play("0" * 16, "16 dominant bits after it")


# the cases that rest on a choice
CHOSEN = {"255-by-overload-flag": ["flag-error-once"]}
LIMITS: list[tuple[str, str, Step]] = [
    ("248", "a TEC of 248 is not bus-off", _at_248(_nothing)),
    ("255", "a TEC of 255 is not bus-off", _at_247(_error)),
    ("256-by-error", "an error brings TEC to 256: bus-off", _at_248(_error)),
    ("256-by-bit-error", "an overridden bit brings TEC to 256: bus-off", _at_248(_bit_error)),
    ("263-by-error", "a second error brings TEC to 263: bus-off", _at_247(_two_errors)),
    ("256-by-run", "eight dominant bits after the flag bring TEC above 255: bus-off", _at_247(_run)),
    ("256-by-acknowledgement", "a missing acknowledgement brings TEC to 256: bus-off", _at_248(_unacknowledged)),
    ("255-by-acknowledgement", "a missing acknowledgement brings TEC to 255: not bus-off", _at_247(_unacknowledged)),
    ("255-by-overload-flag", "an error in an overload flag brings TEC to 255: not bus-off", _at_248(_overload_flag)),
    ("263-by-overload-run", "dominant bits after an overload flag bring TEC to 263: bus-off", _at_248(_overload_run)),
]
MORE_LIMITS = [("255-by-bit-error", "an overridden bit brings TEC to 255: not bus-off", _at_247(_bit_error))]


@family("bus-off-limit", "TEC at 255, 256 and above, by each cause; then the tester sends")
def bus_off_limit(book: Book) -> None:
    for suffix, purpose, make in book.rows(LIMITS, MORE_LIMITS):
        with book.case(suffix, purpose, CHOSEN.get(suffix, [])) as scene:
            make(scene)
            _tester_sends(scene)


RECOVERY = ["recovery-by-itself", "recovery-rows"]
ROWS = 128
ROW = 11


def go_off(scene: Scene, offers: int = 1) -> None:
    """An error in OWN makes the controller bus-off; OWN stays pending. The tester is recessive from then on."""
    tec_to(scene, 248, offers)
    scene.sending(OWN, Frame.parse(OWN).wire().stuffed)
    scene.play("0", "the CRC delimiter dominant: bus-off")


def _sent_after(scene: Scene) -> None:
    """The start of the pending frame shows the end of bus-off."""
    scene.wait("recessive")
    scene.sent(OWN)
    scene.rest(12)


@family("bus-off-recovery", "runs of 10, 11, 21, 22; frames; twice; probes; the pending frame shows the end")
def bus_off_recovery(book: Book) -> None:
    with book.case("recessive", "1408 recessive bits, 128 sequences of 11, end bus-off", RECOVERY) as scene:
        go_off(scene)
        scene.rest(ROWS * ROW, "recessive")
        _sent_after(scene)
    _broken_rows(book)
    with book.case("frames", "frames of other nodes are not acknowledged during bus-off", RECOVERY) as scene:
        go_off(scene)
        for _ in range(6):
            scene.receive(RECEIVED)
            scene.rest(3)
        _sent_after(scene)
    with book.case("twice", "a second bus-off takes as long as the first", RECOVERY) as scene:
        go_off(scene)
        scene.play(("1" * ROW + "0") * 3, "three sequences of 11, a dominant bit after each")
        scene.wait("recessive")
        break_delimiter(scene, OWN, 8 * 31)
        _sent_after(scene)
    _counters_after(book)


def _broken_rows(book: Book) -> None:
    for run in book.rows((10, 11, 21, 22), (33,)):
        with book.case(f"runs-of-{run}", f"ten runs of {run} recessive bits, then recessive", RECOVERY) as scene:
            go_off(scene)
            scene.play(("1" * run + "0") * 10, f"ten runs of {run}, a dominant bit after each")
            _sent_after(scene)
    with book.case("rows-apart", "a dominant bit between all sequences of 11", RECOVERY) as scene:
        go_off(scene)
        scene.play(("1" * ROW + "0") * (ROWS - 1), "127 sequences of 11, a dominant bit after each")
        _sent_after(scene)
    with book.case("last-row-broken", "a dominant bit interrupts the last sequence of 11", RECOVERY) as scene:
        go_off(scene)
        scene.rest(ROWS * ROW - 1, "recessive, one bit short of the end")
        scene.play("0", "dominant")
        _sent_after(scene)


def _counters_after(book: Book) -> None:
    with book.case("tec", "TEC is 0 after recovery", RECOVERY) as scene:
        go_off(scene)
        # an error comes first: a frame that is sent would take a TEC of 1 to 0, and hide it
        scene.wait("recessive")
        break_delimiter(scene, OWN, 0)
        _sent_after(scene)
        probe_tec(scene)
    with book.case("rec", "REC is 0 after recovery", RECOVERY) as scene:
        scene.rest(1, "idle")
        for _ in range(3):
            scene.stuff_error()
            scene.after_flag(8)
        go_off(scene)
        _sent_after(scene)
        probe_rec(scene)


def _joining(book: Book, suffix: str, purpose: str) -> ContextManager[Scene]:
    return book.case(suffix, purpose, start="joining")


@family("joining", "10 or 11 recessive bits, interrupted; frames during integration; probe of REC")
def joining(book: Book) -> None:
    with _joining(book, "eleven", "its frame begins after eleven recessive bits") as scene:
        scene.offer(OWN)
        scene.rest(ROW, "eleven recessive bits")
        scene.sent(OWN)
        scene.rest(5)
    for before in (4, 10):
        purpose = f"a dominant bit after {before} recessive ones restarts the count"
        with _joining(book, f"interrupted-{before}", purpose) as scene:
            scene.offer(OWN)
            scene.rest(before, "recessive")
            scene.play("0", "dominant")
            scene.wait("recessive")
            scene.sent(OWN)
            scene.rest(5)
    with _joining(book, "interrupted-often", "each dominant bit restarts the count") as scene:
        scene.offer(OWN)
        scene.play("1110" * 8 + "1" * 10 + "0", "sequences that are too short")
        scene.wait("recessive")
        scene.sent(OWN)
        scene.rest(5)
    _frames_during(book)
    with _joining(book, "counters", "what it sees during integration changes no counter") as scene:
        scene.play("0" * 20 + "1" * 8 + "0" * 7, "no frame")
        scene.rest(ROW, "eleven recessive bits")
        probe_rec(scene)


def _frames_during(book: Book) -> None:
    acknowledged = Frame.parse(RECEIVED).wire().acknowledged()
    with _joining(book, "frame-after-ten", "a frame after ten recessive bits is not acknowledged") as scene:
        scene.rest(10, "recessive")
        scene.receive(RECEIVED)
        scene.rest(5)
    with _joining(book, "frame-after-eleven", "a frame after eleven recessive bits is acknowledged") as scene:
        scene.rest(11, "recessive")
        scene.receive(RECEIVED)
        scene.rest(5)
    purpose = "a frame after seven recessive bits is not received; integration ends after it"
    with _joining(book, "frame-after-seven", purpose) as scene:
        scene.offer(OWN)
        scene.rest(7, "recessive")
        scene.play(acknowledged, f"sends {RECEIVED}, acknowledged by another node")
        scene.wait("intermission")
        scene.sent(OWN)
        scene.rest(5)
    purpose = "a frame from the first bit time on is not acknowledged, the next one is"
    with _joining(book, "frame-at-once", purpose) as scene:
        scene.play(acknowledged, f"sends {RECEIVED}, acknowledged by another node")
        scene.rest(3, "intermission")
        scene.receive("S 124 D 1 3c")
        scene.rest(5)


FIRST, LAST = "S 001 D 1 77", "S 700 D 1 77"
PROMPT = ["prompt"]


@family("start", "offered while idle, together with a frame of the tester, one bit time later")
def start(book: Book) -> None:
    with book.case("first", "offered in the first bit time", PROMPT) as scene:
        scene.offer(OWN)
        scene.sent(OWN)
        scene.rest(3)
    with book.case("idle", "offered while idle", PROMPT) as scene:
        scene.rest(5, "idle")
        scene.offer(OWN)
        scene.sent(OWN)
        scene.rest(3)
    _beside_another(book)
    with book.case("last-intermission", "offered for the first bit time after intermission", PROMPT) as scene:
        scene.receive(LAST)
        scene.rest(3, "intermission")
        scene.offer(OWN)
        scene.sent(OWN)
        scene.rest(3)
    with book.case("second-frame", "offered right after the intermission of its own frame", PROMPT) as scene:
        scene.anchor(OWN)
        scene.sent(OWN)
        scene.offer(PROBE_FRAME)
        scene.sent(PROBE_FRAME)
        scene.rest(3)


def _beside_another(book: Book) -> None:
    with book.case("together-loses", "offered when a higher-priority frame begins", PROMPT) as scene:
        scene.rest(5, "idle")
        scene.offer(OWN)
        scene.receive(FIRST)
        scene.rest(3)
        scene.sent(OWN)
        scene.rest(3)
    with book.case("together-wins", "offered when a lower-priority frame begins", PROMPT) as scene:
        scene.rest(5, "idle")
        scene.offer(OWN)
        scene.wins(OWN, LAST)
        scene.rest(3 + 3)
    with book.case("one-later", "offered one bit time after a start of frame: it waits") as scene:
        scene.rest(5, "idle")
        levels = Frame.parse(LAST).wire().levels
        scene.play(levels[:1], f"sends {LAST}")
        scene.offer(OWN)
        scene.play(levels[1:] + "111")
        scene.sent(OWN)
        scene.rest(3)
