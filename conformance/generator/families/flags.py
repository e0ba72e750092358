"""Error flags and their delimiters, of error active controllers."""

from __future__ import annotations

from kit.frames import Frame

from generator.book import Book, family
from generator.probes import probe_rec, probe_tec
from generator.scene import Scene, dominant_bits

FRAME = "S 155 D 2 5aa5"


def sender_error(scene: Scene) -> None:
    """The controller sends FRAME, and the CRC delimiter is dominant. The frame is to be sent again."""
    scene.anchor(FRAME)
    scene.sending(FRAME, Frame.parse(FRAME).wire().stuffed)
    scene.play("0", "the CRC delimiter dominant")


def sent_again(scene: Scene) -> None:
    """FRAME is sent, and TEC probed."""
    scene.sent(FRAME)
    probe_tec(scene)


@family("error-flag-superposed-rx", "0 to 24 dominant bits after a receiver's flag; probe of REC")
def superposed_rx(book: Book) -> None:
    for dominant in book.rows((0, 1, 2, 7, 8, 16, 24), (3, 4, 5, 6, 9, 15, 17, 23)):
        with book.case(str(dominant), f"{dominant_bits(dominant)} after a receiver's flag") as scene:
            scene.rest(1, "idle")
            scene.stuff_error()
            scene.after_flag(dominant)
            probe_rec(scene)


@family("error-flag-superposed-tx", "1 to 24 dominant bits after a transmitter's flag; probe of TEC")
def superposed_tx(book: Book) -> None:
    for dominant in book.rows((1, 7, 8, 16, 24), (2, 9, 15, 23)):
        with book.case(str(dominant), f"{dominant_bits(dominant)} after a transmitter's flag") as scene:
            sender_error(scene)
            scene.after_flag(dominant)
            sent_again(scene)


@family("error-flag-bit-error", "a bit of the flag forced; probes")
def flag_bit_error(book: Book) -> None:
    for level in book.rows((1, 3, 6), (2, 5)):
        with book.case(f"rx-{level}", f"bit {level} of a receiver's flag is not seen", ["flag-error-once"]) as scene:
            scene.rest(1, "idle")
            scene.stuff_error()
            scene.play("1" * (level - 1) + "f", f"flag bit {level} forced")
            scene.recover("a new flag, delimiter, intermission")
            probe_rec(scene)
    for level in book.rows((1, 4, 6), (2, 5)):
        with book.case(f"tx-{level}", f"bit {level} of a transmitter's flag is not seen", ["flag-error-once"]) as scene:
            sender_error(scene)
            scene.play("1" * (level - 1) + "f", f"flag bit {level} forced")
            scene.recover("a new flag, delimiter, intermission")
            sent_again(scene)


@family("error-delimiter-form-error", "delimiter bit 2 to 7 dominant; probes")
def delimiter_form_error(book: Book) -> None:
    for level in book.rows((2, 3, 5, 7), (4,)):
        with book.case(f"rx-{level}", f"delimiter bit {level} dominant at a receiver") as scene:
            scene.rest(1, "idle")
            scene.stuff_error()
            scene.rest(6 + level - 1, "the flag, and the delimiter bits before")
            scene.play("0", f"delimiter bit {level} dominant")
            scene.recover()
            probe_rec(scene)
    for level in book.rows((2, 4, 7), (5,)):
        with book.case(f"tx-{level}", f"delimiter bit {level} dominant at a transmitter") as scene:
            sender_error(scene)
            scene.rest(6 + level - 1, "the flag, and the delimiter bits before")
            scene.play("0", f"delimiter bit {level} dominant")
            scene.recover()
            sent_again(scene)


@family("delimiter-last-bit", "delimiter bit 8 dominant after error and overload flags; four in a row; probes")
def delimiter_last_bit(book: Book) -> None:
    def last_dominant(scene: Scene) -> None:
        scene.rest(6 + 7, "the flag, seven bits of the delimiter")
        scene.play("0", "the last bit of the delimiter dominant")

    with book.case("error-rx", "the last bit of an error delimiter is dominant: an overload frame") as scene:
        scene.rest(1, "idle")
        scene.stuff_error()
        last_dominant(scene)
        scene.recover()
        probe_rec(scene)
    with book.case("error-tx", "the last bit of a transmitter's error delimiter is dominant") as scene:
        sender_error(scene)
        last_dominant(scene)
        scene.recover()
        sent_again(scene)
    with book.case("overload-rx", "the last bit of an overload delimiter is dominant") as scene:
        scene.receive("S 123 D 1 c3")
        scene.play("0", "the first bit of intermission dominant")
        last_dominant(scene)
        scene.recover()
        probe_rec(scene)
    with book.case("overload-tx", "the last bit of an overload delimiter after its own frame is dominant") as scene:
        scene.anchor(FRAME)
        scene.sending(FRAME)
        scene.play("0", "the first bit of intermission dominant")
        last_dominant(scene)
        scene.recover()
        probe_tec(scene)
    with book.case("four-in-a-row", "four delimiters in a row with a dominant last bit") as scene:
        scene.rest(1, "idle")
        scene.stuff_error()
        for _ in range(4):
            last_dominant(scene)
        scene.recover()
        probe_rec(scene)
