"""Tests of the adapters: hand-computed test vectors, and lines that the protocol does not have."""

from __future__ import annotations

import glob
import os
import shutil
import subprocess
import sys
import tempfile
import unittest

from kit.frames import Frame
from kit.library import FOLDER, read_library
from kit.session import Session

TOP = os.path.dirname(os.path.dirname(os.path.realpath(__file__)))
REPOSITORY = os.path.dirname(TOP)
COSIM = os.path.join(REPOSITORY, "examples", "cosim")

BAD_LINES = (
    *("", "nothing", "case a", "case a now", "hold", "hold 3", "hold 10", "play", "play 2"),
    *("offer", "offer S", "offer S 800 D 0", "offer S 12 D 0", "offer S 1234 D 0", "offer S 12G D 0"),
    *("offer E 20000000 D 0", "offer E 123 D 0", "offer X 123 D 0", "offer S 123 X 0"),
    *("offer S 123 D", "offer S 123 D 16", "offer S 123 D 01", "offer S 123 D 0 ", "offer S 123 D 2 c3"),
    *("offer S 123 D 1 c3a5", "offer S 123 D 1 C3", "offer S 123 R 1 c3", "offer S 123 D 15 0011"),
)


class Answers(unittest.TestCase):
    """What an adapter must reply, whatever controller is in it."""

    command: list[str]
    folder: tempfile.TemporaryDirectory[str]

    @classmethod
    def setUpClass(cls) -> None:
        if cls is Answers:
            raise unittest.SkipTest("it has no adapter")
        cls.folder = tempfile.TemporaryDirectory()

    @classmethod
    def tearDownClass(cls) -> None:
        if cls is not Answers:
            cls.folder.cleanup()

    def answered(self, lines: list[str]) -> list[str]:
        text = "".join(f"{line}\n" for line in [*lines, "quit"])
        run = subprocess.run(self.command, input=text, capture_output=True, text=True, timeout=60)
        assert run.returncode == 0, run
        return run.stdout.splitlines()[1:]

    def test_six_dominant_levels(self) -> None:
        """While the controller is idle: a stuff error, then a flag of six bits, and a REC of 1."""
        given = self.answered(["case a idle", "play 000000", "play 11111111", "end"])
        due = ["ready", "event 5 stuff error", "drove 111111", "drove 00000011", "state active 0 1"]
        self.assertEqual(given, due)

    def test_a_frame_is_sent_as_documented(self) -> None:
        """README has the levels of this frame."""
        levels = "1" * 41 + "0" + "1" * 8
        given = self.answered(["case a idle", "offer S 000 D 0", f"play {levels}", "end"])
        drove = "00000100000100000100000100000100000100001111111111"
        self.assertEqual(given, ["ready", "event 49 sent S 000 D 0", f"drove {drove}", "state active 0 0"])

    def test_joining_takes_eleven_levels(self) -> None:
        given = self.answered(["case a joining", "offer S 000 D 0", "play 111111111110", "end"])
        self.assertEqual(given, ["ready", "drove 111111111110", "state active 0 0"])

    def test_frames_come_back_as_text(self) -> None:
        """A frame is offered, and reported as sent."""
        for frame in ("S 7ff R 15", "E 1fffffff D 0", "E 00000001 D 15 0123456789abcdef"):
            slot = Frame.parse(frame).wire().place("ack")
            given = self.answered(["case a idle", f"offer {frame}", f"play {'1' * slot}0{'1' * 8}"])
            self.assertEqual(given[1], f"event {slot + 8} sent {frame}")

    def test_other_lines_are_refused(self) -> None:
        """The reply to each of them is an error, and none of them changes the controller."""
        given = self.answered(["case a idle", *BAD_LINES, "play 1111", "end"])
        self.assertEqual([line for line in given[1:-2] if not line.startswith("error ")], [])
        self.assertEqual(len(given), 1 + len(BAD_LINES) + 2)
        self.assertEqual(given[-2:], ["drove 1111", "state active 0 0"])


class InC(Answers):
    @classmethod
    def setUpClass(cls) -> None:
        super().setUpClass()
        program = os.path.join(cls.folder.name, "controller")
        sources = glob.glob(os.path.join(TOP, "adapters", "controller", "*.c"))
        subprocess.run(["cc", "-std=c99", "-o", program, *sources], check=True)
        cls.command = [program]


@unittest.skipUnless(shutil.which("iverilog"), "iverilog is not installed")
class InVerilog(Answers):
    @classmethod
    def setUpClass(cls) -> None:
        super().setUpClass()
        program = os.path.join(cls.folder.name, "controller")
        sources = glob.glob(os.path.join(COSIM, "*.v"))
        subprocess.run(["iverilog", "-g2005", f"-I{COSIM}", "-o", program, *sources], check=True)
        cls.command = ["vvp", "-n", program]


def is_built(program: str) -> bool:
    """Whether a program is built from the current sources. If not, its launcher would prove it."""
    command = [os.path.join(REPOSITORY, "tools", "is-current"), os.path.join(REPOSITORY, "out", program), program]
    return subprocess.run(command, check=False).returncode == 0


class Proved(Answers):
    """The proved reference, if it is built: its first call would prove it, which takes minutes."""

    @classmethod
    def setUpClass(cls) -> None:
        if not is_built("canhold"):
            print("skipped: canhold is not built (./canhold help builds it)", file=sys.stderr)
            raise unittest.SkipTest("canhold is not built")
        super().setUpClass()
        cls.command = [os.path.join(REPOSITORY, "out", "canhold"), "play"]


class Skeleton(unittest.TestCase):
    def test_its_answers_are_those_of_the_protocol(self) -> None:
        cases = read_library([os.path.join(FOLDER, "overload-own.toml")])[0]
        with Session([sys.executable, os.path.join(TOP, "adapters", "skeleton.py")]) as session:
            self.assertEqual({played.kind for played in session.play_all(cases)}, {"played"})


if __name__ == "__main__":
    unittest.main()
