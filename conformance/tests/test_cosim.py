"""Tests of the co-simulation of examples/cosim, with the controller in C and with a mutant of it."""

from __future__ import annotations

import os
import subprocess
import sys
import tempfile
import unittest

TOP = os.path.dirname(os.path.dirname(os.path.realpath(__file__)))
COSIM = os.path.join(os.path.dirname(TOP), "examples", "cosim")
sys.path.insert(0, COSIM)

from kit.adapter import Adapter
from kit.documents import read_document, write_case
from kit.mutations import Mutation
from kit.models import controller
from traffic import Traffic, arbitration_field

SUSPEND_7 = (["else if (++can->place == 8)"], ["else if (++can->place == 7)"])


class Cosim(unittest.TestCase):
    folder: tempfile.TemporaryDirectory[str]
    golden: str
    broken: str

    @classmethod
    def setUpClass(cls) -> None:
        cls.folder = tempfile.TemporaryDirectory()
        cls.golden = controller().build(os.path.join(cls.folder.name, "golden"))
        mutation = Mutation("suspend-7", "controller", changes=[SUSPEND_7])
        cls.broken = controller().build(os.path.join(cls.folder.name, "broken"), mutation)

    @classmethod
    def tearDownClass(cls) -> None:
        cls.folder.cleanup()

    def run_cosim(self, *words: str) -> subprocess.CompletedProcess[str]:
        command = [os.path.join(COSIM, "cosim"), "--golden", self.golden, *words]
        return subprocess.run(command, capture_output=True, text=True, timeout=120)

    def test_a_seed_makes_the_same_traffic(self) -> None:
        adapter = Adapter([self.golden])
        made = [Traffic("run", seed, adapter).made(500) for seed in ("a", "a", "b")]
        adapter.close()
        texts = [write_case(case) for case, _ in made]
        self.assertEqual(texts[0], texts[1])
        self.assertNotEqual(texts[0], texts[2])
        self.assertEqual(read_document(texts[0])[0][0].levels, made[0][0].levels)

    def test_frames_are_sorted_out_as_on_the_bus(self) -> None:
        frames = ["S 123 D 0", "S 123 R 0", "E 048c0000 D 0", "E 048c0000 R 0", "S 124 D 0"]
        self.assertEqual(sorted(reversed(frames), key=arbitration_field), frames)

    def test_two_that_are_alike(self) -> None:
        run = self.run_cosim("--runs", "2", "--", self.golden)
        self.assertEqual((run.returncode, run.stdout.split(": ")[-1]), (0, "the same\n"), run)

    def test_a_difference_is_reported_and_stored(self) -> None:
        kept = os.path.join(self.folder.name, "kept.toml")
        run = self.run_cosim("--keep", kept, "--", self.broken)
        self.assertEqual(run.returncode, 1, run)
        self.assertRegex(
            run.stdout, r"bit time \d+: the controller drives 0 \(dominant\), the golden model 1 \(recessive\)\n"
        )
        with open(kept, encoding="ascii") as file:
            cases, transcripts = read_document(file.read())
        self.assertEqual([cases[0].name], [transcripts[0].case])

    def test_what_cannot_be_played(self) -> None:
        self.assertEqual(self.run_cosim("--", "false").returncode, 3)
        self.assertEqual(self.run_cosim("--runs", "0", "--", self.golden).returncode, 2)


if __name__ == "__main__":
    unittest.main()
