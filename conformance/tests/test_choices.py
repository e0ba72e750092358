"""Tests of the words of choices: controllers that chose otherwise, and what a verdict says of them."""

from __future__ import annotations

import os
import re
import shutil
import unittest

from kit.choices import outcome
from kit.comparing import differences
from kit.documents import CHOICES, Transcript
from kit.library import FOLDER, read_library
from kit.readings import failed, readings, word_faults
from kit.reports import Verdict

REPOSITORY = os.path.dirname(os.path.dirname(os.path.dirname(os.path.realpath(__file__))))


class Choices(unittest.TestCase):
    @unittest.skipUnless(shutil.which("cc"), "cc is not installed")
    def test_each_case_has_the_words_of_its_choices(self) -> None:
        """It is in the case's document, or in kit/choices.txt."""
        cases = read_library([FOLDER])[0]
        self.assertEqual(word_faults(cases, failed(cases, os.cpu_count() or 1)), [])

    def test_decisions_has_each_word(self) -> None:
        """The list of choices has the words that a verdict may print, and no others."""
        with open(os.path.join(REPOSITORY, "docs", "DECISIONS.md"), encoding="utf-8") as file:
            listed = file.read().split("\n## ")[1]
        words = {word for word, _ in readings()}
        self.assertEqual(set(re.findall(r"`([a-z]+(?:-[a-z0-9]+)*)`(?=[:,)])", listed)) - {"decode"}, words)
        self.assertLess(set(CHOICES), words)

    def test_what_differs(self) -> None:
        """Levels, frames and numbers are left out."""
        rows = [
            ("received E 1fffffff D 1 c3", "sent S 123 R 0", "received not sent"),
            ("form error", "bit error", "form error not bit error"),
        ]
        for event, due, kinds in rows:
            found = differences(Transcript("", "1", [(0, event)]), Transcript("", "1", [(0, due)]))
            self.assertEqual(outcome(found[0][2]).partition(" ")[2], kinds)
        self.assertEqual(outcome("end active 0 119 not passive 0 127"), "end state REC")
        self.assertEqual([outcome(text) for text in ("drove 0 not 1", "drove nothing")], ["drove", "drove"])

    def test_a_word_needs_the_outcome_of_its_choice(self) -> None:
        """A further word is printed only if what differs is what a controller shows that chose otherwise."""
        cases = {case.name: case for case in read_library([FOLDER])[0]}
        rows = [
            ("rec-wraps-by-runs", "394: drove 0 not 1", "; choice rec-127"),
            ("passive-limit-rec-140", "66: end passive 0 128 not passive 0 255", "; choice highest-rec"),
            ("passive-limit-rec-140", "66: end passive 8 255 not passive 0 255", ""),
        ]
        for name, detail, note in rows:
            self.assertEqual(Verdict(cases[name], "fail", detail).line(), f"fail {name} at {detail}{note}")


if __name__ == "__main__":
    unittest.main()
