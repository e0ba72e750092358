"""Tests of the kit: levels as text, frames, documents, comparisons, reports, mutations and their matrix."""

from __future__ import annotations

import os
import re
import unittest

from kit import toml_subset
from kit.adapter import EVENT_EXAMPLES
from kit.changes import changes
from kit.comparing import differences
from kit.documents import RULES, DocumentFault, Transcript, read_document, write_case, write_transcript
from kit.frames import Frame
from kit.levels import read_levels, write_levels
from kit.library import FOLDER, read_library
from kit.matrix import caught_by, cover, idle_cases, matrix, reason_faults
from kit.models import controller, simulator
from kit.mutations import Mutation, read_mutations
from kit.playing import cuts
from kit.reports import event_lines, shown_lines, window_lines
from kit.session import Session

TOP = os.path.dirname(os.path.dirname(os.path.realpath(__file__)))
WORDS = os.path.join(os.path.dirname(TOP), "crates", "kit_documents", "src", "field_words.rt")

CASE = """[[case]]
version = 1
name = "some-case"
family = "some"
start = "idle"
needs = ["forced"]
bits = 20
tester = ["0101 1*16"]
forced = [4, 6]
"""


class Levels(unittest.TestCase):
    def test_runs_from_eight_on_are_counted(self) -> None:
        self.assertEqual(write_levels("0" * 7 + "1" * 8 + "0"), "0000000 1*8 0")
        self.assertEqual(read_levels("0000000  1*8 0"), "0" * 7 + "1" * 8 + "0")

    def test_other_text_is_refused(self) -> None:
        for text in ("", " ", "2", "1*0", "1*08", "1*100001", "11*3", "0\t1"):
            self.assertRaises(ValueError, read_levels, text)


class Frames(unittest.TestCase):
    def test_a_frame_as_documented(self) -> None:
        wire = Frame.parse("S 001 D 0").wire()
        self.assertEqual(wire.levels, "00000100000101000001000100010000100111111111111")
        self.assertEqual(wire.place("ack"), len(wire.levels) - 9)

    def test_texts_come_back(self) -> None:
        for text in ("S 123 D 2 aa55", "E 18db33f1 R 8", "S 7ff R 15", "S 000 D 15 0011223344556677"):
            self.assertEqual(Frame.parse(text).text(), text)

    def test_other_texts_are_refused(self) -> None:
        for text in ("S 800 D 0", "S 123 D 16", "S 123 D 2 aa", "S 123 R 1 aa", "E 2fffffff D 0", "s 123 D 0"):
            self.assertRaises(ValueError, Frame.parse, text)


class Documents(unittest.TestCase):
    def place(self, text: str) -> str:
        with self.assertRaises(DocumentFault) as raised:
            read_document(text)
        self.assertRegex(str(raised.exception), rf"^P2 {re.escape(raised.exception.place)}: .")
        return raised.exception.place

    def test_words_are_those_of_canhold(self) -> None:
        """Both report what a field must be in the same words; `expect` of canhold alone takes no transcripts."""
        with open(WORDS, encoding="utf-8") as file:
            arms = re.findall(r"::\w+(?:\(_\))? => (?:\{\s*)?\"([^\"]*)\"", file.read())
        self.assertEqual({it.split("; for expect")[0] for it in arms}, set(RULES.values()))

    def test_cases_come_back(self) -> None:
        for case in read_library([FOLDER])[0]:
            again = read_document(write_case(case))[0][0]
            self.assertEqual((again.levels, again.offers, again.forced), (case.levels, case.offers, case.forced))

    def test_the_first_wrong_field_is_reported(self) -> None:
        self.assertEqual(self.place("case = ["), "toml")
        self.assertEqual(self.place("case = " + "[" * 20000), "toml")
        self.assertEqual(self.place("other = 1"), "key")
        self.assertEqual(self.place(CASE.replace("version = 1", "version = 2")), "case[0].version")
        self.assertEqual(self.place(CASE.replace("bits = 20", "bits = 21")), "case[0].tester")
        self.assertEqual(self.place(CASE.replace("1*16", "1*016")), "case[0].tester[0]")
        self.assertEqual(self.place(CASE.replace("[4, 6]", "[2, 6]")), "case[0].forced[0]")
        self.assertEqual(self.place(CASE.replace("[4, 6]", "[4, 4]")), "case[0].forced[1]")
        self.assertEqual(self.place(CASE.replace('needs = ["forced"]\n', "")), "case[0].needs")
        self.assertEqual(self.place(CASE + CASE), "case[1].name")

    def test_transcripts_come_back(self) -> None:
        given = Transcript("some-case", "1" * 20, [(3, "stuff error")], [(3, 0, 1)], ("active", 0, 1))
        self.assertEqual(read_document(CASE + write_transcript(given))[1], [given])

    def test_the_small_reader_reads_the_cases(self) -> None:
        read = toml_subset.loads(CASE)
        self.assertEqual(read["case"][0]["forced"], [4, 6])
        self.assertRaises(ValueError, toml_subset.loads, "a = 1\na = 2\n")


class Comparisons(unittest.TestCase):
    def test_a_level_comes_before_an_event(self) -> None:
        right = Transcript("a", "1101", [(2, "lost")])
        self.assertEqual(differences(Transcript("a", "1111", [(2, "overload")]), right)[0][2], "drove 1 not 0")
        self.assertEqual(differences(Transcript("a", "110", [(2, "lost")]), right)[0], (3, 0, "drove nothing"))
        self.assertEqual(differences(Transcript("a", "1101"), right), [])


class Playing(unittest.TestCase):
    def test_lines_are_cut_at_offers(self) -> None:
        case = read_document(CASE.replace("forced = ", 'offers = [[7, "S 123 D 0"]]\nforced = '))[0][0]
        self.assertEqual(list(cuts(case)), [(0, 7), (7, 20)])
        self.assertEqual(len(list(cuts(case, 1))), 20)

    def test_voids_have_their_reasons(self) -> None:
        case = read_document(CASE)[0][0]
        reasons = [
            ("true", "ended, status 0"),
            ("kill -9 $$", "ended, signal 9"),
            ("echo hello", "protocol: 'hello', expected 'can-kit 1 NAME'"),
            ("echo error why", "error why"),
            (f"echo {'x' * 70}", f"protocol: '{'x' * 60}' .., expected 'can-kit 1 NAME'"),
        ]
        for answer, shown, expected in (
            (f"drove {'1' * 20}\nstate active {'9' * 5000} 0", " ..", "'state STATE TEC REC' or 'state unknown'"),
            (f"event {'9' * 5000} lost", " ..", "'event K EVENT' with K from 0 to 19"),
            ("event 3 lost\nevent 3 lost", "", "'event K EVENT' with K from 4 to 19"),
            ("event 3 received X 0fffffff R 0", "", EVENT_EXAMPLES),
            ("drove 11", "", "'drove LEVELS' with 20 of 0 and 1"),
            ("drives 11", "", "'drove LEVELS' or 'event K EVENT'"),
        ):
            start = f"printf 'can-kit 1 many\nready\n{answer}\n'; cat > /dev/null"
            reasons.append((start, f"protocol: '{answer.splitlines()[-1][:60]}'{shown}, expected {expected}"))
        for command, reason in reasons:
            with Session(["sh", "-c", command]) as session:
                self.assertEqual([(one.kind, one.detail) for one in session.play_all([case])], [("void", reason)])
        with Session(["true"], without=["forced"]) as session:
            self.assertEqual([one.detail for one in session.play_all([case])], ["forced"])

    def test_a_case_without_events_after_one_with_events(self) -> None:
        """The adapter reports an event in its second case only."""
        cases = read_document("".join(CASE.replace("some-case", f"some-{name}") for name in ("one", "two", "three")))[0]
        answers = "".join(f"ready\n{event}drove {'1' * 20}\nstate unknown\n" for event in ("", "event 0 lost\n", ""))
        with Session(["sh", "-c", 'printf "$0"; cat > /dev/null', "can-kit 1 one event\n" + answers]) as session:
            events = [one.transcript.events for one in session.play_all(cases) if one.transcript is not None]
        self.assertEqual(events, [None, [(0, "lost")], []])


class Reports(unittest.TestCase):
    def test_the_levels_around_a_failure(self) -> None:
        case = read_document(CASE)[0][0]
        given, due = Transcript("some-case", "1" * 20), Transcript("some-case", "11111000" + "1" * 12)
        self.assertEqual(
            window_lines(case, 5, given, due),
            ["  tester 0101f1f11111111", f"  drove  {'1' * 15}", "  due    111110001111111", f"{' ' * 14}^ 5"],
        )

    def test_the_events_around_a_failure(self) -> None:
        """They are shown if they differ there, and if the adapter reports any."""
        given = Transcript("some-case", "1" * 20, [(3, "form error"), (9, "lost")])
        due = Transcript("some-case", "1" * 20, [(3, "bit error"), (7, "sent S 123 R 0"), (9, "lost")])
        rows = [
            "  event  reported    due",
            "  3      form error  bit error",
            "  7      nothing     sent S 123 R 0",
            "  9      lost        lost",
        ]
        self.assertEqual(event_lines(3, given, due), rows)
        self.assertEqual(event_lines(3, due, due), [])
        self.assertEqual(event_lines(3, Transcript("some-case", "1" * 20), due), [])

    def test_what_a_failure_is_about(self) -> None:
        """The purpose comes first, if the case has one."""
        case = read_document(CASE.replace("start =", 'purpose = "what it tests"\nstart ='))[0][0]
        due = Transcript("some-case", "1" * 20)
        shown = shown_lines(case, 5, Transcript("some-case", "0" * 20), due)
        self.assertEqual(shown, ["  what it tests", *window_lines(case, 5, Transcript("some-case", "0" * 20), due)])


class Matrix(unittest.TestCase):
    """Three cases: two of them detect the first mutation, one detects the second."""

    def setUp(self) -> None:
        text = "".join(CASE.replace("some-case", f"some-{name}") for name in ("one", "two", "three"))
        self.cases = read_document(text)[0]
        right = [Transcript(case.name, "1" * 20, [(1, "lost")]) for case in self.cases]
        wrong = Transcript("", "0" + "1" * 19, [(1, "lost")])
        both, last = [wrong, wrong, right[2]], [right[0], wrong, right[2]]
        twice, once = (Mutation(name, "controller", "", "some", "levels") for name in ("seen-twice", "seen-once"))
        self.caught = [caught_by(twice, self.cases, both, right), caught_by(once, self.cases, last, right)]

    def test_which_case_detects_which(self) -> None:
        self.assertEqual([one.names() for one in self.caught], [["some-one", "some-two"], ["some-two"]])
        self.assertEqual(cover(self.caught), ["some-two"])
        self.assertEqual(idle_cases(self.caught, self.cases), ["some-three"])
        self.assertEqual([one.fault() for one in self.caught], ["", ""])
        self.assertIn("\nsome-two: 2, alone 1\n", matrix(self.caught, self.cases))

    def test_families_need_reasons(self) -> None:
        self.assertEqual(reason_faults({"some": "why"}, self.caught, self.cases), [])
        faults = reason_faults({"other": "why"}, self.caught, self.cases)
        due = ["no reason is given for the cases of some", "a reason is given for other, which needs none"]
        self.assertEqual(faults, due)


class Changes(unittest.TestCase):
    SOURCE = "static void count(int *tec)\n{\n    if (*tec > 0)\n        *tec -= 1;\n    /* 7 > 6 */\n}\n"

    def test_each_part_of_a_line_is_changed_once(self) -> None:
        self.assertEqual(
            [change.text() for change in changes("a/count.c", self.SOURCE)],
            [
                "count.c, count: if (*tec > 0) => if (*tec > 1)",
                "count.c, count: if (*tec > 0) => if (*tec >= 0)",
                "count.c, count: *tec -= 1; => *tec -= 2;",
                "count.c, count: *tec -= 1; => *tec -= 0;",
                "count.c, count: *tec -= 1; => ;",
            ],
        )

    def test_changes_with_the_same_text_are_numbered(self) -> None:
        numbers = [change.text().split("=> ")[1] for change in changes("a.c", "    x = 0;\n    x = 0;\n")]
        self.assertEqual(numbers, ["x = 1;", ";", "x = 1; (2)", "; (2)"])

    def test_a_change_is_applied_to_its_line(self) -> None:
        change = list(changes("a.c", "    x = 0;\n    x = 0;\n"))[2]
        self.assertEqual(change.applied({"a.c": "    x = 0;\n    x = 0;\n"}), {"a.c": "    x = 0;\n    x = 1;\n"})


class Mutations(unittest.TestCase):
    def test_every_mutation_fits_its_source(self) -> None:
        for model in (controller(), simulator()):
            with open(os.path.join(TOP, "mutations", f"{model.name}.txt"), encoding="utf-8") as file:
                for mutation in read_mutations(file.read(), model.name):
                    self.assertNotEqual(mutation.applied(model.texts), model.texts)


if __name__ == "__main__":
    unittest.main()
