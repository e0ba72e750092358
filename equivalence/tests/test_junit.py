"""Tests of `hold --junit`: the report of each kind of outcome, read back by junitparser."""

from __future__ import annotations

import pathlib
import re
import subprocess
import sys
import unittest

from tests import test_find, test_hold, test_play
from tests.test_hold import INTEGRATING, SAME, STATE, Files

FOLDER = pathlib.Path(__file__).resolve().parent.parent
sys.path.insert(0, str(FOLDER.parent / "bindings" / "tests"))

from junit_reader import MODULE, Suite, read_junit

NO_RESULT = "no result of its own: "


class Reported(Files):
    """Each call writes a report."""

    def setUp(self) -> None:
        super().setUp()
        self.file = self.room / "report.xml"
        self.file.write_text("an older report")

    def run_hold(self, *words: str, path: str | None = None) -> subprocess.CompletedProcess[str]:
        return super().run_hold("--junit", str(self.file), *words, path=path)

    def suite(self, ran: subprocess.CompletedProcess[str], status: int) -> Suite:
        """The report of a call with this status, whose whole has the last line that it printed."""
        self.assertEqual(ran.returncode, status, ran)
        suite = read_junit(self.file)
        whole = suite.tests[-1]
        if whole.kind == "error":
            self.assertEqual(f"hold: {whole.message}", ran.stderr.splitlines()[-1])
        elif whole.kind == "fail":
            self.assertEqual(whole.message, ran.stdout.splitlines()[-1])
        return suite

    def kinds(self, suite: Suite) -> dict[str, str]:
        return {test.name: test.kind for test in suite.tests}


class Usage(Reported):
    def test_wrong_usage(self) -> None:
        self.assertEqual(self.run_hold("--wiring", "small.v").returncode, 2)
        self.file = self.room / "nowhere" / "report.xml"
        ran = self.run_hold("relation.v", "small.v")
        self.assertEqual((ran.returncode, ran.stdout), (3, ""))
        self.assertEqual(ran.stderr, f"hold: {self.file}: No such file or directory\n")

    @unittest.skipUnless(MODULE.exists(), "junitparser is not installed")
    def test_faults(self) -> None:
        gone = str(self.room / "gone.v")
        suite = self.suite(self.run_hold(gone, "small.v"), 3)
        self.assertEqual(self.kinds(suite), {"equal in every run": "error"})
        self.assertEqual(suite.name, f"equivalence/hold {gone}")
        suite = self.suite(self.run_hold("--play", self.put("wiring.v", "module wiring; endmodule"), "small.v"), 1)
        self.assertEqual(self.kinds(suite), {"no difference": "error"})
        relation = self.put("relation.v", test_hold.RELATION.format(outputs="output same_drive", parts=""))
        suite = self.suite(self.run_hold(relation, self.put("small.v", test_hold.DESIGN), path=""), 3)
        self.assertIn("apt-get install", suite.tests[0].message)


@unittest.skipUnless(test_hold.has_tools() and MODULE.exists(), "yosys, cadical or junitparser is not installed")
class Proofs(Reported):
    def test_what_is_equal(self) -> None:
        same = {**SAME, "same_state": "gates.drive == (dut.state == 4'd5)"}
        ran = self.hold({**same, **STATE, **INTEGRATING})
        suite = self.suite(ran, 0)
        self.assertEqual(self.kinds(suite), {"same_drive": "pass", "same_state": "pass", "equal in every run": "pass"})
        self.assertEqual(suite.tests[-1].output, "equal in every run that meets given_silence")
        self.assertEqual(f"circuit: {suite.properties['circuit']}", ran.stdout.splitlines()[0])

    def test_outputs_that_differ(self) -> None:
        same = {**SAME, "same_state": "gates.phase != 4'd15 && dut.state == 4'd5 || !gates.drive"}
        suite = self.suite(self.hold({**same, **STATE, "holds_phase": "!gates.sender"}), 1)
        self.assertEqual(self.kinds(suite), {"same_drive": "fail", "same_state": "skip", "equal in every run": "fail"})
        drive, state, whole = suite.tests
        self.assertTrue(drive.message.startswith("same_drive fails: dut.drive 1, gates.drive 0"), drive)
        self.assertRegex(drive.text, r"^outputs: counterexample, \d+\.\d s\n  before: ")
        self.assertEqual(state.message, NO_RESULT + whole.message)
        self.assertEqual(drive.text, whole.text)

    def test_a_mapping_that_is_no_invariant(self) -> None:
        suite = self.suite(self.hold({**SAME, **STATE, **INTEGRATING, "holds_tec": "gates.tec_count == 9'd1"}), 1)
        self.assertEqual(self.kinds(suite), {"same_drive": "skip", "equal in every run": "fail"})
        self.assertIn("holds_tec fails: ", suite.tests[1].text)

    def test_nothing_that_is_checked(self) -> None:
        suite = self.suite(self.hold({**SAME, **STATE, "given_x": "1'b0"}), 5)
        self.assertEqual(self.kinds(suite), {"same_drive": "skip", "equal in every run": "error"})

    def test_the_first_bit_times(self) -> None:
        same = {"same_both": "gates.drive == (dut.drive ^ (dut.state != 4'd5))"}
        suite = self.suite(self.hold(same, "--smoke", "3"), 0)
        self.assertEqual(self.kinds(suite), {"same_both": "pass", "no difference": "pass"})
        self.assertEqual({test.group for test in suite.tests}, {"hold --smoke 3"})
        late = {"same_both": "gates.drive == (dut.drive ^ (dut.state != 4'd5)) && gates.place < 4'd2"}
        ran = self.hold(late, "--smoke", "5")
        self.assertEqual(ran.returncode, 1)
        suite = read_junit(self.file)
        self.assertEqual(self.kinds(suite), {"same_both": "fail", "no difference": "fail"})
        self.assertEqual(suite.tests[1].message, "different in bit time 3")


@unittest.skipUnless(test_play.has_tools() and MODULE.exists(), "yosys, a C++ compiler or junitparser is not installed")
class Plays(Reported):
    def play(self, parts: dict[str, str], status: int) -> Suite:
        files = (self.put("wiring.v", test_play.wiring(parts)), self.put("small.v", test_play.DESIGN))
        return self.suite(self.run_hold("--play", "--seconds", "1", *files), status)

    def test_no_difference(self) -> None:
        suite = self.play({**test_play.SAME, **test_play.SILENCE}, 0)
        self.assertEqual(self.kinds(suite), {"same_drive": "pass", "no difference": "pass"})
        self.assertRegex(suite.tests[1].output, r"^no difference in [\d,]+ bit times$")

    def test_a_difference(self) -> None:
        suite = self.play({**test_play.LATE, "same_state": "dut.state == 4'd5 || gates.drive"}, 1)
        self.assertEqual(self.kinds(suite), {"same_drive": "fail", "same_state": "skip", "no difference": "fail"})
        self.assertTrue(suite.tests[0].message.startswith("same_drive fails: dut.drive 1, gates.drive 0, "))
        self.assertRegex(suite.tests[2].text, r"^difference: shortened from \d+ to \d+ bit times(.*\n)*  fail at \d+: ")


@unittest.skipUnless(test_find.has_tools() and MODULE.exists(), "a tool is not installed")
class Searches(Reported):
    def find(self, drive: str, status: int) -> Suite:
        """The report of a search for a design with a copy of the circuit, which drives this."""
        circuit = pathlib.Path(test_find.CIRCUIT).read_text().replace("module riddlesage_controller", "module copied")
        names = ("clock", "reset", "bus", "integrating", "waits", "extended", "identifier")
        ports = ", ".join(f".{name}({name})" for name in names)
        text = re.sub(r"small dut\(.*\)", f"small dut({ports})", test_play.wiring(SAME))
        files = (self.put("wiring.v", text), self.put("copied.v", circuit))
        design = self.put("small.v", test_find.WITH_COPY % drive)
        return self.suite(self.run_hold("--find", "--circuit", test_find.CIRCUIT, *files, design), status)

    def test_searches(self) -> None:
        suite = self.find("level ^ (age == 20'hfffff)", 4)
        self.assertEqual(self.kinds(suite), {"same_drive": "skip", "equal in every run": "skip"})
        self.assertEqual(suite.tests[1].message, "not proved, and no difference was found either")
        files = (self.put("wiring.v", test_play.wiring(test_play.SAME)), self.put("small.v", test_play.DESIGN))
        suite = self.suite(self.run_hold("--find", "--circuit", test_find.CIRCUIT, *files), 1)
        self.assertEqual(self.kinds(suite), {"same_drive": "fail", "equal in every run": "fail"})
        self.assertEqual({test.group for test in suite.tests}, {"hold --find"})


if __name__ == "__main__":
    unittest.main()
