"""Tests of conformance/run: whole runs with adapters of a few lines."""

from __future__ import annotations

import os
import re
import subprocess
import sys
import tempfile
import unittest
import xml.etree.ElementTree as ET

TOP = os.path.dirname(os.path.dirname(os.path.realpath(__file__)))
TRANSCRIPTS = os.path.join(TOP, "transcripts")
sys.path.insert(0, os.path.join(os.path.dirname(TOP), "bindings", "tests"))

from junit_reader import read_junit

# Drives nothing, and ends its lines with two bytes.
SILENT = """
import sys
def say(text):
    sys.stdout.write(text + "\\r\\n")
    sys.stdout.flush()
say("can-kit 1 silent")
for line in sys.stdin:
    word, _, rest = line.strip().partition(" ")
    if word in ("case", "play", "end"):
        say({"case": "ready", "play": "drove " + "1" * len(rest), "end": "state unknown"}[word])
"""


class Runs(unittest.TestCase):
    def setUp(self) -> None:
        self.folder = tempfile.TemporaryDirectory()
        self.addCleanup(self.folder.cleanup)

    def path(self, name: str) -> str:
        return os.path.join(self.folder.name, name)

    def run_kit(self, options: list[str], command: list[str]) -> subprocess.CompletedProcess[str]:
        words = [os.path.join(TOP, "run"), "--expect", TRANSCRIPTS, *options, "--", *command]
        return subprocess.run([sys.executable, *words], capture_output=True, text=True, timeout=60)

    def test_line_ends_of_two_bytes(self) -> None:
        run = self.run_kit(["--only", "rx-dlc-data-0"], [sys.executable, "-c", SILENT])
        self.assertEqual(run.stdout.splitlines()[0], "fail rx-dlc-data-0 at 37: drove 1 not 0")
        self.assertEqual((run.returncode, run.stderr), (1, ""))

    def test_three_voids_end_a_run(self) -> None:
        run = self.run_kit(["--quiet"], ["true"])
        self.assertEqual(run.stdout.splitlines()[3], "stopped: three cases in a row are void, and no more are played")
        self.assertEqual((run.returncode, run.stdout.splitlines()[-1]), (3, "passed 0 failed 0 void 3 skipped 0 of 3"))

    def test_a_run_that_compares_nothing_does_not_pass(self) -> None:
        """All cases are skipped, or none has an expected transcript. A run that only writes transcripts is good."""
        skipping = ["sh", "-c", "printf 'can-kit 1 none\nskip all\n'; cat > /dev/null"]
        silent = [sys.executable, "-c", SILENT]
        elsewhere = ["--expect", os.path.join(TOP, "transcripts", "rx-dlc.toml")]
        reported = "run: nothing was compared: no case was played that has an expected transcript\n"
        written = ["--transcripts", self.path("written.toml")]
        rows: list[tuple[list[str], list[str], int]] = [
            (["--expect", TRANSCRIPTS, "--without", "forced"], skipping, 5),
            (elsewhere, silent, 5),
            ([], silent, 5),
            (written, silent, 0),
            (written, skipping, 5),
        ]
        for options, command, status in rows:
            words = [os.path.join(TOP, "run"), "--only", "arbitration-equal-same", *options, "--", *command]
            run = subprocess.run([sys.executable, *words], capture_output=True, text=True, timeout=60)
            self.assertEqual((run.returncode, run.stderr), (status, reported if status else ""))

    def test_wrong_uses(self) -> None:
        """A run without cases does not pass, and no wrong option ends in a stack trace."""
        nowhere = self.path("nowhere/written")
        wrong = (
            (["--only", "no-such"], "there are no cases whose names begin with no-such"),
            (["--cases", nowhere], f"[Errno 2] No such file or directory: '{nowhere}'"),
            (["--junit", nowhere], f"[Errno 2] No such file or directory: '{nowhere}'"),
            (["--transcripts", nowhere], f"[Errno 2] No such file or directory: '{nowhere}'"),
            (["--reference", "true"], "the reference does not play arbitration-equal-same: void ended, status 0"),
            (["--reference", "'"], "No closing quotation"),
        )
        for options, reported in wrong:
            run = self.run_kit(options, ["true"])
            self.assertEqual((run.returncode, run.stdout, run.stderr), (2, "", f"run: {reported}\n"))

    def test_a_command_that_cannot_be_started(self) -> None:
        """It ends the run at once."""
        nowhere = self.path("nowhere")
        run = self.run_kit([], [nowhere])
        reason = f"the adapter can't be started: [Errno 2] No such file or directory: '{nowhere}'"
        self.assertEqual((run.returncode, run.stdout, run.stderr), (2, "", f"run: {reason}\n"))

    def test_a_report_in_xml(self) -> None:
        """It has the adapter's own words, with question marks for characters that XML does not have."""
        command = ["sh", "-c", "printf 'error \\001 <why>\\n'"]
        self.run_kit(["--only", "rx-dlc-data-0", "--junit", self.path("report.xml")], command)
        suite = ET.parse(self.path("report.xml")).getroot()[0]
        self.assertEqual([suite.get(name) for name in ("tests", "failures", "errors", "skipped")], ["1", "0", "1", "0"])
        self.assertEqual(suite[0][0].get("message"), "void rx-dlc-data-0: error ? <why>")

    def test_a_report_is_read_back(self) -> None:
        """junitparser has the counts and names of the run."""
        silent = [sys.executable, "-c", SILENT]
        run = self.run_kit(["--only", "rx-ack", "--without", "forced", "--junit", self.path("report.xml")], silent)
        suite = read_junit(self.path("report.xml"))
        lines = run.stdout.splitlines()[:5]
        self.assertEqual([test.message for test in suite.tests], lines)
        verdicts = re.findall("(?m)^(?:fail|skip) [a-z-]+", run.stdout)
        self.assertEqual([f"{test.kind} {test.name}" for test in suite.tests], verdicts)
        self.assertEqual((suite.count("skip"), suite.count("fail"), suite.tests[4].group), (2, 3, "rx-ack"))


if __name__ == "__main__":
    unittest.main()
