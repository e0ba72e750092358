"""The sessions of the pages are those of `hold`, without times and without what the solver chooses."""

from __future__ import annotations

import pathlib
import re
import shutil
import subprocess
import sys
import unittest

FOLDER = pathlib.Path(__file__).resolve().parent.parent
TOP = FOLDER.parent
# the pages with sessions of `hold`, and how many each has
PAGES = {FOLDER / "README.md": 5, TOP / "bindings" / "vhdl" / "README.md": 1}
CADICAL = pathlib.Path("/usr/include/cadical.hpp")
sys.path.insert(0, str(FOLDER))

from holding.tools import SOLVERS

FAILS = re.compile(r"  \w+ fails: ")
# how much --play has played in its time, and what --find has searched
COUNTED = re.compile(r"(learned|searched|found|played|frames|errors|difference): |overload frames |no difference in |  [A-Z][\w ]+ [\d-]")
NUMBER = r" (?:\d+|0x[0-9a-f]+)"
# times, the circuit, the self-check's mutation, counters, roles, a pending frame or request, and values of registers
CHOSEN = [
    (r"\d+\.\d s", "TIME"),
    (r"^circuit: .*", "circuit:"),
    (r" \(holds_\w+\)$", ""),
    (r"tec \d+ rec \d+$", "tec rec"),
    (r"(sender|receiver);", "ROLE;"),
    (r"^(  inputs: bus [01] \(\w+\)).*", r"\1"),
]


def has_tools() -> bool:
    return all(map(shutil.which, ("yosys", "c++"))) and any(map(shutil.which, SOLVERS.values()))


def sessions(page: pathlib.Path) -> dict[str, list[str]]:
    """The commands of a page's indented blocks that begin with `$ `, with the lines below each."""
    blocks = re.findall(r"(?m)^ {4}\$ (.*)\n((?: {4}[^$\n].*\n)+)", page.read_text())
    return {command: re.sub(r"(?m)^ {4}", "", lines).splitlines() for command, lines in blocks}


def without_choices(line: str) -> str:
    if COUNTED.match(line):
        return re.sub(r"[ \d,.]+", " ", line)
    for pattern, instead in CHOSEN:
        line = re.sub(pattern, instead, line)
    return re.sub(rf"{NUMBER}(?: then{NUMBER})?(?=,|$)", "", line) if FAILS.match(line) else line


def are_shown(shown: list[str], printed: list[str]) -> bool:
    """Whether these lines are printed, in this order, and no others but further parts that fail."""
    due = iter(map(without_choices, shown))
    wanted = next(due, None)
    for line in map(without_choices, printed):
        if line == wanted:
            wanted = next(due, None)
        elif not FAILS.match(line):
            return False
    return wanted is None


class Page(unittest.TestCase):
    def test_what_is_compared(self) -> None:
        shown = ["circuit: a", "step: counterexample, 3.0 s", "  before: idle, sender; Rule; tec 1 rec 2"]
        shown += ["  holds_a fails: dut.a 8 then 0, a 0x8 then 9", "not proved"]
        self.assertTrue(are_shown(shown, shown))
        other = ["circuit: b", "step: counterexample, 12.5 s", "  before: idle, receiver; Rule; tec 7 rec 8"]
        other += ["  holds_a fails: dut.a 1, a 3", "  holds_b fails: b 1", "not proved"]
        self.assertTrue(are_shown(shown, other))
        self.assertFalse(are_shown(other, shown))
        played = ["  Bus off  1,200", "overload frames 12, bus-off 1", "played: 12 bit times"]
        self.assertTrue(are_shown(played, [re.sub("1", "3,451", line) for line in played]))
        for place in range(len(shown)):
            self.assertFalse(are_shown(shown, [*shown[:place], *shown[place + 1 :]]))
            self.assertFalse(are_shown(shown, [*shown[:place], "other", *shown[place:]]))

    @unittest.skipUnless(has_tools(), "yosys, a solver or a C++ compiler is not installed")
    def test_sessions(self) -> None:
        self.assertEqual({page: len(sessions(page)) for page in PAGES}, PAGES)
        for command, shown in (it for page in PAGES for it in sessions(page).items()):
            if ".vhd" in command and not shutil.which("ghdl") or "--find" in command and not CADICAL.exists():
                continue
            with self.subTest(command):
                ran = subprocess.run(["bash", "-c", command], cwd=TOP, capture_output=True, text=True, timeout=900)
                printed = ran.stdout.splitlines()
                self.assertTrue(are_shown(shown, printed), "\n".join([*printed, ran.stderr]))


if __name__ == "__main__":
    unittest.main()
