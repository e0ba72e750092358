"""Tests of `hold --find`: what it refuses, what it writes, and mappings that name rows of memories."""

from __future__ import annotations

import contextlib
import io
import pathlib
import re
import shutil
import sys
import tempfile
import unittest
from unittest import mock

from tests.test_hold import Files
from tests.test_play import DESIGN, SAME, wiring

FOLDER = pathlib.Path(__file__).resolve().parent.parent
sys.path.insert(0, str(FOLDER))

from finding import progress
from finding.command import PROVED, REFUTED, UNDECIDED, Found, Limits, result_lines
from finding.conditions import Atom, named_atoms
from finding.progress import Counts
from finding.wiring import instance, ports, with_lines, with_named_words
from finding.writing import without_part
from holding.faults import Fault
from holding.gates import Gates
from holding.relation import read_relation
from playing import building

MEMORY = """module small(input clock, input reset, input bus, output drive, output shown);
    reg [7:0] rows [0:1];
    reg [3:0] state;
    assign drive = 1'b1;
    assign shown = rows[state[0]][0];
    always @(posedge clock) begin
        rows[state[0]] <= reset ? 8'd0 : rows[state[1]];
        state <= 4'd5;
    end
endmodule"""
# the last eight levels
HISTORY = """module history(input clock, input reset, input bus, output drive);
    reg [7:0] levels;
    assign drive = 1'b1;
    always @(posedge clock) levels <= reset ? 8'hff : {levels[6:0], bus};
endmodule
"""
# a constant of more than 32 bits
WIDE = """library ieee;
use ieee.std_logic_1164.all;
entity small is
    port (clock, reset, bus_level : in std_ulogic; drive : out std_ulogic; word : out std_ulogic_vector(39 downto 0));
end entity;
architecture made of small is
begin
    drive <= '1';
    process (clock) begin
        if rising_edge(clock) then
            word <= (0 => '1', 35 => '1', others => '0');
        end if;
    end process;
end architecture;
"""
# a design that has the circuit in it
WITH_COPY = """module small(input clock, reset, bus, integrating, waits, extended, input [28:0] identifier,
        output drive);
    copied copy(.clock(clock), .reset(reset), .integrating(integrating), .enable(1'b1), .bus(bus),
        .overload_request(1'b0), .overload_count(2'd0), .waits(waits), .wait_extended(extended), .wait_remote(1'b0),
        .wait_identifier(identifier), .wait_dlc(4'd1), .wait_data(64'hc3), .drive(level));
    wire level;
    reg [19:0] age;
    always @(posedge clock) age <= reset ? 20'd0 : age + 20'd1;
    assign drive = %s;
endmodule
"""
INSTANCES = "riddlesage_controller gates (.clock(clock)); small dut (.clock(clock));"
CIRCUIT = str(FOLDER / "riddlesage_controller.v")


CADICAL = pathlib.Path("/usr/include/cadical.hpp")


def has_tools() -> bool:
    return all(shutil.which(it) for it in ("yosys", "cadical", "c++")) and CADICAL.exists()


class Refusals(Files):
    def test_wrong_usage(self) -> None:
        for words in (["--find", "--play"], ["--find", "--smoke", "3"], ["-o", "x"], ["--find", "--keep", "x"]):
            self.assertEqual(self.run_hold(*words, "wiring.v", "small.v").returncode, 2, words)

    @unittest.skipUnless(has_tools(), "a tool is not installed")
    def test_a_part_that_depends_on_an_input(self) -> None:
        text = wiring({**SAME, "holds_state": "dut.state == 4'd5 || bus"})
        files = (self.put("wiring.v", text), self.put("small.v", DESIGN))
        ran = self.run_hold("--find", "--circuit", CIRCUIT, *files)
        self.prints(ran, 1, "holds_state depends on an input of its bit time, so it is no guess about registers")

    @unittest.skipUnless(has_tools(), "a tool is not installed")
    def test_a_mapping_that_was_found(self) -> None:
        text = with_lines(read_relation(wiring(SAME), "wiring.v"), instance("words_count")).text
        ran = self.run_hold("--find", "--circuit", CIRCUIT, self.put("found.v", text), self.put("small.v", DESIGN))
        self.prints(ran, 1, "has the module riddlesage_words, which --find adds")

    @unittest.skipUnless(has_tools(), "a tool is not installed")
    def test_words_that_a_mapping_names(self) -> None:
        text = wiring({"same_drive": "gates.drive == dut.drive", "holds_state": "dut.state == words_count[3:0]"})
        ran = self.run_hold("--circuit", CIRCUIT, self.put("mapping.v", text), self.put("small.v", DESIGN))
        self.assertRegex(ran.stdout, r"holds_state fails: dut\.state .*gates\.heard_count ", ran)

    @unittest.skipUnless(has_tools(), "a tool is not installed")
    def test_a_design_that_differs(self) -> None:
        files = (self.put("wiring.v", wiring(SAME)), self.put("small.v", DESIGN))
        ran = self.run_hold("--find", "--circuit", CIRCUIT, *files)
        self.assertEqual((ran.returncode, ran.stdout.splitlines()[-1]), (1, "different: same_drive"), ran)

    @unittest.skipUnless(shutil.which("c++"), "a C++ compiler is not installed")
    def test_a_solver_that_is_not_installed(self) -> None:
        with tempfile.TemporaryDirectory() as made:
            room = pathlib.Path(made)
            (room / "main.cc").write_text("#include <cadical_that_is_not_there.hpp>\nint main() {}\n")
            with self.assertRaises(Fault) as caught:
                building.compiled("c++", building.Engine("find", "learner", (made,)), room / "made")
        self.assertIn("apt-get install libcadical-dev", str(caught.exception))


@unittest.skipUnless(has_tools(), "a tool is not installed")
class Searches(Files):
    """The design has the circuit in it, as `copy`."""

    def found(self, drive: str, parts: dict[str, str]) -> tuple[int, str, str]:
        """The status and the output for a design that drives this, and the mapping written."""
        circuit = pathlib.Path(CIRCUIT).read_text().replace("module riddlesage_controller", "module copied")
        text = wiring({"same_drive": "gates.drive == dut.drive", **parts})
        names = ("clock", "reset", "bus", "integrating", "waits", "extended", "identifier")
        text = re.sub(r"small dut\(.*\)", f"small dut({', '.join(f'.{it}({it})' for it in names)})", text)
        made = str(pathlib.Path(self.put("made.v", "")))
        files = (self.put("wiring.v", text), self.put("copied.v", circuit), self.put("small.v", WITH_COPY % drive))
        ran = self.run_hold("--find", "-o", made, "--circuit", CIRCUIT, *files)
        return ran.returncode, ran.stdout, pathlib.Path(made).read_text()

    def test_parts_of_the_wiring_are_guesses(self) -> None:
        parts = {"holds_phase": "dut.copy.phase == gates.phase", "holds_place": "gates.place < 4'd9"}
        status, printed, made = self.found("level", parts)
        self.assertEqual((status, printed.splitlines()[-1]), (0, "equal in every run"), printed)
        self.assertIn("given up: holds_place\n  it fails in the play\n", printed)
        self.assertRegex(made, r"(?s)output holds_phase,.*wire holds_place;")

    def test_a_difference_that_no_play_reaches(self) -> None:
        status, printed, made = self.found("level ^ (age == 20'hfffff)", {"same_tec": "gates.tec == dut.copy.tec"})
        self.assertEqual(status, 4, printed)
        self.assertRegex(printed, r"(?m)^given up: .*dut\.age")
        self.assertRegex(printed, r"(?m)^  registers: .*dut\.age 0x[\da-f]+ then 0x[\da-f]+$")
        self.assertIn("\n  same_drive fails: dut.drive ", printed)
        self.assertRegex(printed, r"(?m)^  played: [\d,]+ states of this phase, 0 with these registers$")
        self.assertRegex(printed, r"\nfound: no proof, \d+ s\n")
        self.assertIn("\nproved: same_tec\nnot proved: same_drive; no difference was found either\n", printed)
        self.assertRegex(made, r"(?m)^    wire guess_age =")
        self.assertNotIn("holds_age", made)
        # what is left is a register mapping
        ran = self.run_hold("--circuit", CIRCUIT, *(str(self.room / it) for it in ("made.v", "copied.v", "small.v")))
        self.assertEqual(ran.returncode, 1, ran)
        self.assertRegex(ran.stdout, r"\nreset: proved(.*\n)*outputs: counterexample(.*\n)*step: proved")


class Results(unittest.TestCase):
    def lines(self, results: list[int], is_done: bool = True, steps: int = 7) -> list[str]:
        found = Found(outputs=results, is_done=is_done, steps=steps)
        return list(result_lines(["same_a", "same_b", "same_c"], found, Limits(1000, 60, False)))

    def test_what_became_of_the_outputs(self) -> None:
        ended = "  the search ended with the first output that was given up; with -o FILE it goes on"
        not_proved = "not proved: {}; no difference was found either"
        undecided = ["undecided: same_a, same_b, same_c", "", not_proved.format("same_a, same_b, same_c")]
        self.assertEqual(self.lines([REFUTED, PROVED, PROVED]), ["proved: same_b, same_c", not_proved.format("same_a")])
        lines = ["undecided: same_a, same_c", ended, not_proved.format("same_b")]
        self.assertEqual(self.lines([UNDECIDED, REFUTED, UNDECIDED]), lines)
        undecided[1] = "  the limit of 1,000 steps was reached (--steps)"
        self.assertEqual(self.lines([UNDECIDED] * 3, False, 1001), undecided)
        undecided[1] = "  the limit of 60 seconds was reached (--seconds)"
        self.assertEqual(self.lines([UNDECIDED] * 3, False), undecided)


class Waiting(unittest.TestCase):
    def test_lines_are_some_seconds_apart(self) -> None:
        shown = io.StringIO()
        with mock.patch.object(progress.time, "monotonic", side_effect=[104.0, 111.0, 112.0, 130.0, 141.0]):
            with contextlib.redirect_stderr(shown):
                made = progress.Progress(100.0)
                made.show("playing")
                made.show("proving", Counts(0, 1200, 34, 5, 17))
                made.show("proving", Counts(0, 1300, 36, 5, 17))
                made.show("proving", Counts(0, 1400, 37, 9, 17))
                made.show("guessing", Counts(2))
        proving = "proving the outputs, {} questions answered, {} of 17 groups of guesses proved, "
        proving += "guesses refuted since the last line: {}"
        lines = [f"hold: 11 s: {proving.format('1,200', 5, 34)}", f"hold: 30 s: {proving.format('1,400', 9, 3)}"]
        lines.append("hold: 41 s: looking for what is equal in all states that were played, round 2")
        self.assertEqual(shown.getvalue().splitlines(), lines)


class Words(unittest.TestCase):
    def test_an_output_becomes_a_wire(self) -> None:
        heads = (
            ("output same_drive, holds_x, holds_y", "output same_drive, holds_y"),
            ("output holds_x, same_drive", "output same_drive"),
            ("output same_drive,\n output holds_x", "output same_drive"),
        )
        for given, left in heads:
            text = f"module wiring (input clock, reset, {given});\n    {INSTANCES}\nendmodule\n"
            made = without_part(read_relation(text, "wiring.v"), "holds_x").text
            wanted = f"module wiring (input clock, reset, {left});\n    wire holds_x;"
            self.assertEqual(made[: len(wanted)], wanted)


    def test_the_page_has_all_words_with_their_widths(self) -> None:
        listed: dict[str, int] = {}
        for names, widths in re.findall(r"(?m)^\| (`.*?`) \| ([\d, ]+) \|", (FOLDER / "WORDS.md").read_text()):
            known, sizes = re.findall(r"`(\w+)`", names), [int(it) for it in widths.split(",")]
            self.assertIn(len(sizes), (1, len(known)), names)
            listed |= dict(zip(known, sizes * len(known) if len(sizes) == 1 else sizes))
        self.assertEqual(listed, ports()["output"])

    def test_words_are_added_where_they_are_named(self) -> None:
        one = with_named_words(read_relation(wiring({**SAME, "holds_x": "words_left < 7'd9"}), "wiring.v"))
        self.assertRegex(one.text, r"wire \[6:0\] words_left;(.*\n)* +riddlesage_words words \(")
        self.assertEqual(with_named_words(one).text, one.text)
        none = read_relation(wiring(SAME) + "// words_left\n", "wiring.v")
        self.assertEqual(with_named_words(none).text, none.text)

    def test_the_module_has_the_ports_that_are_connected(self) -> None:
        of = ports()
        self.assertEqual((of["input"]["heard"], of["output"]["field"], of["output"]["index_less"]), (103, 12, 7))
        self.assertEqual(len("\n".join(instance()).split(".")) - 1, 2 * len(of["input"]) + len(of["output"]))

    def test_lines_are_added_at_the_end_of_the_wiring(self) -> None:
        text = wiring(SAME).replace("endmodule", "// endmodule\nendmodule // endmodule")
        made = with_lines(read_relation(text, "wiring.v"), ["    wire more;"])
        self.assertRegex(made.text, r"(?s)// endmodule\n+    wire more;\nendmodule")

    def test_an_atom_in_verilog_is_its_literal(self) -> None:
        gates = Gates()
        word = [gates.fresh() for _ in range(4)]
        for atom in (Atom("x", "==", 5), Atom("x", "<", 5), Atom("x", ">=", 5), Atom("x", "<", 16), Atom("x")):
            literal, text = atom.literal(gates, word), atom.text(len).replace("x", "{}").replace("1'd", "")
            for number in range(16):
                given = {bit >> 1: bool(number >> place & 1) for place, bit in enumerate(word)}
                value = gates.values(given)[literal >> 1] != bool(literal & 1)
                self.assertEqual(value, bool(eval(text.format(number if atom.test else number & 1))), (text, number))

    def test_atoms_name_words_that_exist(self) -> None:
        known = {f"words_{name}" for name in ports()["output"]}
        for atom in named_atoms().values():
            name = re.sub(r"\[.*", "", atom.word)
            self.assertTrue(name in known or name.startswith(("gates.", "was_", "clock_ago_")), name)


@unittest.skipUnless(has_tools(), "a tool is not installed")
class Mappings(Files):
    def test_parts_with_loops(self) -> None:
        mapping = str(FOLDER / "tests" / "loops.v")
        ran = self.run_hold("--circuit", CIRCUIT, mapping, self.put("history.v", HISTORY))
        self.assertRegex(ran.stdout, r"\nreset: proved(.*\n)*step: proved", ran)
        broken = self.put("history.v", HISTORY.replace("[6:0]", "[7:1]"))
        ran = self.run_hold("--circuit", CIRCUIT, mapping, broken)
        self.assertRegex(ran.stdout, r"\nstep: counterexample(.*\n)*  holds_statement fails: .*dut\.levels", ran)

    def hold_with(self, part: str, design: str) -> str:
        text = wiring({"same_drive": "gates.drive == dut.drive", "holds_row": part})
        ran = self.run_hold("--circuit", CIRCUIT, self.put("wiring.v", text), design)
        return ran.stdout + ran.stderr

    def test_a_row_of_a_memory(self) -> None:
        printed = self.hold_with("\\dut.rows[1] [3:0] == dut.state", self.put("small.v", MEMORY))
        self.assertIn("holds_row fails: dut.rows[1]", printed)
        printed = self.hold_with("\\dut.rows[2] [3:0] == dut.state", self.put("small.v", MEMORY))
        self.assertIn("no such register, output or signal: dut.rows[2]", printed)

    @unittest.skipUnless(shutil.which("ghdl"), "ghdl is not installed")
    def test_a_wide_constant_in_vhdl(self) -> None:
        made = self.put("small.vhd", WIDE)
        parts = {"same_drive": "gates.drive == dut.drive", "holds_word": "dut.word == 40'h0800000001"}
        text = wiring(parts).replace("(reset), .bus(bus));", "(reset), .bus_level(bus));")
        ran = self.run_hold("--circuit", CIRCUIT, self.put("wiring.v", text), made)
        self.assertIn("reset: proved", ran.stdout, ran)


if __name__ == "__main__":
    unittest.main()
