"""Tests of `hold --play`: differences, what it writes of them, and what it refuses."""

from __future__ import annotations

import os
import pathlib
import re
import shutil
import sys
import tempfile
import unittest
from unittest import mock

from tests.test_hold import Files

FOLDER = pathlib.Path(__file__).resolve().parent.parent
sys.path[:0] = [str(FOLDER), str(FOLDER.parent / "conformance")]

from holding.circuit import MODULE, read_circuit
from holding.faults import Fault
from holding.netlist import Netlist
from holding.reading import Design, read_both
from holding.relation import read_relation
from holding.waves import waves
from kit.documents import read_document, write_case, write_transcript
from peer.controller import controller
from peer.verilog import written
from playing import building
from playing.building import simulator
from playing.drafting import Port, draft, matched
from playing.keeping import FAMILY, case, obstacle, transcript
from playing.model import Model
from playing.printing import difference, run_lines, verdict
from playing.rules import ALL, RULES, Counts
from playing.simulating import DOMINANT, FORCED, NO_CHANGE, SHORTEN_CYCLES
from playing.simulating import Frame, Limit, Run, Shown, read_output, simulate

# drives recessive, and has a register that a reset sets
DESIGN = "module small(input clock, input reset, input bus, output drive, output reg [3:0] state); \
assign drive = 1'b1; always @(posedge clock) state <= reset ? 4'd5 : state; endmodule"
HEAD = "module small(input clock, input reset, input bus, output reg drive, output [3:0] state);"
WIRING = """module wiring(input clock, input reset, input integrating, input bus, input waits, input extended,
    input [28:0] identifier, {outputs});
    riddlesage_controller gates(.clock(clock), .reset(reset), .integrating(integrating), .enable(1'b1), .bus(bus),
        .overload_request(1'b0), .overload_count(2'd0), .waits(waits), .wait_extended(extended), .wait_remote(1'b0),
        .wait_identifier(identifier), .wait_dlc(4'd1), .wait_data(64'hc3));
    small dut(.clock(clock), .reset(reset), .bus(bus));
    {parts}
endmodule
"""
SAME = {"same_drive": "gates.drive == (dut.drive ^ (dut.state != 4'd5))"}
SILENCE = {"given_silence": "bus && !waits"}
# the third bit time after SOF of a frame that it sends
LATE = {"same_drive": "gates.drive == dut.drive || gates.heard_count < 7'd3"}


def has_tools() -> bool:
    return all(shutil.which(it) for it in ("yosys", "c++"))


def wiring(parts: dict[str, str]) -> str:
    lines = "\n    ".join(f"assign {name} = {value};" for name, value in parts.items())
    return WIRING.format(outputs=", ".join(f"output {name}" for name in parts), parts=lines)


class Played(Files):
    def play(self, parts: dict[str, str], *words: str, design: str = DESIGN, status: int = 0, said: str = "") -> str:
        files = (self.put("wiring.v", wiring(parts)), self.put("small.v", design))
        ran = self.run_hold("--play", "--seconds", "1", *words, *files)
        self.assertEqual(ran.returncode, status, ran)
        self.assertIn(said, ran.stdout + ran.stderr)
        return ran.stdout


@unittest.skipUnless(has_tools(), "yosys or a C++ compiler is not installed")
class Plays(Played):
    def test_no_difference(self) -> None:
        printed = self.play({**SAME, **SILENCE, "holds_x": "dut.state == 4'd5"})
        lines = printed.splitlines()
        self.assertIn("not played: holds_x (invariants, which only a proof needs)", lines)
        self.assertIn("assumed: given_silence", lines)
        self.assertRegex(lines[-1], r"^no difference in [1-9][\d,]* bit times$")
        self.assertRegex(printed, r"(?m)^not reached: Start of frame \(transmitter active\), ")
        self.assertRegex(printed, r"(?m)^  Joining +- +- +[1-9][\d,]* +-$")
        self.assertRegex(printed, r"(?m)^self-check: injected mutation detected, ")

    def test_a_difference(self) -> None:
        printed = self.play(LATE, status=1)
        self.assertRegex(printed, r"(?m)^difference: shortened from \d+ to \d+ bit times, \d+\.\d s$")
        self.assertRegex(printed, r"(?m)^  fail at \d+: drove 1 not 0; stuffed\S* \d+, sender; (Arbitration|Stuff)")
        self.assertIn("  same_drive fails: dut.drive 1, gates.drive 0, gates.heard_count ", printed)
        self.assertIn("choices: if the design differs, see docs/DECISIONS.md", printed)
        self.assertEqual(printed.splitlines()[-1], "different: same_drive")

    def test_a_seed_gives_the_same(self) -> None:
        first, again, other = (re.sub(r"\d+\.\d s", "", self.play(LATE, "--seed", it, status=1)) for it in "778")
        self.assertEqual(first, again)
        self.assertNotEqual(first, other)

    def test_what_is_written(self) -> None:
        kept, vcd = self.room / "kept.toml", self.room / "waves.vcd"
        self.play(LATE, "--keep", str(kept), "--vcd", str(vcd), status=1, said=f"  case: {kept}\n")
        cases, transcripts = read_document(kept.read_text(), [])
        self.assertEqual([it.name for it in cases], [f"{FAMILY}-1"])
        self.assertEqual(len(cases[0].levels), len(transcripts[0].drove))
        self.assertRegex(cases[0].offers[0][1], "^(S ...|E .{8}) D 1 c3$")
        self.assertEqual(transcripts[0].drove[-1], "0")
        text = vcd.read_text()
        self.assertIn("$scope module dut $end", text)
        self.assertNotIn(" mutation $end", text)

    def test_inputs_are_chosen_that_meet_an_assumption(self) -> None:
        text = wiring({**SAME, **SILENCE, "given_mode": "mode == 3'd5"})
        text = text.replace("input waits,", "input [2:0] mode, input waits,")
        ran = self.run_hold("--play", "--seconds", "1", self.put("wiring.v", text), self.put("small.v", DESIGN))
        left_out = re.search(r"(?m)^left out: (\d+)\.\d % of the bit times", ran.stdout)
        self.assertLess(int(left_out[1]) if left_out else 0, 5, ran.stdout)
        self.assertIn("\nno difference in ", ran.stdout)

    def test_an_inverted_level(self) -> None:
        text = wiring(LATE).replace(".bus(bus),\n", ".bus(~bus),\n")
        ran = self.run_hold("--play", self.put("wiring.v", text), self.put("small.v", DESIGN))
        self.assertIn("fail at ", ran.stdout)

    def test_bit_times_of_many_clock_cycles(self) -> None:
        divider = "reg [2:0] quantum; always @(posedge clock) quantum <= reset || is_last ? 3'd0 : quantum + 3'd1;"
        text = wiring(LATE).replace(".enable(1'b1)", ".enable(is_last)")
        text = text.replace("riddlesage_c", f"wire is_last = quantum == 3'd4; {divider} riddlesage_c", 1)
        ran = self.run_hold("--play", self.put("wiring.v", text), self.put("small.v", DESIGN))
        self.assertRegex(ran.stdout, r"fail at \d: drove 1 not 0; stuffed\S* 3, sender; Arbitration\n")

    def test_bit_times_that_wait_for_an_input(self) -> None:
        divider = "reg [2:0] quantum; always @(posedge clock) quantum <= reset ? 3'd0 : quantum + {2'd0, tick};"
        text = wiring({**SAME, **SILENCE}).replace(".enable(1'b1)", ".enable(is_last)")
        text = text.replace("input waits,", "input tick, input waits,")
        text = text.replace("riddlesage_c", f"wire is_last = tick && quantum == 3'd4; {divider} riddlesage_c", 1)
        ran = self.run_hold("--play", "--seconds", "1", self.put("wiring.v", text), self.put("small.v", DESIGN))
        self.assertRegex(ran.stdout, r"\nno difference in \d+,[\d,]+ bit times\n$")

    def test_what_depends_on_registers_before_the_reset(self) -> None:
        forgets = "reg other; always @(posedge clock) begin drive <= 1; other <= other; end assign state = other;"
        parts = {"same_drive": "gates.drive == dut.drive || dut.state == 4'd0"}
        kept = self.room / "kept.toml"
        printed = self.play(parts, "--keep", str(kept), design=f"{HEAD} {forgets} endmodule", status=1)
        self.assertIn("  no case: it depends on what registers hold before the reset\n", printed)
        self.assertFalse(kept.exists())


@unittest.skipUnless(has_tools(), "yosys or a C++ compiler is not installed")
class Refusals(Played):
    def test_a_wiring_that_compares_nothing(self) -> None:
        self.play(SILENCE, status=5, said="the wiring compares no outputs")
        self.play({"same_x": "1'b1"}, status=5, said="same_x has no effect")
        self.play({"same_x": "gates.tec == dut.state"}, status=5, said="the wiring must compare gates.drive")
        self.play({**SAME, "phase": "bus"}, status=1, said="output phase of the wiring must be one bit wide")

    def test_a_mutation_that_is_not_found(self) -> None:
        same = {"same_drive": "gates.drive == dut.drive"}
        self.play({**same, **SILENCE}, status=5, said="into the design and not detected")

    def test_assumptions_that_no_run_meets(self) -> None:
        self.play({**SAME, "given_x": "!reset"}, status=5, said="nothing was compared")

    def test_designs(self) -> None:
        clocked = "always @(posedge clock) drive <= 1;"
        for text, said in (
            ("", "no file has the module small, of which wiring has the instance dut"),
            (f"{HEAD} wire a = ~(state[0] & bus);", "yosys: "),
            (f"{HEAD} assign state = {{4{{state[0] & bus}}}}; {clocked} endmodule", "combinational loop"),
            (f"{HEAD} always @* if (bus) drive = reset; endmodule", "registers only: register dut.drive"),
            (f"{HEAD} always @(posedge bus) drive <= 1; endmodule", "has a clock other than"),
            (f"{HEAD} always @(negedge clock) drive <= 1; endmodule", "the falling edge of its clock"),
        ):
            with self.subTest(said):
                self.play({**SAME, "same_state": "dut.state == 4'd0"}, design=text, status=1, said=said)

    def test_a_bus_that_is_no_input(self) -> None:
        text = wiring(SAME).replace(".bus(bus),\n", ".bus(dut.drive),\n")
        ran = self.run_hold("--play", self.put("wiring.v", text), self.put("small.v", DESIGN))
        self.prints(ran, 1, "the wiring must connect gates.bus to an input of its own")

    def test_no_compiler(self) -> None:
        for tool in ("yosys", "yosys-abc", "yosys-config"):
            if found := shutil.which(tool):
                (self.room / tool).symlink_to(found)
        files = (self.put("wiring.v", wiring(SAME)), self.put("small.v", DESIGN))
        # cangates, if it is built, would need a shell
        circuit = str(FOLDER / f"{MODULE}.v")
        ran = self.run_hold("--play", "--circuit", circuit, *files, path=str(self.room))
        self.prints(ran, 3, "no C++ compiler is installed, which builds the simulator: apt-get install g++")

    def test_wrong_usage(self) -> None:
        wrong = [["--keep", "x"], ["--seed", "1"], ["--cycles", "1"], ["--play", "--steps", "1"]]
        wrong += [["--play", "--smoke", "1"], ["--play", "--seconds", "0"], ["--play", "--cycles", "0"]]
        for words in wrong:
            self.assertEqual(self.run_hold(*words, "wiring.v", "small.v").returncode, 2)


@unittest.skipUnless(has_tools(), "yosys or a C++ compiler is not installed")
class Simulator(Files):
    def netlist(self, parts: dict[str, str]) -> Netlist:
        circuit = read_circuit(written(controller(), MODULE, ""), "circuit.v")
        design = Design([self.put("small.v", DESIGN)], [], [])
        return read_both(design, circuit, read_relation(wiring(parts), "wiring.v"), self.room, True)

    def shown(self, parts: dict[str, str]) -> Shown:
        model = Model(self.netlist(parts))
        model.write(self.room / "graph", Counts(model).literals)
        played = simulate(simulator(self.room)[0], self.room / "graph", 1, Limit(), SHORTEN_CYCLES, NO_CHANGE)
        assert played.run is not None
        return Shown(model, played.run)

    def test_its_values_are_those_of_the_gates(self) -> None:
        shown = self.shown(LATE)
        gates = shown.model.gates
        for text in shown.run.values:
            free = {signal: text[signal] == "1" for signal in range(1, gates.signals) if signal not in gates.gates}
            self.assertEqual("".join("1" if it else "0" for it in gates.values(free)), text)

    def test_registers_take_their_values(self) -> None:
        shown = self.shown(LATE)
        for at in range(len(shown.run.values) - 1):
            for held, taken in shown.model.registers.items():
                self.assertEqual(shown.value(at + 1, held), shown.value(at, taken))

    def test_a_run_that_may_be_longer_than_needed(self) -> None:
        shown = self.shown(LATE)
        self.assertRegex(run_lines(shown)[0], r"^difference: shortened from [\d,]+ to \d+ bit times, \d\.\d s$")
        shown.run.before, shown.run.is_done = 1235, False
        said = r"from 1,234 to .* s; its limit was reached, so it may be longer than needed$"
        self.assertRegex(run_lines(shown)[0], said)

    def test_a_limit_in_clock_cycles_depends_on_the_seed_alone(self) -> None:
        model = Model(self.netlist({**SAME, **SILENCE}))
        model.write(self.room / "graph", Counts(model).literals)
        program = simulator(self.room)[0]
        one, same, other = (simulate(program, self.room / "graph", seed, Limit(3000), 0) for seed in (1, 1, 2))
        self.assertEqual((one.cycles, one.bit_times, one.counts), (3000, same.bit_times, same.counts))
        self.assertNotEqual(one.bit_times, other.bit_times)
        shorter = simulate(program, self.room / "graph", 1, Limit(0, 0.1), 0)
        self.assertGreater(shorter.cycles, 0)

    def test_the_words_of_a_verdict(self) -> None:
        shown = self.shown({**LATE, "same_tec": "gates.tec == 9'd0"})
        self.assertIn(difference(shown), ("drove 1 not 0", "the counters differ"))
        self.assertTrue(verdict(shown).startswith(f"  fail at {shown.at - 1}: "))

    def test_a_case_is_a_document(self) -> None:
        shown = self.shown(LATE)
        self.assertIsNone(obstacle(shown))
        text = write_case(case(shown, "play-1")) + write_transcript(transcript(shown, "play-1"))
        self.assertEqual(len(read_document(text, [])[1]), 1)
        shown.run.rows[1].action = FORCED
        self.assertIn("forced", case(shown, "play-1").needs)

    def test_the_waves_have_the_run(self) -> None:
        shown = self.shown(LATE)
        shown.run.rows[1].action, shown.run.rows[2].action = FORCED, DOMINANT
        columns = shown.columns()
        self.assertEqual(columns["bit_time"], list(range(-1, shown.at + 1)))
        self.assertEqual((columns["tester"][1:3], columns["forced"][1:3]), ([1, 0], [1, 0]))
        text = waves(shown, columns)
        declared = re.findall(r"(?m)^\$scope module run \$end\n(?:\$var \w+ \d+ \w+ \w+ \$end\n){3}\$upscope", text)
        self.assertEqual(len(declared), 1)
        code = re.search(r"(?m)^\$var integer 32 (\w+) bit_time \$end$", text)
        assert code is not None
        numbers = re.findall(rf"(?m)^b([01x]{{32}}) {code[1]}$", text)
        self.assertEqual(numbers, ["x" * 32, *(f"{it:032b}" for it in range(shown.at + 1))])

    def test_what_no_case_says(self) -> None:
        shown = self.shown(LATE)
        shown.run.is_queued = False
        self.assertIn("a queue", str(obstacle(shown)))
        shown.run.rows[2].enable = False
        self.assertIn("enable is 0", str(obstacle(shown)))
        shown.run.rows[2].reset = True
        self.assertEqual(obstacle(shown), "it has a second reset")

    def test_each_rule_is_counted_once_in_its_columns(self) -> None:
        counts = Counts(Model(self.netlist(SAME)))
        counts.take([0] * len(counts.literals))
        self.assertEqual(len(set(counts.names)), len(counts.literals))
        self.assertEqual(len(counts.missing()), sum(len(rule.columns) or 1 for rule in RULES))
        self.assertEqual({column for rule in RULES for column in rule.columns}, set(ALL))


STRANGER = """module stranger(input clk_i, input rst_n_i, input rx_i, output tx_o, input tx_valid_i, input [28:0] tx_id,
    input [1:0] overload_count, input listen_only, output [8:0] tx_err_cnt, output [28:0] rx_id, output [7:0] debug);
    assign tx_o = rst_n_i;
endmodule
"""


class Drafts(Files):
    def test_ports_by_name_and_width(self) -> None:
        ports = [Port("rst_n", 1, True), Port("can_rx", 1, True), Port("can_tx", 1, False), Port("tec", 16, False)]
        ports += [Port("tx_id", 29, True), Port("rst_integrate", 1, True), Port("ovl_num", 2, True)]
        match = matched(ports, read_circuit(written(controller(), MODULE, ""), "circuit.v"))
        self.assertEqual({name: it.name for name, it in match.outputs.items()}, {"drive": "can_tx"})
        names = {"reset": "rst_n", "bus": "can_rx", "wait_identifier": "tx_id"}
        names |= {"integrating": "rst_integrate", "overload_count": "ovl_num"}
        self.assertEqual({name: it.name for name, it in match.inputs.items()}, names)
        self.assertEqual([it.name for it in match.others], ["tec"])

    def test_prefixes_suffixes_and_words(self) -> None:
        inputs = {"rejoin_i": "integrating", "tx_frame_ide_in": "wait_extended", "i_ovl_write": "overload_request"}
        inputs |= {"txReqData": "", "canRxIn": "bus", "req_i": "waits", "reqDlc": "wait_dlc"}
        outputs = {"evt_o": "event_code", "fr_id_o": "frame_identifier", "rcvd_rtr": "frame_remote", "canTx": "drive"}
        outputs |= {"msgDataOut": "frame_data", "status_rec": "rec", "sample_o": ""}
        ports = [Port(name, 1, True) for name in inputs] + [Port(name, 1, False) for name in outputs]
        match = matched(ports, read_circuit(written(controller(), MODULE, ""), "circuit.v"))
        found = {port.name: name for names in (match.inputs, match.outputs) for name, port in names.items()}
        self.assertEqual(found, {name: it for name, it in {**inputs, **outputs}.items() if it})
        assert match.strobe
        self.assertEqual(match.strobe.name, "sample_o")

    def test_a_strobe_of_the_design(self) -> None:
        ports = [Port("tick", 1, True), Port("sample", 1, False), Port("tx", 1, False)]
        text = draft("small", ports, read_circuit(written(controller(), MODULE, ""), "circuit.v"))
        for line in (".enable(dut.sample),", ".tick(enable)", "assign same_drive = !dut.sample || gates.drive == dut.tx;"):
            self.assertIn(f" {line}\n", text)

    @unittest.skipUnless(has_tools(), "yosys or a C++ compiler is not installed")
    def test_a_draft_can_be_played(self) -> None:
        design = self.put("stranger.v", STRANGER)
        ran = self.run_hold("--wiring", design)
        self.assertEqual(ran.returncode, 0, ran)
        for line in (
            ".rst_n_i(~reset),",
            ".listen_only(1'd0)",
            "assign same_frame_identifier = !received || gates.frame_identifier == dut.rx_id;",
            "//   dut.listen_only is 1'd0",
            "//   gates.enable is 1'b1: each clock cycle is a bit time",
            "// then nothing is assumed.",
            "// not matched: output debug",
            "// not matched: the circuit's output passive",
        ):
            self.assertRegex(ran.stdout, rf"(?m)^ *{re.escape(line)}$")
        self.assertLessEqual(max(map(len, ran.stdout.splitlines())), 120)
        played = self.run_hold("--play", "--seconds", "1", self.put("wiring.v", ran.stdout), design)
        self.assertIn("  fail at ", played.stdout, played)

    @unittest.skipUnless(has_tools(), "yosys or a C++ compiler is not installed")
    def test_files_without_one_top(self) -> None:
        self.assertEqual(self.run_hold("--wiring", self.put("none.v", "")).returncode, 1)


class Texts(unittest.TestCase):
    def test_the_output_of_the_simulator(self) -> None:
        lines = ["played 1000 10 5 0.5", "counts 1 2", "found 9 3", "shortened 10 4 0.25 1 0 1"]
        lines += ["row 1 0 1 1 -1", "values 01", "row 0 0 1 2 2 1 0 5 8 255", "values 10"]
        played = read_output("\n".join(lines))
        self.assertEqual((played.bit_times, played.left_out, played.counts), (1000, 5, [1, 2]))
        assert isinstance(played.run, Run)
        self.assertEqual((played.run.before, played.run.is_queued, played.run.needs_start), (10, True, False))
        self.assertEqual(played.run.rows[1].offer, Frame(True, False, 5, 8, 255))
        self.assertEqual((played.run.rows[1].action, played.run.rows[1].request), (FORCED, 2))
        self.assertEqual(played.run.values, ["01", "10"])


class Building(unittest.TestCase):
    def test_a_cache_that_cannot_be_written(self) -> None:
        with tempfile.TemporaryDirectory() as made:
            room = pathlib.Path(made)
            (room / "file").write_text("")
            with mock.patch.dict(os.environ, XDG_CACHE_HOME=str(room / "file")):
                self.assertEqual(building.cache(room), room)
            with mock.patch.dict(os.environ, XDG_CACHE_HOME=made):
                self.assertEqual(building.cache(room), room / "riddlesage")

    @unittest.skipUnless(has_tools(), "a C++ compiler is not installed")
    def test_sources_that_do_not_compile(self) -> None:
        with tempfile.TemporaryDirectory() as made:
            room = pathlib.Path(made)
            (room / "main.cc").write_text("int main() { return gone; }\n")
            engine = building.Engine("play", "simulator", (made,))
            with self.assertRaises(Fault) as caught:
                building.compiled(building.compiler("simulator"), engine, room / "made")
            self.assertIn("can't compile the simulator", str(caught.exception))


if __name__ == "__main__":
    unittest.main()
