"""Tests of `hold`: what it prints for register mappings that are too weak or too strong, and what it refuses."""

from __future__ import annotations

import os
import pathlib
import re
import shutil
import subprocess
import sys
import tempfile
import unittest

FOLDER = pathlib.Path(__file__).resolve().parent.parent
COSIM = FOLDER.parent / "examples" / "cosim"
sys.path.insert(0, str(FOLDER))

from holding.circuit import MODULE, read_circuit
from holding.defaults import circuit_of
from holding.faults import Fault
from holding.gates import Gates, is_true
from holding.relation import read_relation
from holding.tools import SOLVERS, Solver, clauses_of
from peer.controller import controller
from peer.verilog import written

# drives recessive, and has a register that a reset sets
DESIGN = "module small(input clock, input reset, output drive, output reg [3:0] state); assign drive = 1'b1; \
always @(posedge clock) state <= reset ? 4'd5 : state; endmodule"
RELATION = """module relation(input clock, input reset, input bus, {outputs});
    riddlesage_controller gates(.clock(clock), .reset(reset), .integrating(1'b1), .enable(1'b1), .bus(bus),
        .overload_request(1'b0), .overload_count(2'd0), .waits(1'b0), .wait_extended(1'b0), .wait_remote(1'b0),
        .wait_identifier(29'd0), .wait_dlc(4'd0), .wait_data(64'd0));
    small dut(.clock(clock), .reset(reset));
    {parts}
endmodule
"""
SAME = {"same_drive": "gates.drive == dut.drive"}
STATE = {"holds_state": "dut.state == 4'd5"}
# a receiver on a bus that is always recessive
INTEGRATING = {"given_silence": "bus", "holds_phase": "gates.phase <= 4'd1 && !gates.sender"}


def has_tools() -> bool:
    return all(shutil.which(it) for it in ("yosys", "cadical"))


class Files(unittest.TestCase):
    def setUp(self) -> None:
        self.folder = tempfile.TemporaryDirectory()
        self.room = pathlib.Path(self.folder.name)

    def tearDown(self) -> None:
        self.folder.cleanup()

    def put(self, name: str, text: str) -> str:
        (self.room / name).write_text(text)
        return str(self.room / name)

    def run_hold(self, *words: str, path: str | None = None) -> subprocess.CompletedProcess[str]:
        environment = dict(os.environ, PATH=path) if path is not None else None
        command = [sys.executable, str(FOLDER / "hold"), *words]
        return subprocess.run(command, capture_output=True, text=True, timeout=1800, env=environment)

    def hold(self, parts: dict[str, str], *words: str) -> subprocess.CompletedProcess[str]:
        lines = "\n    ".join(f"assign {name} = {value};" for name, value in parts.items())
        text = RELATION.format(outputs=", ".join(f"output {name}" for name in parts), parts=lines)
        return self.run_hold(*words, self.put("relation.v", text), self.put("small.v", DESIGN))

    def prints(self, ran: subprocess.CompletedProcess[str], status: int, text: str) -> None:
        self.assertEqual(ran.returncode, status, ran)
        self.assertIn(text, ran.stdout + ran.stderr)
        last = (ran.stdout.splitlines() or [""])[-1]
        self.assertEqual(last.startswith("equal in every run"), status == 0, ran)


@unittest.skipUnless(has_tools(), "yosys or cadical is not installed")
class Relations(Files):
    def test_what_is_equal(self) -> None:
        for solver in (name for name, command in SOLVERS.items() if shutil.which(command)):
            ran = self.hold({**SAME, **STATE, **INTEGRATING}, "--solver", solver)
            self.prints(ran, 0, "not compared: event_code frame_extended")
            self.assertIn("assumed: given_silence\n", ran.stdout)
            self.assertEqual(ran.stdout.splitlines()[-1], "equal in every run that meets given_silence")
            self.assertRegex(ran.stdout, r"(?m)^self-check: injected mutation detected, \d+\.\d s \(holds_state\)$")

    def test_a_mapping_through_ports(self) -> None:
        text = RELATION.replace(".bus(bus),", ".bus(bus), .drive(drive),").replace("dut(", "dut(.drive(other), ")
        parts = "wire drive, other; assign same_drive = drive == other; assign holds_state = !dut.state[1];"
        text = text.replace("wait_data(64'd0));", "wait_data(64'd0)); wire [3:0] state;")
        text = text.replace("small dut(", "small dut(.state(state), ")
        parts += " assign holds_more = state == 4'd5; assign holds_phase = gates.phase <= 4'd1 && !gates.sender;"
        outputs = "output same_drive, output holds_state, output holds_more, output holds_phase, output given_bus"
        relation = self.put("relation.v", text.format(outputs=outputs, parts=f"{parts} assign given_bus = bus;"))
        self.prints(self.run_hold(relation, self.put("small.v", DESIGN)), 0, "assumed: given_bus\n")

    def test_a_word_that_does_not_exist(self) -> None:
        ran = self.hold({**SAME, "holds_x": "dut.gone == gates.missing"})
        self.prints(ran, 1, "no such register, output or signal: dut.gone gates.missing")

    def test_a_mapping_that_no_state_satisfies(self) -> None:
        self.prints(self.hold({**SAME, **STATE, "holds_x": "gates.phase == 4'd15"}), 5, "no legal state of the circuit")
        self.prints(self.hold({**SAME, **STATE, "holds_x": "dut.state == 4'd6"}), 5, "no legal state of the circuit")
        self.prints(self.hold({**SAME, **STATE, "given_x": "1'b0"}), 5, "no legal state of the circuit")

    def test_a_mapping_that_a_reset_does_not_satisfy(self) -> None:
        ran = self.hold({**SAME, **STATE, **INTEGRATING, "holds_tec": "gates.tec_count == 9'd1"})
        self.prints(ran, 1, "not proved: a state after a reset doesn't satisfy the register mapping")
        self.assertIn("holds_tec fails: gates.tec_count", ran.stdout)

    def test_an_enable_that_is_never_1(self) -> None:
        design = DESIGN.replace("output drive,", "output drive, output sample_point,")
        design = design.replace("assign drive", "assign sample_point = {}; assign drive")
        text = RELATION.replace(".enable(1'b1)", ".enable(dut.sample_point)")
        named = {**SAME, **STATE, "holds_phase": INTEGRATING["holds_phase"], "given_silence": "bus"}
        parts = "".join(f"assign {name} = {value};" for name, value in named.items())
        relation = self.put("relation.v", text.format(outputs=", ".join(f"output {it}" for it in named), parts=parts))
        for point in ("1'b0", "state == 4'd6"):
            ran = self.run_hold(relation, self.put("small.v", design.format(point)))
            self.prints(ran, 5, "vacuous: enable is never 1")
        ran = self.run_hold(relation, self.put("small.v", design.format("1'b1")))
        self.prints(ran, 0, "equal in every run that meets given_silence")

    def test_assumptions_that_no_run_meets(self) -> None:
        self.prints(self.hold({**SAME, **STATE, "given_x": "!reset"}), 5, "vacuous: reset is never 1")

    def test_an_assumption_on_what_follows(self) -> None:
        # no bit time that meets given_x can follow one that violates same_x: that is a difference nevertheless
        parts = {**SAME, **STATE, **INTEGRATING, "same_x": "bus || gates.phase != 4'd0"}
        del parts["given_silence"]
        self.prints(self.hold({**parts, "given_x": "gates.phase <= 4'd1"}), 1, "outputs: counterexample")

    def test_a_mapping_that_is_too_weak(self) -> None:
        self.prints(self.hold({**SAME, "holds_phase": "gates.phase <= 4'd1"}), 5, "into the design and not detected")
        self.prints(self.hold(SAME), 5, "it has no holds_..: give a wiring to --play or --find")
        self.prints(self.hold(STATE), 5, "it has no output same_")
        self.prints(self.hold({"same_state": "dut.state == 4'd5", **STATE}), 5, "must compare gates.drive")
        self.prints(self.hold({**SAME, **STATE, "same_x": "1'b1"}), 5, "same_x has no effect")

    def test_an_output_that_is_no_part(self) -> None:
        ran = self.hold({**SAME, "phase": "gates.phase == 4'd0"})
        self.prints(ran, 1, "output phase of the register mapping must be one bit wide")

    def test_a_difference(self) -> None:
        ran = self.hold({**SAME, **STATE, "holds_phase": "!gates.sender"}, "--vcd", str(self.room / "waves.vcd"))
        self.prints(ran, 1, "outputs: counterexample")
        self.assertRegex(ran.stdout, r"(?m)^  before: (error-flag|overload-flag|ack-slot) ?\d?, receiver; [A-Z][a-z]")
        self.assertIn("same_drive fails: dut.drive 1, gates.drive 0", ran.stdout)
        self.assertIn("choices: if the design differs, see docs/DECISIONS.md", ran.stdout)
        waves = (self.room / "waves.vcd").read_text()
        self.assertRegex(waves, r"\$scope module gates \$end\n(\$var .*\n)*\$var wire 4 \w+ phase \$end")
        self.assertEqual(re.findall(r"(?m)^#(\d+)", waves), ["0", "5", "10", "15", "20"])

    def test_the_first_bit_times(self) -> None:
        self.prints(self.hold({**SAME, **STATE}, "--smoke", "1"), 5, "not detected in 1 bit times")
        same = {"same_both": "gates.drive == (dut.drive ^ (dut.state != 4'd5))"}
        ran = self.hold(same, "--smoke", "3")
        self.assertEqual((ran.returncode, ran.stdout.splitlines()[-1]), (0, "no difference in the first 3 bit times"))
        late = {"same_both": "gates.drive == (dut.drive ^ (dut.state != 4'd5)) && gates.place < 4'd2"}
        ran = self.hold(late, "--smoke", "5")
        self.assertEqual(ran.returncode, 1, ran)
        self.assertIn("bit time 2: no difference", ran.stdout)
        self.assertIn("bit time 3: counterexample", ran.stdout)
        self.assertIn("  bus levels from reset: 11", ran.stdout)
        # values in the bit time whose state is shown, not in the one before
        self.assertIn("  before: joining 2, ", ran.stdout)
        self.assertRegex(ran.stdout, r"(?m)^  same_both fails: .*gates\.place 2$")

    def test_a_design_that_yosys_does_not_read(self) -> None:
        relation = self.put("relation.v", RELATION.format(outputs="output same_drive", parts=""))
        self.prints(self.run_hold(relation, self.put("small.v", "module small(")), 1, "hold: yosys: ")

    @unittest.skipUnless(shutil.which("ghdl"), "ghdl is not installed")
    def test_a_design_that_ghdl_does_not_read(self) -> None:
        text = "entity small is end entity; architecture wrong of small is begin assert gone; end architecture;"
        relation = self.put("relation.v", RELATION.format(outputs="output same_drive", parts=""))
        self.prints(self.run_hold(relation, self.put("small.vhd", text)), 1, 'no declaration for "gone"')

    def test_a_register_of_another_clock(self) -> None:
        falls, other = "dut.state uses the falling edge of its clock", "dut.state has a clock other than"
        for edge, said in (("negedge clock", falls), ("posedge reset", other)):
            design = self.put("small.v", DESIGN.replace("posedge clock", edge))
            outputs = "output same_drive, output holds_state"
            parts = f"assign same_drive = {SAME['same_drive']}; assign holds_state = {STATE['holds_state']};"
            relation = self.put("relation.v", RELATION.format(outputs=outputs, parts=parts))
            self.prints(self.run_hold(relation, design), 1, said)


class Uses(Files):
    def test_a_tool_that_is_not_installed(self) -> None:
        outputs, design = "output same_drive", self.put("small.v", DESIGN)
        relation = self.put("relation.v", RELATION.format(outputs=outputs, parts=""))
        ran = self.run_hold(relation, design, path=str(self.room))
        self.prints(ran, 3, "neither cadical nor berkeley-abc is installed: apt-get install cadical")
        ran = self.run_hold("--solver", "abc", relation, design, path=str(self.room))
        self.prints(ran, 3, "berkeley-abc is not installed: apt-get install berkeley-abc")
        (self.room / "cadical").symlink_to("/bin/true")
        ran = self.run_hold(relation, design, path=str(self.room))
        self.prints(ran, 3, "yosys is not installed: apt-get install yosys")

    def test_a_file_that_does_not_exist(self) -> None:
        gone = str(self.room / "none.v")
        self.prints(self.run_hold(gone, gone), 3, f"hold: {gone}: No such file or directory\n")

    def test_wrong_usage(self) -> None:
        self.assertEqual(self.run_hold().returncode, 2)
        self.assertEqual(self.run_hold("--smoke", "0", "relation.v", "small.v").returncode, 2)
        for words, missing in (("--wiring", "DESIGN"), ("--play", "WIRING, DESIGN"), ("relation.v", "DESIGN")):
            self.prints(self.run_hold(words), 2, f"arguments are required: {missing}\n")

    def test_options_between_the_files(self) -> None:
        self.prints(self.run_hold("relation.v", "--smoke", "0", "small.v"), 2, "--smoke: must be 1 to 200 bit times")

    def test_a_text_that_is_no_mapping(self) -> None:
        for text in ("", "module relation(input clock); endmodule", RELATION + RELATION):
            with self.assertRaises(Fault):
                read_relation(text, "relation.v")

    def test_names_in_comments_are_none(self) -> None:
        parts = "assign same_drive = /* dut.a */ gates . drive; // dut.b"
        text = RELATION.format(outputs="output same_drive", parts=parts)
        self.assertEqual(read_relation(text, "relation.v").names, ["gates.drive"])


class Texts(unittest.TestCase):
    text = written(controller(), MODULE, "")

    def test_the_circuit_is_read(self) -> None:
        circuit = read_circuit(self.text, "circuit.v")
        self.assertEqual(sum(circuit.widths["reg"].values()), 277)
        self.assertEqual(sum(circuit.inputs.values()), 107)
        self.assertEqual(circuit.widths["output"]["legal"], 1)

    def test_a_line_of_another_form_is_refused(self) -> None:
        for old, new in (
            ("wire n0 = 1'b0;", "wire n0 = 1'b1;"),
            ("wire n1 = reset;", ""),
            ("assign drive = ", "assign other = "),
            ("\nend\n", "\nphase[0] <= n1 | n2;\nend\n"),
            ("output legal;", "output lawful;"),
        ):
            self.assertIn(old, self.text)
            with self.assertRaises(Fault, msg=new):
                read_circuit(self.text.replace(old, new, 1), "circuit.v")


class Defaults(unittest.TestCase):
    @unittest.skipIf((FOLDER.parent / "out" / "cangates").exists(), "cangates is built")
    def test_the_file_that_cangates_wrote(self) -> None:
        circuit, source = circuit_of(None)
        self.assertEqual(source, "equivalence/riddlesage_controller.v, as cangates wrote it")
        self.assertEqual(circuit, circuit_of(str(FOLDER / "riddlesage_controller.v"))[0])


class Solvers(unittest.TestCase):
    def test_results(self) -> None:
        gates = Gates()
        a, b, c = (gates.fresh() for _ in range(3))
        parity = gates.differ(gates.differ(a, b), c)
        for name, command in SOLVERS.items():
            if shutil.which(command) is None:
                continue
            with tempfile.TemporaryDirectory() as room:
                solver = Solver(name, pathlib.Path(room), None)
                model = solver.ask(gates, gates.all(parity, a, b))
                assert model is not None
                self.assertTrue(is_true(gates.values(model), c))
                self.assertIsNone(solver.ask(gates, gates.all(parity, a, b, c ^ 1)))

    @unittest.skipUnless(shutil.which("cadical"), "cadical is not installed")
    def test_literals_that_are_assumed(self) -> None:
        gates = Gates()
        a, b, other = (gates.fresh() for _ in range(3))
        clauses = clauses_of(gates, gates.either(a, b))
        solver = Solver("cadical", pathlib.Path(), None)
        self.assertIn(clauses.number(b), solver.model(clauses, [a ^ 1, other]) or set())
        self.assertIsNone(solver.model(clauses, [a ^ 1, b ^ 1]))


if __name__ == "__main__":
    unittest.main()
