#!/usr/bin/env python3
"""Prints how many events a second are simulated and traced: of registers that all change at each edge, of a chain of
combinational signals behind an input that toggles, and of a register beside such a chain where nothing changes; beside it
the same of `vvp` with its VCD, where `iverilog` is there: `simulation.py [NAMES]`, NAMES being the fronts of the names of
the cases to run.

The time of an event is that of a run with many events less that of one with none, over their count. The columns behind it
are how many signals change a second, and the ratio to `vvp`. No part of the gate; AMH_TOOL names another built program.
"""
import os
import pathlib
import shutil
import sys
import tempfile

from measured import measured

TOOL = os.environ.get("AMH_TOOL") or str(pathlib.Path(__file__).resolve().parent.parent / "amh_tool")
HEAD = "from amaranth import *\nm = Module()\n"


def registers(count):
    """Registers that each count up, so that all change at each second edge."""
    design = (HEAD + f's = [Signal(16, name=f"s{{i}}") for i in range({count})]\n'
              + "m.d.sync += [x.eq(x + 1) for x in s]\ntop = m\n")
    body = "".join(f"  reg [15:0] s{i} = 0;\n" for i in range(count))
    steps = "".join(f"    s{i} <= s{i} + 1;\n" for i in range(count))
    return design, lambda k: "edge sync", f"  reg clk = 0;\n{body}  always @(posedge clk) begin\n{steps}  end\n", "clk = ~clk;", count / 2


def chain(count):
    """An input and so many signals of which each is driven from the one before."""
    design = (HEAD + f's = [Signal(name=f"s{{i}}") for i in range({count + 1})]\n'
              + f"m.d.comb += [s[i + 1].eq(~s[i]) for i in range({count})]\ntop = m\n")
    wires = "".join(f"  wire s{i + 1} = ~s{i};\n" for i in range(count))
    return design, lambda k: f"set s0 {1 - k % 2}", f"  reg s0 = 0;\n{wires}", "s0 = ~s0;", count


def still(count):
    """A register that counts, beside an input that stays and so many signals of which each is driven from the one before."""
    design, _, body, _, _ = chain(count)
    design = design.replace("top = m\n", 'n = Signal(16, name="n")\nm.d.sync += n.eq(n + 1)\ntop = m\n')
    return design, lambda k: "edge sync", f"  reg clk = 0;\n  reg [15:0] n = 0;\n{body}  always @(posedge clk) n <= n + 1;\n", "clk = ~clk;", 0.5


CASES = [
    ("10 registers", registers, 10, 200000),
    ("100 registers", registers, 100, 20000),
    ("1000 registers", registers, 1000, 2000),
    ("chain of 4000", chain, 4000, 100),
    ("still chain of 1", still, 1, 200000),
    ("still chain of 4000", still, 4000, 200000),
]


def tool_seconds(folder, design, line, events):
    """A run of the tool over so many events."""
    (folder / "t.py").write_text(design)
    (folder / "t.stim").write_text("".join(line(k) + "\n" for k in range(events)))
    text, took, _ = measured([TOOL, "t.py", "t.il", "t.tr", "--play", "t.stim"], folder)
    if not (folder / "t.tr").is_file() or not (folder / "t.tr").read_text().endswith("end done\n"):
        sys.exit(f"the design was not played: {text}")
    return took


def other_seconds(folder, body, step, events):
    """A run of vvp over as many."""
    (folder / "t.v").write_text(
        f"module t;\n{body}  integer k;\n  initial begin\n    $dumpfile(\"t.vcd\");\n    $dumpvars(0, t);\n"
        f"    for (k = 0; k < {events}; k = k + 1) begin\n      #1 {step}\n    end\n    #1 $finish;\n  end\nendmodule\n")
    measured(["iverilog", "-o", "t.vvp", "t.v"], folder)
    return measured(["vvp", "-n", "t.vvp"], folder)[1]


def rate(seconds, events):
    """Events a second, from a run with so many and one with none."""
    return events / max(seconds(events) - seconds(0), 1e-9)


def main():
    beside = shutil.which("iverilog") is not None and shutil.which("vvp") is not None
    if not beside:
        print("iverilog is not there: the tool alone")
    with tempfile.TemporaryDirectory() as room:
        folder = pathlib.Path(room)
        for name, make, count, events in CASES:
            if sys.argv[1:] and not any(name.startswith(front) for front in sys.argv[1:]):
                continue
            design, line, body, step, changes = make(count)
            ours = rate(lambda n: tool_seconds(folder, design, line, n), events)
            shown = f"{name:20} {ours:12.0f} events/s {ours * changes:12.0f} changes/s"
            if beside:
                theirs = rate(lambda n: other_seconds(folder, body, step, n), events)
                shown += f"  vvp {theirs:12.0f} events/s  ratio {ours / theirs:6.2f}"
            print(shown, flush=True)
    return 0


sys.exit(main())
