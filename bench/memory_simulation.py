#!/usr/bin/env python3
"""Prints how many events a second design_table simulates, where what stands still is large: `memory_simulation.py PROGRAM`.

PROGRAM is the built design_table. A memory of 4,096 rows stands beside one of 16, each with a port that writes at each edge
and one that reads, at once or at the edge; the events are the same: the address and the word take other numbers, and the
clock toggles. A chain of 4,000 combinational signals whose input stays stands beside none, behind a register that counts.
The last column is the rate over that of the small design, 1 where an event costs as much. Where yosys and iverilog
are there, `vvp` plays the events of the memories over the RTLIL that the program writes. No part of the gate.

The time of an event is that of a run with many events less that of one with none, over their count, the least of some runs.
"""
import pathlib
import shutil
import subprocess
import sys
import tempfile

from measured import measured
from table_in_icarus import widths_of

EVENTS = 200000
RUNS = 5


def read_at_once(rows, width):
    """A memory whose read port shows its row at once."""
    return memory(rows, width, "signal seen 16 u comb", "read seen address")


def sampled(rows, width):
    """A memory whose read port takes its row at the edge."""
    return memory(rows, width, "signal seen 16 u sync", "sample seen - address 1:1u")


def memory(rows, width, seen, read):
    return ["domain sync clk rising", f"signal address {width} u input", "signal word 16 u input", seen,
            f"memory rows 16 u {rows}", read, "write sync 16 address word 1:1u"]


def counter(count):
    """A register that counts, beside so many signals of which each is driven from the one before."""
    chain = [f"signal c{i} 1 u comb" for i in range(count)]
    driven = [f"assign c{i} not c{i - 1}" if i else "assign c0 not still" for i in range(count)]
    return ["domain sync clk rising", "signal still 1 u input", "signal count 16 u sync", *chain, *driven, "sync",
            "assign count add count 1:1u"]


def memory_event(k):
    """One of the events of a memory: an address, a word, and the two edges of a clock."""
    return (f"set address {0 if k // 4 % 2 else 15}", f"set word {k % 65536}", "edge", "edge")[k % 4]


def counter_event(k):
    return "edge"


CASES = [
    ("16 rows, read at once", read_at_once(16, 4), memory_event, None),
    ("4096 rows, read at once", read_at_once(4096, 12), memory_event, 0),
    ("16 rows, read at edges", sampled(16, 4), memory_event, None),
    ("4096 rows, read at edges", sampled(4096, 12), memory_event, 2),
    ("a register", counter(0), counter_event, None),
    ("with a still chain of 4000", counter(4000), counter_event, 4),
]


def asked(lines, events):
    """What the program reads for a design and so many events."""
    return "\n".join(["design d", *lines, *events, "show", "done", ""])


def program_seconds(program, folder, lines, events):
    """A run of the program over a design and its events."""
    (folder / "in").write_text(asked(lines, events), encoding="ascii")
    said, took, _ = measured(["sh", "-c", f'exec "{program}" <in'], folder)
    if not said.startswith("d accepted"):
        sys.exit(f"the design was not played: {said[:200]}")
    return took


def bench_of(text, events):
    """A bench in Verilog that plays events of a memory and writes what changes of its ports."""
    widths, inputs = widths_of(text)
    body = ["module bench;", *(f"  reg [{widths[n] - 1}:0] {n} = 0;" for n in sorted(inputs)),
            f"  top dut ({', '.join(f'.{n}({n})' for n in sorted(inputs))});", "  integer k;", "  initial begin",
            '    $dumpfile("t.vcd");', f"    $dumpvars(0, {', '.join(f'dut.{n}' for n in sorted(widths))});",
            f"    for (k = 0; k < {events}; k = k + 1) begin", "      #1 case (k % 4)",
            "        0: address = (k / 4) % 2 ? 0 : 15;", "        1: word = k;", "        default: clk = !clk;",
            "      endcase", "    end", "    #1 $finish;", "  end", "endmodule", ""]
    return "\n".join(body)


def other_seconds(folder, text, events):
    """A run of vvp over the RTLIL of a design and so many events."""
    (folder / "bench.v").write_text(bench_of(text, events))
    subprocess.run(["iverilog", "-g2012", "-o", "out", "bench.v", "top.v"], cwd=folder, check=True)
    return measured(["vvp", "-n", "out"], folder)[1]


def lowered(program, folder, lines):
    """The RTLIL of a design, which Yosys also writes as Verilog."""
    run = subprocess.run([program, "rtlil"], input=asked(lines, []), capture_output=True, text=True, check=True)
    text = run.stdout.split("\n", 1)[1]
    (folder / "top.il").write_text(text)
    script = "read_rtlil top.il; hierarchy -check -top top; memory_collect; write_verilog -noattr top.v"
    subprocess.run(["yosys", "-q", "-p", script], cwd=folder, check=True)
    return text


def rate(seconds):
    """Events a second, from the quickest runs with many and with none."""
    many, none = (min(seconds(n) for _ in range(RUNS)) for n in (EVENTS, 0))
    return EVENTS / max(many - none, 1e-9)


def main():
    if len(sys.argv) != 2:
        sys.exit(__doc__.split("\n")[0])
    program = str(pathlib.Path(sys.argv[1]).resolve())
    beside = shutil.which("yosys") and shutil.which("iverilog")
    rates = []
    with tempfile.TemporaryDirectory() as room:
        folder = pathlib.Path(room)
        for name, lines, event, small in CASES:
            rates.append(rate(lambda n: program_seconds(program, folder, lines, [event(k) for k in range(n)])))
            shown = f"{name:28} {rates[-1]:12.0f} events/s"
            if small is not None:
                shown += f"  {rates[-1] / rates[small]:5.2f} of that beside it"
            if beside and event is memory_event:
                text = lowered(program, folder, lines)
                theirs = rate(lambda n: other_seconds(folder, text, n))
                shown += f"  vvp {theirs:12.0f} events/s  ratio {rates[-1] / theirs:6.2f}"
            print(shown, flush=True)
    return 0


if __name__ == "__main__":
    sys.exit(main())
