#!/usr/bin/env python3
"""Times the program on files that grow, and prints for each step how much longer it took than its share.

- parse: files up to 1,048,576 bytes of nested and of long lines, which evaluation refuses at their first name;
- rank: modules up to 16,384 signals in a chain, and two signals of 128 bits with a multiplier each way, judged with a script
  that is refused, so that nothing is simulated;
- lower: modules up to 60,000 expressions, whose RTLIL is written.

A last column near 1 says that the time grows as the size does. No part of the gate; AMH_TOOL names another built program.
"""
import os
import pathlib
import subprocess
import sys
import tempfile
import time

TOOL = os.environ.get("AMH_TOOL") or str(pathlib.Path(__file__).resolve().parent.parent / "amh_tool")
HEAD = "from amaranth import *\nm = Module()\n"


def module(signals, assignments):
    lines = [*signals, *(f"m.d.comb += {a}" for a in assignments)]
    return HEAD + "\n".join([*lines, "top = m", ""])


def nested(size):
    """Lines of 64 nested brackets, and blocks in blocks."""
    line = "x = " + "(" * 60 + "a" + ")" * 60 + "\n"
    blocks = "".join(" " * k + "if a:\n" for k in range(20)) + " " * 20 + "pass\n"
    unit = line * 4 + blocks
    return unit * (size // len(unit))


def long_line(size):
    return "x = " + " + ".join(["abc"] * (size // 6 - 2)) + "\n"


def chain(count):
    links = ["s0.eq(~a)"] + [f"s{i}.eq(~s{i - 1})" for i in range(1, count)]
    return module(["a = Signal()"] + [f"s{i} = Signal()" for i in range(count)], links)


def multipliers(_):
    return module(["a = Signal(128)", "b = Signal(128)"], ["a.eq(b[0:64] * b[64:128])", "b.eq(a[0:64] * a[64:128])"])


def expressions(count):
    hundred = " ^ ".join(["a", "b"] * 50 + ["a"])
    return module(["a = Signal(8)", "b = Signal(8)", "y = Signal(8)"], [f"y.eq({hundred})"] * (count // 100))


def seconds(folder, design, script):
    (folder / "t.py").write_text(design)
    (folder / "t.stim").write_text(script)
    began = time.perf_counter()
    ran = subprocess.run([TOOL, "t.py", "t.il", "t.tr", "--play", "t.stim"], cwd=folder, capture_output=True, text=True)
    took = time.perf_counter() - began
    return took, (ran.stdout + ran.stderr).strip()


def measure(folder, name, make, sizes, script):
    first = None
    for size in sizes:
        took, said = min(seconds(folder, make(size), script) for _ in range(2))
        first = first or (size, took)
        ratio = took / first[1] / (size / first[0])
        print(f"{name:12} {size:9} {took:8.3f} s  {ratio:6.2f}  {said}")


def main():
    with tempfile.TemporaryDirectory() as room:
        folder = pathlib.Path(room)
        seconds(folder, "", "")
        sizes = [1 << k for k in range(16, 21)]
        measure(folder, "nested", nested, sizes, "")
        measure(folder, "long line", long_line, sizes, "")
        measure(folder, "chain", chain, [1000, 2000, 4000, 8000, 16383], "no event\n")
        measure(folder, "multipliers", multipliers, [2], "no event\n")
        measure(folder, "lower", expressions, [1000, 15000, 30000, 60000], "")
    return 0


sys.exit(main())
