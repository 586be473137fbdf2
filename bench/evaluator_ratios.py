#!/usr/bin/env python3
"""Prints how many times slower loops of plain Python are in the evaluator than in CPython.

It runs the built program machine_table, which `rt run` in crates/machine_table leaves as out/machine_table (or the one that
MACHINE_TABLE names). A loop's time is that of a program with the loop, less that of the same program without it; each is
processor time, the least of three runs. With the word --instructions it counts instructions by callgrind instead, which no other
load on the machine changes. No part of the gate.
"""
import os
import pathlib
import re
import resource
import subprocess
import sys
import tempfile

PROGRAM = os.environ.get("MACHINE_TABLE") or str(pathlib.Path(__file__).resolve().parent.parent / "crates" / "machine_table" / "out" / "machine_table")
CALLGRIND = ["valgrind", "--tool=callgrind", "--callgrind-out-file=/dev/null"]
BEFORE = """x = 0
row = [0] * 100
d = {}
def f(a, b):
    return (a + b) % 1000
class Box:
    def __init__(self):
        self.n = 0
    def add(self, k):
        self.n = (self.n + k) % 1000
o = Box()
"""
MANY = "x = 0\n" + "".join(f"def f{k}(a):\n    return a\n" for k in range(1000))
WIDE = "x = 0\nclass W:\n    def __init__(self):\n" + "".join(f"        self.a{k} = {k}\n" for k in range(200)) + "w = W()\n"
LOOPS = {
    "pass": (BEFORE, "    pass\n"),
    "sums": (BEFORE, "    x = (x + i) % 1000\n"),
    "lists": (BEFORE, "    row[i % 100] = row[(i + 1) % 100] + i\n"),
    "calls": (BEFORE, "    x = f(x, i)\n"),
    "objects": (BEFORE, "    o.n = o.n + i\n"),
    "methods": (BEFORE, "    o.add(i)\n"),
    "branches": (BEFORE, "    if i % 3 == 0:\n        x = x + 1\n    elif i % 3 == 1:\n        x = x - 1\n"),
    "dicts": (BEFORE, "    d[i % 100] = i\n"),
    "comprehensions": (BEFORE, "    if i % 100 == 0:\n        row = [k + i for k in range(100)]\n"),
    "one of 1,000 functions": (MANY, "    x = f500(i)\n"),
    "attribute 100 of 200": (WIDE, "    x = w.a100\n"),
    "the last of 200": (WIDE, "    x = w.a199\n"),
    "a dict that grows": (BEFORE, "    d[i] = i\n"),
}


def seconds(command, text):
    """The least processor time of three runs."""
    times = []
    for _ in range(3):
        before = resource.getrusage(resource.RUSAGE_CHILDREN)
        subprocess.run(command, input=text, capture_output=True, text=True, check=True)
        after = resource.getrusage(resource.RUSAGE_CHILDREN)
        times.append(after.ru_utime + after.ru_stime - before.ru_utime - before.ru_stime)
    return min(times)


def instructions(command, text):
    said = subprocess.run(CALLGRIND + command, input=text, capture_output=True, text=True, check=True).stderr
    return int(re.search(r"refs:\s+([\d,]+)", said).group(1).replace(",", ""))


def taken(measure, program, folder):
    """What a program takes in the evaluator and in CPython."""
    own = measure([PROGRAM], "1000000000000||" + program.replace("\n", "\\n") + "\n")
    script = folder / "p.py"
    script.write_text(program)
    return own, measure([sys.executable, "-I", "-S", str(script)], "")


def main():
    counts = "--instructions" in sys.argv
    measure, least, many = (instructions, 2_000, 4_000) if counts else (seconds, 0, 300_000)
    with tempfile.TemporaryDirectory() as room:
        folder = pathlib.Path(room)
        for name, (before, body) in LOOPS.items():
            most = min(many, 65_000) if name == "a dict that grows" else many
            short = taken(measure, before + (f"for i in range({least}):\n{body}" if least else "pass\n"), folder)
            long = taken(measure, before + f"for i in range({most}):\n{body}", folder)
            own, its = ((b - a) / (most - least) for a, b in zip(short, long))
            shown = f"{own:8.0f} instructions a turn" if counts else f"{own * 1e9:8.0f} ns a turn"
            print(f"{name:24} {shown}, {own / max(its, 1e-12):6.1f} times those of CPython", flush=True)
    return 0


if __name__ == "__main__":
    sys.exit(main())
