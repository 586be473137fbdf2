#!/usr/bin/env python3
"""Prints how the program's time stands beside that of others, on the same files:

- elaboration of 10,000 statements beside another program, whose command the word `--beside COMMAND` gives;
- 100,000 turns of loops of plain Python beside CPython.

Each time is processor time, the least of three runs. Of loops, that of the same file without turns is taken off on both sides. No part of the gate;
AMH_TOOL names another built program.
"""
import os
import pathlib
import shlex
import sys
import tempfile

from measured import measured

TOOL = os.environ.get("AMH_TOOL") or str(pathlib.Path(__file__).resolve().parent.parent / "amh_tool")
HEAD = "from amaranth import *\nm = Module()\n"
TURNS = 100_000

LOOPS = {
    "pass": "    pass\n",
    "sums": "    x = (x + i) % 1000\n",
    "lists": "    row[i % 100] = row[(i + 1) % 100] + i\n",
    "calls": "    x = f(x, i)\n",
    "objects": "    o.n = o.n + i\n",
    "methods": "    o.add(i)\n",
    "branches": "    if i % 3 == 0:\n        x = x + 1\n    elif i % 3 == 1:\n        x = x - 1\n",
    "dicts": "    d[i % 100] = i\n",
    "comprehensions": "    if i % 100 == 0:\n        row = [k + i for k in range(100)]\n",
}
BEFORE = """x = 0
row = [0] * 100
d = {}
def f(a, b):
    return (a + b) % 1000
class Box:
    def __init__(self):
        self.n = 0
    def add(self, k):
        self.n = (self.n + k) % 1000
o = Box()
"""


def assigned_in_lines(count):
    """Statements by a line each, over a few signals."""
    signals = "".join(f"s{k} = Signal(8)\n" for k in range(20))
    lines = [f"m.d.comb += s{k % 10}.eq((s{10 + k % 7} + s{10 + k % 3}) ^ {k % 256})\n" for k in range(count)]
    return HEAD + signals + "".join(lines) + "top = m\n"


def assigned_in_loop(count):
    return (HEAD + "s = [Signal(8, name=f\"s{i}\") for i in range(20)]\n"
            + f"for i in range({count}):\n    m.d.comb += s[i % 10].eq((s[10 + i % 7] + s[10 + i % 3]) ^ (i % 256))\ntop = m\n")


def assigned_in_blocks(count):
    """Statements of which each second one is a choice."""
    signals = "".join(f"s{k} = Signal(8)\n" for k in range(20))
    lines = [f"with m.If(s{10 + k % 7}[{k % 8}]):\n    m.d.comb += s{k % 10}.eq(s{10 + k % 3})\n" for k in range(count // 2)]
    return HEAD + signals + "".join(lines) + "top = m\n"


def seconds(command, folder):
    """The least processor time of three runs, and what was said."""
    runs = [measured(command, folder) for _ in range(3)]
    return min(took for _, took, _ in runs), runs[0][0][:60]


def beside(folder, other):
    words = ["t.py", "t.il", "t.tr", "--play", "t.stim"]
    for name, make in (("lines", assigned_in_lines), ("a loop", assigned_in_loop), ("blocks", assigned_in_blocks)):
        (folder / "t.py").write_text(make(10_000))
        for what, script in (("elaborated", "no event\n"), ("whole run", "")):
            (folder / "t.stim").write_text(script)
            own, said = seconds([TOOL] + words, folder)
            its, _ = seconds(other + words, folder)
            print(f"10,000 statements in {name:7} {what:10} {own:7.3f} s  beside {its:7.3f} s: {its / own:6.1f} times faster  ({said})", flush=True)


def loops(folder):
    def both(text):
        (folder / "t.py").write_text(HEAD + text + "top = m\n")
        (folder / "p.py").write_text(text)
        (folder / "t.stim").write_text("")
        own, said = seconds([TOOL, "t.py", "t.il", "t.tr", "--play", "t.stim"], folder)
        return own, seconds([sys.executable, "-I", "-S", "p.py"], folder)[0], said
    bare_own, bare_its, _ = both(BEFORE)
    for name, body in LOOPS.items():
        own, its, said = both(BEFORE + f"for i in range({TURNS}):\n{body}")
        taken, by_python = own - bare_own, max(its - bare_its, 1e-6)
        print(f"{TURNS} turns of {name:14} {taken:7.3f} s  CPython {by_python:7.4f} s: {taken / by_python:6.1f} times slower"
              f"  (with starts {own / its:5.1f})  {said}", flush=True)


def main():
    with tempfile.TemporaryDirectory() as room:
        folder = pathlib.Path(room)
        if "--beside" in sys.argv:
            beside(folder, shlex.split(sys.argv[sys.argv.index("--beside") + 1]))
        loops(folder)
    return 0


sys.exit(main())
