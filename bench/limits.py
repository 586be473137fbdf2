#!/usr/bin/env python3
"""Runs the program at the edge of each limit and one past it, and prints what it answers, how much processor
time it takes and its peak memory:
`limits.py [NAMES]`, NAMES being the fronts of the names of the cases to run.

The last column is `slow` past 10 seconds and `large` past 1 GiB. No part of the gate; AMH_TOOL names another built program.
"""
import os
import pathlib
import sys
import tempfile

from measured import measured

TOOL = os.environ.get("AMH_TOOL") or str(pathlib.Path(__file__).resolve().parent.parent / "amh_tool")
HEAD = "from amaranth import *\nm = Module()\n"
SECONDS, BYTES = 10, 1 << 30


def chain(count):
    """Signals of which each is driven from the one before."""
    return (HEAD + f's = [Signal(name=f"s{{i}}") for i in range({count})]\n'
            + f"m.d.comb += [s[i + 1].eq(~s[i]) for i in range({count - 1})]\ntop = m\n"), ""


def registers(count):
    """Registers of which each takes the one before; the clock and the reset are signals, too."""
    return (HEAD + f's = [Signal(name=f"s{{i}}") for i in range({count - 2})]\n'
            + f"m.d.sync += [s[i + 1].eq(s[i]) for i in range({count - 3})]\ntop = m\n"), "edge sync\n" * 10


def written_signals(count):
    """Signals by a statement each."""
    lines = [f"s{i} = Signal()" for i in range(count)]
    return HEAD + "\n".join(lines) + "\nm.d.comb += s1.eq(s0)\ntop = m\n", "set s0 1\n"


def deep(count):
    """One expression as deep as there are expressions."""
    return HEAD + f"a = Signal()\ny = Signal()\nx = a\nfor i in range({count - 2}):\n    x = ~x\nm.d.comb += y.eq(x)\ntop = m\n", "set a 1\n"


def wide(count):
    """Statements of three operators each."""
    head = "a = Signal(8)\nb = Signal(8)\ny = Signal(8)\n"
    rest = (count - 3) % 4
    extra = "".join(f"x{k} = ~a\n" for k in range(rest))
    return HEAD + head + extra + f"for i in range({(count - 3) // 4}):\n    m.d.comb += y.eq(((a + b) ^ ~b) & a)\ntop = m\n", "set a 1\n"


def bits(count):
    """Registers of 128 bits; the clock and the reset have two more, and what is left is in one signal."""
    whole, rest = divmod(count - 2, 128)
    last = f"s.append(Signal({rest}))\n" if rest else ""
    return HEAD + f's = [Signal(128) for i in range({whole})]\n{last}m.d.sync += [x.eq(~x) for x in s]\ntop = m\n', "edge sync\n" * 10


def domains(count):
    """Domains of a register each, whose clocks toggle together."""
    names = " ".join(f"d{i}" for i in range(count))
    return HEAD + f'for i in range({count}):\n    q = Signal(name=f"q{{i}}")\n    m.d[f"d{{i}}"] += q.eq(~q)\ntop = m\n', f"edge {names}\n" * 10


SUBMODULE = """class Sub(Elaboratable):
    def __init__(self, size):
        self.size = size
    def elaborate(self, platform):
        m = Module()
        q = Signal(8)
        x = q
        for i in range(self.size):
            x = ~x
        m.d.sync += q.eq(x)
        return m
"""


def submodules(count):
    """Submodules of a register each."""
    return HEAD + SUBMODULE + f"for i in range({count}):\n    m.submodules += Sub(1)\ntop = m\n", "edge sync\n" * 10


def large_submodules(count):
    """As many, of a register with as many operators as there is room for."""
    return HEAD + SUBMODULE + f"for i in range({count}):\n    m.submodules += Sub(62)\ntop = m\n", "edge sync\n" * 10


def nested_submodules(count):
    """Submodules in one another, with a register each."""
    text = SUBMODULE.replace("        return m\n", "        if self.size > 1:\n            m.submodules.n = Sub(self.size - 1)\n        return m\n")
    return HEAD + text + f"m.submodules.n = Sub({count})\ntop = m\n", "edge sync\n" * 10


def states(count):
    """A machine that goes through its states in turn."""
    return (HEAD + f"with m.FSM():\n    for i in range({count}):\n        with m.State(f\"S{{i}}\"):\n            j = (i + 1) % {count}\n"
            + '            m.next = f"S{j}"\ntop = m\n'), "edge sync\n" * 1000


def items(count):
    return HEAD + f"x = [0] * 65535\nfor i in range({count - 65535}):\n    x.append(0)\nfor i in x:\n    pass\ntop = m\n", ""


def statements(count):
    return HEAD + f"a = Signal(8)\ny = Signal(8)\nfor i in range({count}):\n    m.d.comb += y.eq(a)\ntop = m\n", "set a 1\n"


def switches(count):
    """Statements of which half are choices."""
    return (HEAD + f"a = Signal(8)\ny = Signal(8)\nfor i in range({count // 2}):\n    with m.If(a[i % 8]):\n        m.d.comb += y.eq(i)\n"
            + ("m.d.comb += y.eq(a)\n" if count % 2 else "") + "top = m\n"), "set a 1\n"


def filled(count, unit, tail):
    """A text of so many bytes: its head, lines of the unit, a comment and the tail."""
    head = HEAD + "a = Signal(8)\ny = Signal(8)\n"
    room = count - len(head) - len(tail)
    lines = unit * ((room - 2) // len(unit))
    return head + lines + "#" * (room - len(lines) - 1) + "\n" + tail, "set a 1\n"


def comment(count):
    return filled(count, "#" * 1023 + "\n", "top = m\n")


def assignments(count):
    return filled(count, "m.d.comb += y.eq(a)\n", "top = m\n")


def bindings(count):
    return filled(count, "x = 1\n", "top = m\n")


def one_line(count):
    return filled(count, "x = [" + ", ".join(["1"] * 20000) + "]\n", "top = m\n")


def events(count):
    lines = "set a 1\nedge sync\nset a 0\nedge sync\n" * (count // 4) + "set a 1\n" * (count % 4)
    return HEAD + "a = Signal(8)\ny = Signal(8)\nm.d.sync += y.eq(y + a)\ntop = m\n", lines


CASES = [
    ("signals, a chain", chain, 16384),
    ("signals, registers", registers, 16384),
    ("signals, written", written_signals, 16384),
    ("bits of signals", bits, 262144),
    ("domains", domains, 64),
    ("submodules", submodules, 4096),
    ("submodules, large", large_submodules, 4096),
    ("nested submodules", nested_submodules, 64),
    ("states", states, 256),
    ("expressions, deep", deep, 262144),
    ("expressions, wide", wide, 262144),
    ("items", items, 65536),
    ("statements", statements, 65536),
    ("statements, choices", switches, 65536),
    ("bytes, a comment", comment, 1048576),
    ("bytes, bindings", bindings, 1048576),
    ("bytes, assignments", assignments, 1048576),
    ("bytes, one line", one_line, 1048576),
    ("events", events, 1000000),
]


def main():
    with tempfile.TemporaryDirectory() as room:
        folder = pathlib.Path(room)
        for name, make, edge in CASES:
            if sys.argv[1:] and not any(name.startswith(front) for front in sys.argv[1:]):
                continue
            for count in (edge, edge + 1):
                design, script = make(count)
                (folder / "t.py").write_text(design)
                (folder / "t.stim").write_text(script)
                text, took, peak = measured([TOOL, "t.py", "t.il", "t.tr", "--play", "t.stim"], folder)
                verdict = ("slow " if took > SECONDS else "") + ("large" if peak > BYTES else "")
                print(f"{name:20} {count:8} {took:8.2f} s {peak / (1 << 20):8.1f} MiB  {text[:60]:60} {verdict}", flush=True)
    return 0


sys.exit(main())
