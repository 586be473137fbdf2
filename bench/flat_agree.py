#!/usr/bin/env python3
"""Compares choices and computed targets with Yosys, on random designs: `flat_agree.py PROGRAM COUNT SEED`.

PROGRAM is the built design_table. Each design has inputs, registers and signals of combinational statements, which choices
and parts, picks, joins and casts of targets write. After each event the simulator's numbers are shown. Yosys reads the text
that the design is lowered to, with its registers opened (`expose -evert-dff`): behind each event its `eval` must tell the
same numbers of the combinational signals, and before each rising edge the numbers that the registers take.
Skipped where yosys is not installed (Debian's package `yosys`). No part of the gate.
"""
import random
import re
import shutil
import subprocess
import sys
import tempfile
from pathlib import Path

EVENTS = 12


def common(a, b):
    """The shape of two: width and sign."""
    if a[1] == b[1]:
        return max(a[0], b[0]), a[1]
    (u, s) = (b, a) if a[1] else (a, b)
    return max(u[0] + 1, s[0]), True


class Design:
    """The lines of one random design."""

    def __init__(self, dice, name):
        self.dice, self.name = dice, name
        self.inputs = self.some("x", 4)
        self.registers = self.some("r", 3)
        self.first = self.some("c", 3)
        self.second = self.some("d", 2)

    def some(self, letter, most):
        """Signals by name: width and sign."""
        return {f"{letter}{k}": (self.dice.randint(1, 6), self.dice.random() < 0.3) for k in range(self.dice.randint(1, most))}

    # ---- expressions: a text and its shape

    def value(self, names, depth=2):
        kind = self.dice.choice(["name", "number"] if depth == 0 else ["name", "not", "add", "xor", "eq", "mux", "cat", "part", "pick", "unsigned"])
        if kind == "name":
            name = self.dice.choice(list(names))
            return name, names[name]
        if kind == "number":
            width = self.dice.randint(1, 4)
            return f"{self.dice.randrange(2**width)}:{width}u", (width, False)
        a, f = self.value(names, depth - 1)
        if kind == "not":
            return f"not {a}", f
        if kind == "unsigned":
            return f"unsigned {a}", (f[0], False)
        b, g = self.value(names, depth - 1)
        if kind == "cat":
            return f"cat:2 {a} {b}", (f[0] + g[0], False)
        if kind == "part":
            width, stride = self.dice.randint(1, 4), self.dice.randint(0, 3)
            return f"part:{width}:{stride} {a} unsigned {b}", (width, False)
        if kind == "pick":
            c, h = self.value(names, depth - 1)
            return f"pick:2 unsigned {c} {a} {b}", common(f, g)
        if kind == "mux":
            c, _ = self.value(names, depth - 1)
            return f"mux {c} {a} {b}", common(f, g)
        w = common(f, g)
        return f"{kind} {a} {b}", {"add": (w[0] + 1, w[1]), "xor": w, "eq": (1, False)}[kind]

    def index(self, names):
        name = self.dice.choice(list(names))
        return f"unsigned {name}" if self.dice.random() < 0.8 else f"{self.dice.randint(0, 3)}:2u"

    def target(self, names, reads, depth=2):
        kind = "name" if depth == 0 else self.dice.choice(["name", "slice", "cat", "part", "pick", "signed", "unsigned"])
        if kind == "name":
            name = self.dice.choice(list(names))
            return name, names[name]
        a, f = self.target(names, reads, depth - 1)
        if kind in ("signed", "unsigned"):
            return (f"{kind} {a}", (f[0], kind == "signed")) if f[0] else (a, f)
        if kind == "slice":
            low = self.dice.randint(0, f[0])
            width = self.dice.randint(0, f[0] - low)
            return f"slice:{low}:{width} {a}", (width, False)
        if kind == "part":
            width, stride = self.dice.randint(1, 4), self.dice.randint(0, 3)
            return f"part:{width}:{stride} {a} {self.index(reads)}", (width, False)
        b, g = self.target(names, reads, depth - 1)
        if kind == "cat":
            return f"cat:2 {a} {b}", (f[0] + g[0], False)
        return f"pick:2 {self.index(reads)} {a} {b}", common(f, g)

    # ---- statements

    def statements(self, names, reads, depth=2):
        lines = []
        for _ in range(self.dice.randint(1, 3)):
            if depth and self.dice.random() < 0.5:
                lines.append("choose")
                for _ in range(self.dice.randint(1, 3)):
                    lines.append(f"arm {self.value(reads, 1)[0]}")
                    lines += ["  " + line for line in self.statements(names, reads, depth - 1)]
                lines.append("end")
            else:
                lines.append(f"assign {self.target(names, reads)[0]} {self.value(reads)[0]}")
        return lines

    def number(self, shape):
        bits = self.dice.randrange(2 ** shape[0])
        return bits - 2 ** shape[0] if shape[1] and bits >= 2 ** (shape[0] - 1) else bits

    def lines(self):
        held = {**self.inputs, **self.registers}
        yield f"design {self.name}"
        for kind, names in (("input", self.inputs), ("sync", self.registers), ("comb", self.first), ("comb", self.second)):
            for name, shape in names.items():
                init = "" if kind == "input" else f" {self.number(shape)}"
                yield f"signal {name} {shape[0]} {'s' if shape[1] else 'u'} {kind}{init}"
        yield from self.statements(self.first, held)
        yield from self.statements(self.second, {**held, **self.first})
        yield "sync"
        yield from self.statements(self.registers, {**held, **self.first, **self.second})
        yield "show"
        for _ in range(EVENTS):
            if self.dice.random() < 0.5:
                yield "edge"
            else:
                name = self.dice.choice(list(self.inputs))
                yield f"set {name} {self.number(self.inputs[name])}"
            yield "show"
        yield "done"

    def width(self, name):
        return {**self.inputs, **self.registers, **self.first, **self.second}[name][0]


def bits(value, width):
    return f"{width}'b{value % 2**width:0{width}b}"


def said(program, words, text):
    return subprocess.run([program, *words], input=text, check=True, capture_output=True, text=True).stdout


def texts(program, text):
    """The RTLIL text of each design that has one, by its name."""
    parts = re.split(r"^design (\S+)\n", said(program, ["rtlil"], text), flags=re.MULTILINE)[1:]
    return dict(zip(parts[::2], parts[1::2]))


def compare(folder, design, events, rows, rtlil):
    """How many numbers are the same, and what differs."""
    (folder / "t.il").write_text(rtlil)
    asked, wanted, clock = [], [], 0
    driven = [name for name in design.registers if re.search(rf"connect \\Q \\{name}\n", rtlil)]
    for k, row in enumerate(rows):
        given = [(f"{name}.q", row[name]) for name in driven] + [(name, row[name]) for name in design.inputs]
        sets = " ".join(f"-set {name} {bits(v, design.width(name.removesuffix('.q')))}" for name, v in given)
        names = [*design.first, *design.second]
        shows = [(name, row[name]) for name in names]
        if k < len(events) and events[k] == "edge":
            clock = 1 - clock
            if clock == 1:
                shows += [(f"{name}.d", rows[k + 1][name]) for name in driven]
        asked.append(f"eval {sets} " + " ".join(f"-show {name}" for name, _ in shows))
        wanted += shows
    script = "read_rtlil t.il; hierarchy -check -top top; check -assert; expose -evert-dff top; cd top; " + "; ".join(asked)
    out = subprocess.run(["yosys", "-p", script], cwd=folder, capture_output=True, text=True)
    found = re.findall(r"Eval result: \\(\S+) = \d+'([01x]+)\.", out.stdout)
    if len(found) != len(wanted):
        return 0, [f"{design.name}: yosys told {len(found)} numbers of {len(wanted)}: {out.stderr[-300:]}"]
    wrong = [
        f"{design.name}: {name} is {number}, yosys {got}"
        for (name, number), (_, got) in zip(wanted, found)
        if "x" in got or number % 2 ** len(got) != int(got, 2)
    ]
    return len(wanted), wrong


def main():
    if not shutil.which("yosys"):
        print("skipped: yosys is not installed")
        return 0
    program, count, seed = sys.argv[1], int(sys.argv[2]), int(sys.argv[3])
    dice = random.Random(seed)
    designs = [Design(dice, f"t{k}") for k in range(count)]
    lines = {d.name: list(d.lines()) for d in designs}
    text = "".join("\n".join(ls) + "\n" for ls in lines.values())
    answers = dict(line.split(" ", 1) for line in said(program, [], text).splitlines())
    lowered = texts(program, text)
    compared, wrong, accepted = 0, [], 0
    with tempfile.TemporaryDirectory() as folder:
        for d in designs:
            if not answers[d.name].startswith("accepted"):
                continue
            accepted += 1
            rows = [dict((n, int(v)) for n, v in re.findall(r"(\S+)=(-?\d+)", part)) for part in answers[d.name].split(" | ")[1:]]
            events = [line for line in lines[d.name] if line == "edge" or line.startswith("set ")]
            tried, differ = compare(Path(folder), d, events, rows, lowered[d.name])
            compared, wrong = compared + tried, wrong + differ
    print("\n".join([*wrong[:20], f"{accepted} of {count} designs accepted, {compared} numbers compared, {len(wrong)} differ"]))
    return 1 if wrong else 0


if __name__ == "__main__":
    sys.exit(main())
