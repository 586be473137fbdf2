#!/usr/bin/env python3
"""Compares whole designs with Icarus, on random ones: `lowered_agree.py PROGRAM COUNT SEED`.

PROGRAM is the built design_table. Each design has one domain or two, whose clocks rise or fall, with resets that act at edges,
at once or not at all, registers in each, signals of combinational statements, and memories with ports of each kind, whose
addresses may go past the depth. After each event the simulator's numbers are shown. Yosys reads the text that the design
is lowered to, with no warning, finds no loop of cells and nothing without a driver, and writes it as Verilog; Icarus plays the
same events, and behind each of them every column must have the same bits. Skipped where yosys or iverilog is not
installed (Debian's packages of these names). No part of the gate.
"""
import random
import re
import shutil
import subprocess
import sys
import tempfile
from pathlib import Path

from flat_agree import Design, said, texts

EVENTS = 16


class Lowered(Design):
    """The lines of one random design."""

    def __init__(self, dice, name):
        super().__init__(dice, name)
        self.domains = {"sync": "clk", **({"other": "clk2"} if dice.random() < 0.6 else {})}
        self.edges = {d: dice.choice(["rising", "falling"]) for d in self.domains}
        self.resets = {d: dice.choice(["", f" sync rst_{d}", f" async rst_{d}"]) for d in self.domains}
        self.controls = {c: (1, False) for c in [*list(self.domains.values())[1:], *(r.split()[1] for r in self.resets.values() if r)]}
        self.home = {name: dice.choice(list(self.domains)) for name in self.registers}
        self.words = {}
        self.memories = [self.memory(k) for k in range(dice.choice([0, 1, 1, 2]))]

    def memory(self, k):
        """The lines of a memory, and the signals that its ports give."""
        dice, width, depth = self.dice, self.dice.randint(1, 6), self.dice.randint(1, 6)
        shape = (width, dice.random() < 0.3)
        rows = " ".join(str(self.number(shape)) for _ in range(dice.randint(0, depth)))
        lines = [f"memory m{k} {width} {'s' if shape[1] else 'u'} {depth} {rows}".rstrip()]
        held = {**self.inputs, **self.registers}
        writes, domain = [], dice.choice(list(self.domains))
        for _ in range(dice.randint(0, 3)):
            granularity = dice.choice([g for g in range(1, width + 1) if width % g == 0])
            writes.append(domain)
            lines.append(f"write {domain} {granularity} {self.address(held, depth)} {'signed ' if shape[1] else ''}{self.exact(held, width)} {self.exact(held, width // granularity)}")
        for j in range(dice.randint(1, 3)):
            word = f"w{k}{j}"
            self.words[word] = (shape, "comb" if dice.random() < 0.4 else dice.choice(list(self.domains)))
            kind = self.words[word][1]
            if kind == "comb":
                lines.append(f"read {word} {self.address(held, depth)}")
            else:
                own = [str(n) for n, d in enumerate(writes) if d == kind and dice.random() < 0.5]
                lines.append(f"sample {word} {','.join(own) or '-'} {self.address(held, depth)} {self.exact(held, 1)}")
        return lines

    def address(self, names, depth):
        """As many bits as the rows need, so that an address may go past the depth."""
        return f"slice:0:{(depth - 1).bit_length()} cat:2 {self.value(names, 1)[0]} 0:3u"

    def exact(self, names, width):
        """Bits of a width."""
        return f"slice:0:{width} cat:2 {self.value(names, 1)[0]} {self.dice.randrange(2**width)}:{width}u"

    def lines(self):
        held = {**self.inputs, **self.registers, **{w: s for w, (s, _) in self.words.items()}}
        yield f"design {self.name}"
        for name in self.controls:
            yield f"signal {name} 1 u input"
        for domain, clock in self.domains.items():
            yield f"domain {domain} {clock} {self.edges[domain]}{self.resets[domain]}"
        for name, shape in self.inputs.items():
            yield self.signal(name, shape, "input", "")
        for name, shape in self.registers.items():
            yield self.signal(name, shape, self.home[name], f" {self.number(shape)}")
        for names in (self.first, self.second):
            for name, shape in names.items():
                yield self.signal(name, shape, "comb", f" {self.number(shape)}")
        for name, (shape, kind) in self.words.items():
            yield self.signal(name, shape, kind, "")
        for lines in self.memories:
            yield from lines
        yield from self.statements(self.first, held)
        yield from self.statements(self.second, {**held, **self.first})
        for domain in self.domains:
            own = {name: shape for name, shape in self.registers.items() if self.home[name] == domain}
            if own:
                yield domain
                yield from self.statements(own, {**held, **self.first, **self.second})
        yield "show"
        for event in self.events():
            yield event
            yield "show"
        yield "done"

    def signal(self, name, shape, kind, init):
        return f"signal {name} {shape[0]} {'s' if shape[1] else 'u'} {kind}{init}"

    def events(self):
        dice = self.dice
        clocks = set(self.domains.values())
        given = {**self.inputs, **{c: s for c, s in self.controls.items() if c not in clocks}}
        for _ in range(EVENTS):
            if dice.random() < 0.6:
                yield "edge " + " ".join(dice.choice([list(self.domains), [dice.choice(list(self.domains))]]))
            else:
                name = dice.choice(list(given))
                yield f"set {name} {self.number(given[name])}"

    def shapes(self):
        return {**self.inputs, **self.controls, **self.registers, **self.first, **self.second, **{w: s for w, (s, _) in self.words.items()}}


def testbench(design, events, names):
    """A module that plays the events, and shows the bits of all these names behind each."""
    shapes = design.shapes()
    inputs = {"clk": 1, **{n: shapes[n][0] for n in [*design.controls, *design.inputs]}}
    show = " ".join("%b" for _ in names)
    shown = f'    $display("{show}", {", ".join(f"dut.{n}" for n in names)});\n'
    text = "module t;\n" + "".join(f"  reg [{w - 1}:0] {n} = 0;\n" for n, w in inputs.items())
    text += "  top dut(" + ", ".join(f".{n}({n})" for n in inputs) + ");\n  initial begin\n    #1\n" + shown
    for event in events:
        kind, *words = event.split()
        if kind == "set":
            text += f"    {words[0]} = {inputs[words[0]]}'d{int(words[1]) % 2 ** inputs[words[0]]};\n"
        else:
            text += "".join(f"    {design.domains[d]} <= ~{design.domains[d]};\n" for d in words)
        text += "    #1\n" + shown
    return text + "  end\nendmodule\n"


def compare(folder, design, events, rows, rtlil):
    """How many numbers are the same, and what differs."""
    (folder / "t.il").write_text(rtlil)
    script = "read_rtlil t.il; hierarchy -check -top top; check -assert; write_verilog -noattr t.v"
    out = subprocess.run(["yosys", "-e", ".*", "-p", script], cwd=folder, capture_output=True, text=True)
    if out.returncode or "Warning" in out.stdout + out.stderr:
        return 0, [f"{design.name}: yosys: {(out.stdout + out.stderr)[-400:]}"]
    names = list(rows[0])
    (folder / "b.v").write_text(testbench(design, events, names))
    subprocess.run(["iverilog", "-g2005-sv", "-o", "t.vvp", "-s", "t", "t.v", "b.v"], cwd=folder, check=True)
    lines = subprocess.run(["vvp", "-n", "t.vvp"], cwd=folder, check=True, capture_output=True, text=True).stdout.splitlines()
    if len(lines) != len(rows):
        return 0, [f"{design.name}: icarus showed {len(lines)} rows of {len(rows)}"]
    wrong = []
    for k, (line, row) in enumerate(zip(lines, rows)):
        for name, got in zip(names, line.split()):
            if not re.fullmatch("[01]+", got) or row[name] % 2 ** len(got) != int(got, 2):
                wrong.append(f"{design.name}: behind event {k} {name} is {row[name]}, icarus {got}")
    return len(rows) * len(names), wrong


def main():
    if not shutil.which("yosys") or not shutil.which("iverilog"):
        print("skipped: yosys or iverilog is not installed")
        return 0
    program, count, seed = sys.argv[1], int(sys.argv[2]), int(sys.argv[3])
    dice = random.Random(seed)
    designs = [Lowered(dice, f"t{k}") for k in range(count)]
    lines = {d.name: list(d.lines()) for d in designs}
    text = "".join("\n".join(ls) + "\n" for ls in lines.values())
    answers = dict(line.split(" ", 1) for line in said(program, [], text).splitlines())
    lowered = texts(program, text)
    compared, wrong, accepted = 0, [], 0
    with tempfile.TemporaryDirectory() as folder:
        for d in designs:
            if answers[d.name].startswith("no case"):
                wrong.append(f"{d.name}: no case")
            if not answers[d.name].startswith("accepted"):
                continue
            accepted += 1
            rows = [dict((n, int(v)) for n, v in re.findall(r"(\S+)=(-?\d+)", part)) for part in answers[d.name].split(" | ")[1:]]
            events = [line for line in lines[d.name] if line.split()[0] in ("set", "edge")]
            same, differ = compare(Path(folder), d, events, rows, lowered[d.name])
            compared, wrong = compared + same, wrong + differ
    print("\n".join(wrong[:20] + [f"{accepted} designs of {count} accepted, {compared} numbers compared, {len(wrong)} differ"]))
    return 1 if wrong else 0


if __name__ == "__main__":
    sys.exit(main())
