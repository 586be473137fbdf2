#!/usr/bin/env python3
"""Writes random design files with memories, each with a script, into a folder: `random_memories.py FOLDER COUNT SEED [--wrappers]`.

Each design has a memory or two, in the top or in a submodule, with ports of several domains, granules and transparency. Some of the
signals of ports are driven, from inputs, counters and what other ports read; the others are inputs of the top. With `--wrappers` what is
added stands under renamed domains, inserted resets and enables, one in another, and resets are read and driven.

The files are K.py and K.stim, K from 0 on, and depend on the seed and the words alone. Two tools that are run over them can be compared.
"""
import argparse
import pathlib
import random

HEAD = ["from amaranth import *", "from amaranth.lib.memory import Memory"]
SHAPES = {"1": 1, "3": 3, "8": 8, "signed(4)": 4, "range(10)": 4, "range(-3, 2)": 3}
DOMAINS = ["sync", "fast", "slow"]


class Ports:
    """A memory of the file under a name, with its ports: the statements that make them, and their signals by width."""

    def __init__(self, dice, name, domains):
        self.dice, self.name = dice, name
        self.shape, self.depth = dice.choice(list(SHAPES)), dice.choice([1, 2, 3, 4, 5, 8])
        self.width, self.domain = SHAPES[self.shape], dice.choice(domains)
        self.writes = [self.write(k) for k in range(dice.randint(0, 2))]
        self.reads = [self.read(k, domains) for k in range(dice.randint(1, 3))]

    def made(self):
        rows = [self.dice.randint(-9, 300) for _ in range(self.dice.randint(0, self.depth))]
        return f"Memory(shape={self.shape}, depth={self.depth}, init={rows})"

    def write(self, k):
        sizes = [n for n in range(1, self.width + 1) if self.width % n == 0]
        grain = self.dice.choice([None, None] + sizes)
        said = [f'domain="{self.domain}"'] + ([f"granularity={grain}"] if grain else [])
        self.bits = self.width // grain if grain else 1
        return f"{self.name}_w{k} = {self.name}.write_port({', '.join(said)})", {"addr": self.address(), "data": self.width, "en": self.bits}

    def read(self, k, domains):
        domain = self.dice.choice(["comb"] + domains)
        seen = [f"{self.name}_w{n}" for n in range(len(self.writes)) if domain == self.domain and self.dice.random() < 0.5]
        said = [f'domain="{domain}"'] + ([f"transparent_for=[{', '.join(seen)}]"] if seen else [])
        line = f"{self.name}_r{k} = {self.name}.read_port({', '.join(said)})"
        return line, {"addr": self.address()} | ({"en": 1} if domain != "comb" else {})

    def address(self):
        return (self.depth - 1).bit_length()

    def lines(self):
        return [line for line, _ in self.writes + self.reads]

    def inputs(self):
        """The signals that a port waits for, each by its attribute, its name as a column, and its width."""
        for kind, ports in (("w", self.writes), ("r", self.reads)):
            for k, (_, parts) in enumerate(ports):
                yield from ((f"{self.name}_{kind}{k}.{part}", f"{kind}{k}_{part}", width) for part, width in parts.items())

    def data(self):
        return [f"{self.name}_r{k}.data" for k in range(len(self.reads))]


def value(dice, sources):
    """An expression over these."""
    a, b = dice.choice(sources), dice.choice(sources + ["1", "2"])
    return dice.choice([a, f"{a} + {b}", f"{a} ^ {b}", f"~{a}", f"Mux({a}, {b}, {a})", f"Cat({a}, {b})"])


def wrapped(dice, what, domains, controls):
    """A thing under up to three wrappers."""
    for _ in range(dice.choice([0, 1, 1, 2, 3])):
        kind, domain = dice.choice(["DomainRenamer", "ResetInserter", "EnableInserter"]), dice.choice(domains)
        if kind == "DomainRenamer":
            told = dice.choice([f'"{domain}"', f'{{"{domain}": "{dice.choice(DOMAINS)}"}}'])
        else:
            told = dice.choice([dice.choice(controls), f'{{"{domain}": {dice.choice(controls)}}}'])
        what = f"{kind}({told})({what})"
    return what


def part(dice, name, ports, sources, domains, wrappers):
    """The statements of a module: those that drive ports, registers and outputs; what they drive, and what they read beside it."""
    lines, driven = [], set()
    sources = sources + ports.data()
    for signal, column, width in ports.inputs():
        if width and dice.random() < 0.35:
            domain = dice.choice(["comb"] + domains)
            lines.append(f"{name}.d.{domain} += {signal}.eq({value(dice, sources if domain != 'comb' else sources[:3])})")
            driven.add(column)
    if wrappers and dice.random() < 0.5:
        lines.append(f'{name}.d.comb += flag_{name}.eq(ResetSignal("{dice.choice(domains)}"))')
    if wrappers and dice.random() < 0.25:
        lines.append(f'{name}.d.comb += ResetSignal("{dice.choice(domains)}").eq({sources[0]} == 1)')
    lines.append(f"{name}.d.comb += out_{name}.eq({value(dice, sources)})")
    lines.append(f"{name}.d.{dice.choice(domains)} += count_{name}.eq({value(dice, sources + [f'count_{name}'])})")
    return lines, driven


def signals(name):
    return [f"out_{name} = Signal(9)", f"count_{name} = Signal(6, init=5)", f"flag_{name} = Signal()"]


def around(what, domains):
    """The top: it has each domain and reads each signal that scripts know, whatever stands below it."""
    lines = ["t = Module()", f"t.submodules.dut = {what}", "seen = Signal(7)", "t.d.comb += seen.eq(Cat(a, b, c))"]
    for domain in domains:
        lines += [f"tick_{domain} = Signal(2)", f"t.d.{domain} += tick_{domain}.eq(tick_{domain} + 1)"]
    return lines + ["top = t"]


def design(dice, wrappers):
    """The lines of a file, the columns that a script may set with their widths, and the domains."""
    domains = dice.sample(DOMAINS, dice.randint(1, 2))
    ports = Ports(dice, "mem", domains)
    lines = HEAD + ["a = Signal(4)", "b = Signal()", "c = Signal(2)"] + signals("m") + signals("i") + ["m = Module()", "i = Module()"]
    lines += [f"mem = {ports.made()}"] + ports.lines()
    where = dice.choice(["m", "i"])
    statements, driven = part(dice, where, ports, ["a", "b", "c"], domains, wrappers)
    lines += statements
    other = "i" if where == "m" else "m"
    lines.append(f"{other}.d.{dice.choice(domains)} += count_{other}.eq({value(dice, ['a', 'c', f'count_{other}'])})")
    under = (lambda what: wrapped(dice, what, domains, ["b", "c", "a[0]", "1"])) if wrappers else (lambda what: what)
    lines.append(f"{dice.choice(['m', 'i'])}.submodules.mem = {under('mem')}")
    lines.append(f"m.submodules.{dice.choice(['i', 'inner'])} = {under('i')}")
    lines.append(f"out_m2 = Signal(9)\nm.d.comb += out_m2.eq(count_i ^ out_i)")
    lines += around(under("m") if dice.random() < 0.3 else "m", DOMAINS if wrappers else domains)
    sets = [("a", 4), ("b", 1), ("c", 2)] + [(column, width) for _, column, width in ports.inputs() if width and column not in driven]
    return lines, sets, domains if not wrappers else DOMAINS


def script(dice, text, sets, domains):
    lines = []
    for _ in range(dice.randint(4, 24)):
        if dice.random() < 0.5:
            lines.append("edge " + " ".join(dice.sample(domains, dice.randint(1, min(2, len(domains))))))
        else:
            name, width = dice.choice(sets)
            lines.append(f"set {name} {dice.randrange(1 << width)}")
    return lines


def main():
    parser = argparse.ArgumentParser(description=__doc__, formatter_class=argparse.RawDescriptionHelpFormatter)
    parser.add_argument("folder", metavar="FOLDER", type=pathlib.Path)
    parser.add_argument("count", metavar="COUNT", type=int)
    parser.add_argument("seed", metavar="SEED", type=int)
    parser.add_argument("--wrappers", action="store_true")
    options = parser.parse_args()
    options.folder.mkdir(parents=True, exist_ok=True)
    for k in range(options.count):
        dice = random.Random(f"{options.seed} {k}")
        lines, sets, domains = design(dice, options.wrappers)
        text = "\n".join(lines) + "\n"
        (options.folder / f"{k}.py").write_text(text)
        (options.folder / f"{k}.stim").write_text("\n".join(script(dice, text, sets, domains)) + "\n")


if __name__ == "__main__":
    main()
