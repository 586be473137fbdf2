#!/usr/bin/env python3
"""Writes random design files with testbenches into a folder: `random_benches.py FOLDER COUNT SEED`.

Each design has inputs, registers of one or two domains and combinational outputs; one to three testbenches set inputs, wait for ticks, delays and
conditions, sample and read values. What they read decides what they set, so that a trace tells all of it. The files are K.py, K from 0 on, and
depend on the seed alone.
"""
import argparse, pathlib, random


class Gen:
    def __init__(self, r):
        self.r = r
        self.lines = ["from amaranth import *", "from amaranth.lib.enum import Enum", "from amaranth.sim import Simulator", ""]

    def out(self, text, indent=0):
        self.lines.append("    " * indent + text)

    def shape(self):
        r = self.r
        return r.choice([f"{r.randint(1, 8)}", f"signed({r.randint(1, 6)})", "State", "1"])

    def value(self, deep=2):
        """An Amaranth value over the design's signals."""
        r = self.r
        if deep == 0 or r.random() < 0.3:
            return r.choice(self.signals)
        k = r.randrange(9)
        a, b = self.value(deep - 1), self.value(deep - 1)
        if k == 0: return f"({a} + {b})"
        if k == 1: return f"({a} ^ {b})"
        if k == 2: return f"Cat({a}, {b})"
        if k == 3: return f"({a} == {b})"
        if k == 4: return f"{r.choice(self.signals)}[0]"
        if k == 5: return f"Mux({a}, {b}, {r.choice(self.signals)})"
        if k == 6: return f"({a} - {r.randint(0, 5)})"
        if k == 7: return f"(~{a})"
        return f"{r.choice(self.signals)}.as_unsigned()"

    def plain(self, deep=2):
        """A value that is no enumeration's."""
        return f"({self.value(deep)} + 0)"

    def number(self, names):
        """An integer of Python, over these names."""
        r = self.r
        k = r.randrange(6)
        if k == 0 and names: return r.choice(names)
        if k == 1 and names: return f"({r.choice(names)} * 3 + {r.randint(0, 9)})"
        if k == 2 and names: return f"({r.choice(names)} - {r.randint(0, 9)})"
        if k == 3: return f"ctx.get({self.plain(1)})"
        return str(r.randint(-5, 300))

    def tick(self):
        d = self.r.choice(self.domains)
        return "ctx.tick()" if d == "sync" and self.r.random() < 0.7 else f"ctx.tick({d!r})" if self.r.random() < 0.5 else f"ctx.tick(domain={d!r})"

    def statement(self, indent, names, deep):
        r = self.r
        k = r.randrange(16)
        if k < 4:
            x = r.choice(self.inputs)
            form = r.choice(["{0}", "{0}", "{0}[0]", "{0}[0:1]", "{0}.as_unsigned()"])
            self.out(f"ctx.set({form.format(x)}, {self.number(names) if r.random() < 0.9 else 'State.B'})", indent)
        elif k < 6:
            n = f"v{r.randint(0, 3)}"
            self.out(f"{n} = ctx.get({self.plain()})", indent)
            if indent == 1: names.append(n)
        elif k < 8:
            self.out(f"await {self.tick()}", indent)
        elif k == 8:
            n = f"v{r.randint(0, 3)}"
            self.out(f"c, rst, {n} = await {self.tick()}.sample({self.plain()})", indent)
            if indent == 1: names.append(n)
        elif k == 9:
            self.out(f"await {self.tick()}.repeat({r.randint(0 if r.random() < 0.05 else 1, 4)})", indent)
        elif k == 10:
            n = f"v{r.randint(0, 3)}"
            self.out(f"{n}, = await {self.tick()}.sample({self.plain()}).repeat({r.randint(1, 3)})", indent)
            if indent == 1: names.append(n)
        elif k == 11:
            self.out(f"await {self.tick()}.until({self.value(1)} != {r.randint(0, 3)})", indent)
        elif k == 12:
            self.out(f"await ctx.delay({r.choice(['0', '1e-7', '2.5e-7', '1e-6', '3e-6'])})", indent)
        elif k == 13 and deep > 0:
            self.out(f"for i in range({r.randint(0, 3)}):", indent)
            for _ in range(r.randint(1, 3)): self.statement(indent + 1, names, deep - 1)
        elif k == 14 and deep > 0:
            self.out(f"if {self.number(names)} > {r.randint(0, 20)}:", indent)
            for _ in range(r.randint(1, 2)): self.statement(indent + 1, names, deep - 1)
        elif k == 15 and r.random() < 0.5:
            self.out(f"await put(ctx, {self.number(names)})", indent)
        elif r.random() < 0.3:
            self.out(f"assert {self.number(names)} != {r.randint(0, 9)}", indent)
        else:
            self.out(f"if ctx.get({r.choice(self.states)}) == State.B:", indent)
            self.out(f"ctx.set({r.choice(self.inputs)}, {r.randint(0, 9)})", indent + 1)

    def design(self):
        r = self.r
        self.out("class State(Enum, shape=2):")
        self.out("A = 0", 1)
        self.out("B = 1", 1)
        self.out("C = 2", 1)
        self.out("")
        self.out("m = Module()")
        self.inputs = [f"a{i}" for i in range(r.randint(1, 3))]
        self.registers = [f"r{i}" for i in range(r.randint(1, 3))]
        self.outputs = [f"y{i}" for i in range(r.randint(1, 2))]
        self.states = []
        for n in self.inputs + self.registers + self.outputs:
            s = self.shape()
            if s == "State": self.states.append(n)
            self.out(f"{n} = Signal({s})")
        if not self.states:
            self.out("s0 = Signal(State)")
            self.registers.append("s0")
            self.states.append("s0")
        self.domains = ["sync"] if r.random() < 0.5 else ["sync", "fast"]
        self.signals = self.inputs + self.registers
        for n in self.registers:
            self.out(f"m.d.{r.choice(self.domains)} += {n}.eq({self.value()})")
        for n in self.domains:
            if n == "fast":
                self.out("f = Signal(3)")
                self.out("m.d.fast += f.eq(f + 1)")
                self.signals.append("f")
        self.out("k = Signal(4)")
        self.out("m.d.sync += k.eq(k + 1)")
        self.signals.append("k")
        for n in self.outputs:
            self.out(f"m.d.comb += {n}.eq({self.value()})")
        self.signals += self.outputs
        self.out("")
        self.out("async def put(ctx, v):")
        self.out(f"ctx.set({r.choice(self.inputs)}, v)", 1)
        self.out(f"await {self.tick()}", 1)
        self.out(f"ctx.set({r.choice(self.inputs)}, ctx.get({self.plain(1)}))", 1)
        benches = r.randint(1, 3)
        for i in range(benches):
            self.out("")
            self.out(f"async def bench{i}(ctx):")
            names = []
            for _ in range(r.randint(2, 8)): self.statement(1, names, 2)
        self.out("")
        self.out("sim = Simulator(m)")
        for d in self.domains:
            if r.random() < 0.95:
                words = ["1e-6", "5e-7", "3e-7", "1/12e6"]
                phase = r.choice(["", "", ", phase=0", ", phase=1e-7"])
                self.out(f"sim.add_clock({r.choice(words)}{phase}" + (f", domain={d!r})" if d != "sync" else ")"))
        for i in range(benches):
            self.out(f"sim.add_testbench(bench{i}" + (", background=True)" if r.random() < 0.2 else ")"))
        self.out(r.choice(["sim.run()", "sim.run()", "sim.run_until(2e-5)", "sim.run_until(1e-6)"]) if r.random() < 0.95 else "")
        return "\n".join(self.lines) + "\n"


def main():
    p = argparse.ArgumentParser(description=__doc__)
    p.add_argument("folder"); p.add_argument("count", type=int); p.add_argument("seed", type=int)
    a = p.parse_args()
    folder = pathlib.Path(a.folder); folder.mkdir(parents=True, exist_ok=True)
    for k in range(a.count):
        (folder / f"{k}.py").write_text(Gen(random.Random(f"{a.seed} {k}")).design())


main()
