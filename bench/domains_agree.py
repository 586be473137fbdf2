#!/usr/bin/env python3
"""Compares the simulator over several domains with a second reading of its rules: `domains_agree.py PROGRAM COUNT SEED`.

PROGRAM is the built design_table. Each random design has up to four domains that rise or fall, without a reset, with one
that acts at edges or with one that acts at once; registers of each, and sums of what is there in combinational signals.
An event sets an input, a reset among them, or toggles the clocks of some domains together, and behind it the numbers of
all signals are compared. No part of the gate.
"""
import random
import subprocess
import sys
from dataclasses import dataclass

EVENTS = 30


@dataclass
class Signal:
    """A signal: `side` is "input", "comb" or the name of a domain."""

    name: str
    width: int
    side: str
    init: int = 0

    def line(self):
        return f"signal {self.name} {self.width} u {self.side} {self.init}"


@dataclass
class Domain:
    """A domain: `kind` is "", "sync" or "async"."""

    name: str
    clock: str
    falling: bool
    kind: str
    reset: str

    def line(self):
        edge = "falling" if self.falling else "rising"
        return f"domain {self.name} {self.clock} {edge}" + (f" {self.kind} {self.reset}" if self.kind else "")


def words(value):
    """The words of a sum, a name or a number."""
    if isinstance(value, tuple):
        return f"add {words(value[0])} {words(value[1])}"
    return f"{value}:3u" if isinstance(value, int) else value


def number(value, env):
    """The number of a sum, a name or a number."""
    if isinstance(value, tuple):
        return number(value[0], env) + number(value[1], env)
    return value if isinstance(value, int) else env[value]


class Design:
    """A random design and its events."""

    def __init__(self, dice, name):
        self.dice, self.name = dice, name
        self.domains = [self.domain(k) for k in range(dice.randint(1, 4))]
        resets = [Signal(d.reset, 1, "input", dice.randint(0, 1)) for d in self.domains if d.kind]
        self.inputs = [Signal("x", 4, "input"), Signal("y", 1, "input")] + resets
        clocks = [Signal(d.clock, 1, "input") for d in self.domains[1:]]
        registers = [self.register(d, j) for d in self.domains for j in range(dice.randint(1, 3))]
        sums = [Signal(f"a{j}", dice.randint(1, 6), "comb") for j in range(dice.randint(0, 3))]
        self.signals = clocks + self.inputs + registers + sums
        self.assigns = self.assignments(registers, sums)
        self.events = [self.event() for _ in range(EVENTS)]

    def domain(self, k):
        kind = self.dice.choice(["", "sync", "async", "async"])
        return Domain(f"d{k}", f"clk{k}" if k else "clk", self.dice.random() < 0.5, kind, f"rst{k}")

    def register(self, domain, j):
        return Signal(f"r_{domain.name}_{j}", self.dice.randint(1, 6), domain.name, self.dice.randint(0, 1))

    def value(self, names, depth=2):
        if depth and self.dice.random() < 0.6:
            return self.value(names, depth - 1), self.value(names, depth - 1)
        return self.dice.choice(names + [self.dice.randint(0, 7)])

    def assignments(self, registers, sums):
        """For each side its assignments, a condition before each: no sum reads one behind it."""
        names = ["x", "y"] + [r.name for r in registers]
        sides = {"comb": []}
        for s in sums:
            sides["comb"].append((1, s.name, self.value(names)))
            names = names + [s.name]
        for r in registers:
            condition = self.dice.choice([1, self.dice.choice(names)])
            sides.setdefault(r.side, []).append((condition, r.name, self.value(names)))
        return sides

    def event(self):
        if self.dice.random() < 0.4:
            s = self.dice.choice(self.inputs)
            return "set", s.name, self.dice.randrange(2**s.width)
        some = self.dice.sample(self.domains, self.dice.randint(1, len(self.domains)))
        return "edge", [d for d in self.domains if d in some]

    # ---- the design in the table's notation

    def lines(self):
        yield f"design {self.name}"
        given = [s for s in self.signals if s.side == "input"]
        yield from (s.line() for s in given)
        yield from (d.line() for d in self.domains)
        yield from (s.line() for s in self.signals if s.side != "input")
        for side, assigns in self.assigns.items():
            if side != "comb":
                yield side
            for condition, name, value in assigns:
                yield from ["choose", f"arm {words(condition)}", f"assign {name} {words(value)}", "end"]
        for event in self.events:
            yield f"set {event[1]} {event[2]}" if event[0] == "set" else "edge " + " ".join(d.name for d in event[1])
            yield "show"

    # ---- what it does

    def settled(self, held):
        env = dict(held)
        for condition, name, value in self.assigns["comb"]:
            env[name] = number(value, env) % 2 ** self.widths[name] if number(condition, env) else 0
        return env

    def clear(self, domain, held):
        held.update((s.name, s.init) for s in self.signals if s.side == domain.name)

    def step(self, event, held):
        """What is held behind an event: all is read from before it, and resets that act at once come last."""
        env, new = self.settled(held), dict(held)
        if event[0] == "set":
            new[event[1]] = event[2]
        else:
            for d in event[1]:
                if env[d.clock] == d.falling:
                    for condition, name, value in self.assigns.get(d.name, []):
                        if number(condition, env):
                            new[name] = number(value, env) % 2 ** self.widths[name]
                    if d.kind and env[d.reset]:
                        self.clear(d, new)
                new[d.clock] = 1 - held[d.clock]
        for d in self.domains:
            if d.kind == "async" and new[d.reset]:
                self.clear(d, new)
        return new

    def shown(self):
        """The numbers of all signals behind each event."""
        self.widths = {s.name: s.width for s in self.signals}
        held = {"clk": 0} | {s.name: s.init for s in self.signals}
        for event in self.events:
            held = self.step(event, held)
            env = self.settled(held)
            yield " ".join(f"{s.name}={env[s.name]}" for s in self.signals)


def main():
    if len(sys.argv) != 4:
        raise SystemExit(__doc__)
    program, count, seed = sys.argv[1], int(sys.argv[2]), int(sys.argv[3])
    dice = random.Random(seed)
    designs = [Design(dice, f"design{k}") for k in range(count)]
    questions = "".join("\n".join(d.lines()) + "\ndone\n" for d in designs)
    said = subprocess.run([program], input=questions, capture_output=True, text=True, check=True).stdout.splitlines()
    for design, line in zip(designs, said, strict=True):
        if line.split(" | ")[1:] != list(design.shown()):
            raise SystemExit("\n".join(design.lines()) + f"\nshown: {line}\nwanted: {' | '.join(design.shown())}")
    print(f"{count} designs agree, {count * EVENTS} events")


if __name__ == "__main__":
    main()
