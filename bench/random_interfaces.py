#!/usr/bin/env python3
"""Writes random design files with interfaces, each with a script, into a folder: `random_interfaces.py FOLDER COUNT SEED [--spoiled]`.

Each design has signatures, which are nested in one another, turned, or those of streams; interfaces that are made of them, turned and
connected, some in an `If`; and components with members of such signatures, which are connected as submodules. With `--spoiled` one thing
in each text is broken: the ends of a connection, a member, an argument, a name.

The files are K.py and K.stim, K from 0 on, and depend on the seed and the words alone. Two tools that are run over them can be compared.
"""
import argparse
import pathlib
import random

HEAD = """from amaranth import *
from amaranth.lib import stream, wiring
from amaranth.lib.wiring import In, Out, Signature, Component, connect, flipped
"""
NAMES = "addr data en ok ack word x y".split()


class Port:
    def __init__(self, dice):
        self.width, self.signed, self.init = dice.choice([1, 1, 2, 3, 5, 8]), dice.random() < 0.3, dice.choice([0, 0, 0, 1, 3, -2, 9])

    def text(self):
        shape = f"signed({self.width})" if self.signed else str(self.width)
        return shape + (f", init={self.init}" if self.init else "")


class Named:
    """A signature under a name of the file: its members are names with a direction and a port or another signature."""

    def __init__(self, name, members):
        self.name, self.members = name, members

    def text(self):
        return self.name

    def leaves(self, turned=False, path=()):
        for name, is_out, what in self.members:
            out = is_out != turned
            if isinstance(what, Named):
                yield from what.leaves(not out, path + (name,))
            else:
                yield path + (name,), out, what


def signature(dice, name, before):
    """A signature of its own members, one that is turned, or a stream's, and the line that makes it."""
    kind = dice.random()
    if before and kind < 0.2:
        other = dice.choice(before)
        return Named(name, [(n, not out, what) for n, out, what in other.members]), f"{name} = {other.name}.flip()"
    if kind < 0.3:
        port, bit, ready = Port(dice), Port(dice), Port(dice)
        for p, width in ((port, port.width), (bit, 1), (ready, 1)):
            p.width, p.signed, p.init = width, p is port and p.signed, 0
        shape = f"signed({port.width})" if port.signed else str(port.width)
        return Named(name, [("payload", True, port), ("valid", True, bit), ("ready", False, ready)]), f"{name} = stream.Signature({shape})"
    names = dice.sample(NAMES, dice.randint(1, 4))
    members = [(n, dice.random() < 0.5, dice.choice(before) if before and dice.random() < 0.4 else Port(dice)) for n in names]
    inside = ", ".join(f'"{n}": {"Out" if out else "In"}({what.text()})' for n, out, what in members)
    return Named(name, members), f"{name} = Signature({{{inside}}})"


def component(dice, name, members):
    """A component over these members, which drives each leaf that leads out from what leads in, or counts."""
    lines = [f"class {name}(Component):"]
    lines += [f"    {n}: {'Out' if out else 'In'}({s.name})" for n, out, s in members]
    lines += ["    def elaborate(self, platform):", "        m = Module()"]
    ins = [".".join(("self", n) + path) for n, out, s in members for path, o, _ in s.leaves(not out) if not o]
    for n, out, s in members:
        for path, o, _ in s.leaves(not out):
            if o:
                leaf = ".".join(("self", n) + path)
                source = dice.choice(ins) if ins and dice.random() < 0.7 else leaf
                lines.append(f"        m.d.{'sync' if source == leaf or dice.random() < 0.6 else 'comb'} += {leaf}.eq({source} + {dice.randint(0, 3)})")
    return lines + ["        return m"]


def design(dice):
    """The text of a design, its script, and lines that may be spoiled."""
    lines, made, script = HEAD.splitlines(), [], []
    for k in range(dice.randint(2, 5)):
        s, line = signature(dice, f"S{k}", made)
        made.append(s)
        lines.append(line)
    link = dice.choice(made)
    lines += component(dice, "Near", [("bus", True, link), ("side", dice.random() < 0.5, dice.choice(made))])
    lines += component(dice, "Far", [("bus", False, link)])
    lines += ["m = Module()", "on = Signal()", "seen = Signal(6)", "m.submodules.near = near = Near()", "m.submodules.far = far = Far()", "connect(m, near.bus, far.bus)"]
    reads = []
    for k in range(dice.randint(1, 3)):
        s = dice.choice(made)
        a, b = f"a{k}", f"b{k}"
        lines += [f"{a} = {s.name}.create()", f"{b} = {dice.choice([f'{s.name}.flip()', f'flipped({a}).signature', f'{a}.signature.flip()'])}.create()"]
        ends = dice.choice([f"{a}, {b}", f"{b}, {a}", f"flipped({b}), flipped({a})", f"flipped(flipped({a})), {b}"])
        if dice.random() < 0.3:
            lines += ["with m.If(on):", f"    connect(m, {ends})"]
        else:
            lines += [f"connect(m, {ends})"]
        for path, out, port in s.leaves():
            reads.append(".".join((dice.choice([a, b]),) + path))
            low, high = (-(1 << port.width - 1), (1 << port.width - 1) - 1) if port.signed else (0, (1 << port.width) - 1)
            leading = out != ends.startswith(f"flipped({b})")
            script.append(f"set {'__'.join(((a if leading else b),) + path)} {dice.randint(low, high)}")
    if reads:
        lines.append("m.d.comb += seen.eq(" + " ^ ".join(reads[:6]) + ")")
    lines.append("top = m")
    script += ["edge sync"] * dice.randint(0, 6) * any("m.d.sync" in line for line in lines) + ["set on 1"] * any("If(on)" in line for line in lines)
    dice.shuffle(script)
    return lines, script


SPOILS = [("connect(m, ", "connect(near, "), (".create()", ".create(1)"), ("Out(", "Out(129 or "), ("flipped(", "flipped(3, "), ("In(", "In(3, 4, "), ("near.bus", "near.bos"), ("__", "__x"), ("Signature({", "Signature({1: In(1), "), ("far.bus", "near.bus"), (".flip()", ".flap()"), ("Signature({", "Signature({\"signature_\": In(1), ")]


def spoiled(dice, lines):
    old, new = dice.choice(SPOILS)
    places = [k for k, line in enumerate(lines) if old in line and not line.startswith("from")]
    if places:
        k = dice.choice(places)
        lines[k] = lines[k].replace(old, new, 1)
    return lines


def main():
    words = argparse.ArgumentParser()
    words.add_argument("folder", type=pathlib.Path)
    words.add_argument("count", type=int)
    words.add_argument("seed", type=int)
    words.add_argument("--spoiled", action="store_true")
    options = words.parse_args()
    options.folder.mkdir(parents=True, exist_ok=True)
    for k in range(options.count):
        dice = random.Random(f"{options.seed} {k}")
        lines, script = design(dice)
        if options.spoiled:
            lines = spoiled(dice, lines)
        (options.folder / f"{k}.py").write_text("".join(f"{line}\n" for line in lines), encoding="utf-8")
        (options.folder / f"{k}.stim").write_text("".join(f"{line}\n" for line in script), encoding="utf-8")


if __name__ == "__main__":
    main()
