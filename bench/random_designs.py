#!/usr/bin/env python3
"""Writes random design files, each with a script, into a folder:
`random_designs.py FOLDER COUNT SEED [--spoiled] [--only NAMES] [--blocks] [--targets] [--machines] [--layouts] [--domains] [--edges] [--submodules]`.

Each design is a text in the language that amh_tool accepts, with signals of random shapes, statements of `comb` and `sync` over
random expressions, and a script of events. With `--spoiled` one thing in each text is broken: a token, a width, an argument, a
driver, a target, and of what the other words bring a block, a state, a field, a member, a pattern. NAMES are the kinds of tops to use,
`module`, `object` and `component`, with commas between. With `--blocks` statements stand under `If`, `Elif`, `Else`, `Switch`, `Case`
and `Default`; with `--targets` parts at an offset, items by an index, joins and casts are assigned, too. With `--machines` blocks are
state machines, too, beside and in each other; with `--layouts` signals are views and values of enumerations, whose fields and members
are read, assigned and matched. With `--domains` registers and state machines are of `sync`, `fast` and `slow`, whose clocks toggle alone
and together, and with `--edges` besides the top defines some of these, with edges and resets of all kinds. With `--submodules` the statements stand in a tree of modules.

The files are K.py and K.stim, K from 0 on, and depend on the seed and the words alone. Two tools that are run over them can be compared.
"""
import argparse
import pathlib
import random
import re

from random_blocks import Statements, indented
from random_shapes import Shapes, plain
from random_spoils import spoiled
from random_submodules import Branches
from random_values import Signal


def signals(dice, kind, front, shapes):
    made = []
    for k in range(dice.randint(1, 4)):
        if shapes and made and dice.random() < 0.15:
            made.append(Signal(f"{front}{kind}{k}", made[-1].shape, made[-1]))
            continue
        if shapes and dice.random() < 0.6:
            made.append(Signal(f"{front}{kind}{k}", shapes.signal_shape()))
            continue
        signed = dice.random() < 0.4
        width = dice.choice([1, 1, 2, 3, 4, 5, 8, 13])
        made.append(Signal(f"{front}{kind}{k}", plain(width, signed)))
    return made


def init_text(dice, s):
    if dice.random() >= 0.3:
        return ""
    if s.shape.members and dice.random() < 0.7:
        return f", init={s.shape.text}.{dice.choice(s.shape.members)[0]}"
    return f", init={dice.randrange(-3, 20)}"


class Design:
    """One random design: its signals, its statements, and the head of its text."""

    def __init__(self, dice, options, front):
        self.dice = dice
        self.shapes = Shapes(dice) if options.layouts else None
        self.inputs, self.outputs, self.registers = (signals(dice, kind, front, self.shapes) for kind in "abr")
        self.all = self.inputs + self.outputs + self.registers
        self.made = Statements(dice, options, self.shapes)
        self.tree, self.holds_top = Branches(dice, self) if options.submodules else None, front != ""

    def head(self):
        return ["from amaranth.lib import data, enum"] + self.shapes.lines if self.shapes else []

    def classes(self):
        return self.tree.classes(self.holds_top) if self.tree else []

    def statements(self):
        return self.tree.top(self.holds_top) if self.tree else self.made.lines(self.inputs, self.outputs, self.registers)

    def init(self, s):
        return init_text(self.dice, s) if s not in self.inputs else ""

    def making(self, s):
        """The statement that makes a signal."""
        call = f"Signal.like({s.like.name}" if s.like else f"Signal({s.shape.text}"
        return f"{s.name} = {call}{self.init(s)})"


def behind_what_they_are_like(made):
    """The signals, each behind the one that it is made like."""
    placed = []
    for s in made:
        line = [s]
        while line[-1].like:
            line.append(line[-1].like)
        placed += [other for other in reversed(line) if other not in placed]
    return placed


def module_text(dice, options):
    design = Design(dice, options, "")
    lines = ["from amaranth import *"] + design.head() + design.classes() + ["m = Module()"]
    made = list(design.all)
    dice.shuffle(made)
    lines += [design.making(s) for s in behind_what_they_are_like(made)]
    return lines + design.statements() + ["top = m"], design.inputs


def object_text(dice, options):
    design = Design(dice, options, "self.")
    lines = ["from amaranth import *"] + design.head() + design.classes() + ["", "class Top(Elaboratable):", "    def __init__(self):"]
    lines += indented(indented([design.making(s) for s in design.all]))
    lines += ["", "    def elaborate(self, platform):", "        m = Module()"]
    lines += indented(indented(design.statements()))
    return lines + ["        return m", "", "top = Top()"], design.inputs


def component_text(dice, options):
    design = Design(dice, options, "self.")
    lines = ["from amaranth import *"] + design.head() + ["from amaranth.lib import wiring", "from amaranth.lib.wiring import In, Out"]
    lines += design.classes() + ["", "class Top(wiring.Component):"]
    for s in design.all:
        init = design.init(s) if options.layouts else ""
        lines.append(f"    {s.name[5:]}: {'In' if s in design.inputs else 'Out'}({s.shape.text}{init})")
    lines += ["", "    def elaborate(self, platform):", "        m = Module()"]
    lines += indented(indented(design.statements()))
    return lines + ["        return m", "", "top = Top()"], design.inputs


TOPS = {"module": module_text, "object": object_text, "component": component_text}


def known_to_scripts(dice, inputs, text):
    """The inputs with a column: those with bits that the text reads; in a few scripts, which are refused, all."""
    read = [s for s in inputs if s.width and len(re.findall(rf"\b{s.name.removeprefix('self.')}\b", text)) > 1]
    return inputs if dice.random() < 0.02 else read


def clocked_in(text):
    """The domains in which a text has statements, as far as its lines tell."""
    found = set(re.findall(r"m\.d\.(\w+) \+=", text)) - {"comb"} | set(re.findall(r"m\.domains\.(\w+) =", text))
    if "m.next" in text:
        found |= {name or "sync" for name in re.findall(r'm\.FSM\((?:.*domain="(\w+)")?', text)}
    return sorted(found)


DOMAINS = ("sync", "fast", "slow")


def with_edges(dice, lines):
    """The text whose last module defines some of its domains, each with an edge and a reset of some kind."""
    at = max(i for i, line in enumerate(lines) if line.strip() == "m = Module()")
    indent = lines[at][: -len("m = Module()")]
    made = []
    for name in DOMAINS:
        if dice.random() < 0.7:
            words = [f'clk_edge="{dice.choice(["pos", "neg"])}"'] if dice.random() < 0.8 else []
            words += [f"async_reset={dice.random() < 0.7}"] if dice.random() < 0.8 else []
            words += [f"reset_less={dice.random() < 0.5}"] if dice.random() < 0.3 else []
            made.append(f"{indent}m.domains.{name} = ClockDomain({', '.join(words)})")
    return lines[: at + 1] + made + lines[at + 1 :]


def resets_in(text, clocked):
    """The resets that a script may give: of these domains, those that are not said to have none."""
    kept = [name for name in clocked if not re.search(rf"m\.domains\.{name} = .*reset_less=True", text)]
    return ["rst" if name == "sync" else f"{name}_rst" for name in kept]


def edge_line(dice, clocked):
    """An edge of the one domain, or of some of several."""
    if len(clocked) == 1:
        return f"edge {clocked[0]}"
    return "edge " + " ".join(dice.sample(clocked, dice.randint(1, len(clocked))))


def script_text(dice, inputs, clocked, resets, most):
    """So many events, at most, on these inputs and resets and on the clocks of these domains."""
    if not inputs and not resets:
        return [edge_line(dice, clocked) for _ in range(most)] if clocked else []
    lines = []
    for _ in range(dice.randint(2, most)):
        if clocked and dice.random() < 0.4:
            lines.append(edge_line(dice, clocked))
            continue
        if not inputs or resets and dice.random() < 0.3:
            lines.append(f"set {dice.choice(resets)} {dice.randint(0, 1)}")
            continue
        s = dice.choice(inputs)
        low, high = (-(1 << (s.width - 1)), (1 << (s.width - 1)) - 1) if s.signed else (0, (1 << s.width) - 1)
        lines.append(f"set {s.name.removeprefix('self.')} {dice.choice([low, high, dice.randint(low, high)])}")
    return lines


def words():
    parser = argparse.ArgumentParser(description=__doc__, formatter_class=argparse.RawDescriptionHelpFormatter)
    parser.add_argument("folder", metavar="FOLDER", type=pathlib.Path)
    parser.add_argument("count", metavar="COUNT", type=int)
    parser.add_argument("seed", metavar="SEED", type=int)
    parser.add_argument("--only", metavar="NAMES", default=",".join(TOPS))
    for name in ("spoiled", "blocks", "targets", "machines", "layouts", "domains", "edges", "submodules"):
        parser.add_argument(f"--{name}", action="store_true")
    return parser.parse_args()


def main():
    options = words()
    options.folder.mkdir(parents=True, exist_ok=True)
    for k in range(options.count):
        dice = random.Random(f"{options.seed} {k}")
        lines, inputs = TOPS[dice.choice(options.only.split(","))](dice, options)
        if options.edges:
            lines = with_edges(dice, lines)
        if options.spoiled:
            lines = spoiled(dice, lines, options)
        text = "\n".join(lines) + "\n"
        clocked = clocked_in(text) if options.domains else ["sync"] if "m.d.sync" in text or "m.next" in text else []
        (options.folder / f"{k}.py").write_text(text)
        resets = resets_in(text, clocked) if options.edges else []
        script = script_text(dice, known_to_scripts(dice, inputs, text), clocked, resets, 24 if options.machines or options.edges else 12)
        (options.folder / f"{k}.stim").write_text("\n".join(script) + "\n")


if __name__ == "__main__":
    main()
