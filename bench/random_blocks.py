"""Random statements for random_designs.py: plain ones, and those under blocks and in the states of machines."""
import itertools

from random_shapes import plain
from random_values import Signal, Targets, Text

STATES = ["IDLE", "RUN", "WAIT", "DONE", "S0", "pass"]


def indented(lines):
    return ["    " + line for line in lines]


class Blocks:
    """Statements under blocks: `assigned` gives one, `known` may be read by conditions; `machines` counts state machines, or is None, and
    `clocked` has the domains that they may be of."""

    def __init__(self, dice, assigned, known, shapes, machines, clocked):
        self.dice, self.assigned, self.text, self.machines = dice, assigned, Text(dice, known, shapes), machines
        self.states, self.clocked = [], clocked

    def body(self, depth):
        lines = []
        for _ in range(self.dice.choice([0, 1, 1, 1, 2, 2, 3])):
            lines += self.one(depth)
        return indented(lines or ["pass"])

    def one(self, depth):
        if self.states and self.dice.random() < 0.35:
            return [f'm.next = "{self.dice.choice(self.states[-1])}"']
        if self.machines and depth and self.dice.random() < 0.12:
            return self.machine(depth)
        kind = self.dice.randrange(3) if depth else 0
        if kind == 0:
            side, statement = self.assigned()
            return [f"m.d.{side} += {statement}"]
        return self.if_chain(depth) if kind == 1 else self.switch(depth)

    def condition(self):
        return self.text.operand(1)[0]

    def if_chain(self, depth):
        lines = [f"with m.If({self.condition()}):"] + self.body(depth - 1)
        for _ in range(self.dice.choice([0, 0, 1, 2])):
            lines += [f"with m.Elif({self.condition()}):"] + self.body(depth - 1)
        if self.dice.random() < 0.5:
            lines += ["with m.Else():"] + self.body(depth - 1)
        return lines

    def switch(self, depth):
        v, shape = self.text.operand(1)
        lines = [f"with m.Switch({v}):"]
        for _ in range(self.dice.choice([0, 1, 2, 3])):
            head = "Default()" if self.dice.random() < 0.15 else f"Case({', '.join(self.pattern(shape) for _ in range(self.dice.choice([0, 1, 1, 1, 2])))})"
            lines += indented([f"with m.{head}:"] + self.body(depth - 1))
        if self.dice.random() < 0.5:
            lines += indented(["with m.Default():"] + self.body(depth - 1))
        return lines if len(lines) > 1 else lines + ["    pass"]

    def pattern(self, shape):
        if self.text.shapes and self.dice.random() < 0.3:
            return self.text.member()[0]
        if self.dice.random() < 0.5:
            return str(self.dice.choice([0, 1, 2, 3, -1, self.dice.randrange(20)]))
        return '"' + "".join(self.dice.choice("01--") for _ in range(shape[0])) + '"'

    def machine(self, depth):
        """A machine: its states are entered in one order and first mentioned, perhaps, in another."""
        name = f"fsm{next(self.machines)}"
        states = self.dice.sample(STATES, self.dice.choice([0, 1, 2, 2, 3, 3, 4]))
        lines = [f"with m.FSM({self.machine_words(states)}) as {name}:"]
        if states and self.dice.random() < 0.2:
            lines.append(f'    {name}_soon = {name}.ongoing("{self.dice.choice(states)}")')
            self.text.readable.append(Signal(f"{name}_soon", plain(1)))
        for state in states:
            self.text.readable.append(Signal(f'{name}.ongoing("{self.dice.choice(states)}")', plain(1)))
            self.states.append(states)
            lines += indented([f'with m.State("{state}"):'] + self.body(depth - 1))
            self.states.pop()
        return lines if len(lines) > 1 else lines + ["    pass"]

    def machine_words(self, states):
        words = []
        if states and self.dice.random() < 0.3:
            words.append(f'init="{self.dice.choice(states)}"')
        if self.dice.random() < 0.2:
            words.append(f'domain="{self.clocked[0] if len(self.clocked) == 1 else self.dice.choice(self.clocked)}"')
        if self.dice.random() < 0.4:
            words.append(f'name="{self.dice.choice(["ctl", "ctl", "main"])}"')
        return ", ".join(words)


class Statements:
    """The statements of one design, in which no output reads one that stands behind it, so that no bit needs itself, but for a few."""

    def __init__(self, dice, options, shapes):
        self.dice, self.shapes = dice, shapes
        self.targets = Targets(dice, shapes, options.targets)
        self.clocked = ["sync", "fast", "slow"] if options.domains else ["sync"]
        self.sides = {}
        self.has_blocks = options.blocks or options.machines
        self.machines = itertools.count() if options.machines else None

    def lines(self, inputs, outputs, registers):
        if self.has_blocks:
            return self.in_blocks(inputs, outputs, registers)
        return [f"m.d.{side} += {statement}" for side, statement in self.plain(inputs, outputs, registers)]

    def value(self, readable, depth):
        return Text(self.dice, readable, self.shapes).operand(depth)[0]

    def plain(self, inputs, outputs, registers):
        lines, known = [], inputs + registers
        for s in outputs:
            for _ in range(self.dice.choice([1, 1, 2])):
                lines.append(("comb", f"{self.targets.any_of(s, [], known)}.eq({self.value(known, self.dice.randint(1, 3))})"))
            known = known + [s]
        for s in registers:
            side, mates = self.side_of(s, registers)
            lines.append((side, f"{self.targets.any_of(s, mates, known)}.eq({self.value(known, self.dice.randint(1, 3))})"))
        self.dice.shuffle(lines)
        return lines

    def side_of(self, s, registers):
        """The domain of a register, and the registers of that domain."""
        if len(self.clocked) == 1:
            return "sync", registers
        for r in registers:
            if r.name not in self.sides:
                self.sides[r.name] = self.dice.choice(self.clocked)
        return self.sides[s.name], [r for r in registers if self.sides[r.name] == self.sides[s.name]]

    def in_blocks(self, inputs, outputs, registers):
        """Statements in stages: those of a stage read what stands before it."""
        stages, known = [], inputs + registers
        for s in outputs:
            readable = known + [s] if self.dice.random() < 0.03 else list(known)
            blocks = Blocks(self.dice, self.assigner(s, registers, readable), readable, self.shapes, self.machines, self.clocked)
            depth = 2 if self.machines else 3
            stages.append([line for _ in range(self.dice.choice([1, 2, 2])) for line in blocks.one(depth)])
            if self.machines and self.dice.random() < 0.4:
                stages[-1] += blocks.machine(2) + blocks.one(1)
            known = known + [s]
        self.dice.shuffle(stages)
        return [line for stage in stages for line in stage]

    def assigner(self, s, registers, readable):
        """Gives statements that drive the output `s`, or a register."""
        def assigned():
            value = self.value(readable, self.dice.randint(1, 2))
            if registers and self.dice.random() < 0.3:
                driven = self.dice.choice(registers)
                side, mates = self.side_of(driven, registers)
                return side, f"{self.targets.any_of(driven, mates, readable)}.eq({value})"
            return "comb", f"{self.targets.any_of(s, [], readable)}.eq({value})"
        return assigned
