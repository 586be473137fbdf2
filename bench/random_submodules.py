"""Random trees of modules for random_designs.py: the signals of a design are parted among the top and its submodules."""
from random_blocks import indented


class Branch:
    """A module of the tree: what it drives, and which modules stand below it. The top is the first one."""

    def __init__(self, number):
        self.number, self.outputs, self.registers, self.below = number, [], [], []

    @property
    def name(self):
        return f"Sub{self.number}"


class Branches:
    """The tree of a design, as the lines of its submodules' classes and of the top's statements."""

    def __init__(self, dice, design):
        self.dice, self.design = dice, design
        self.all = [Branch(k) for k in range(dice.randint(2, 5))]
        for branch in self.all[1:]:
            dice.choice(self.all[:branch.number]).below.append(branch)
        for s in design.outputs:
            dice.choice(self.all).outputs.append(s)
        for s in design.registers:
            dice.choice(self.all).registers.append(s)
        self.statements = self.parted()

    def parted(self):
        """The statements of each module, in an order of modules in which each reads what stands before it and all registers."""
        found, order, known = {}, list(self.all), list(self.design.inputs)
        self.dice.shuffle(order)
        for branch in order:
            others = [r for r in self.design.registers if r not in branch.registers]
            found[branch.number] = self.design.made.lines(known + others, branch.outputs, branch.registers)
            known = known + branch.outputs
        return found

    def added(self, branch, arguments):
        """The additions of what stands below a module, each in one of the ways that there are."""
        lines = []
        for b in branch.below:
            call = f"{b.name}({arguments})"
            name = self.dice.choice([f"s{b.number}", f"part_{b.number}", "if"])
            way = self.dice.randrange(4)
            taken = any(f'"{name}"' in line or f".{name} =" in line for line in lines)
            if way == 0 or taken:
                lines.append(f"m.submodules += {call}")
            elif way == 1 or name == "if":
                lines.append(f'm.submodules["{name}"] = {call}')
            elif way == 2:
                lines.append(f"m.submodules.{name} = {call}")
            else:
                lines += [f"b{b.number} = {call}", f"m.submodules.{name} = b{b.number}"]
        return lines

    def body(self, branch, arguments):
        lines = self.statements[branch.number] + [""] * 0
        added = self.added(branch, arguments)
        return added + lines if self.dice.random() < 0.5 else lines + added

    def classes(self, holds_top):
        """The classes of all submodules; where `holds_top` is so, the signals are attributes of the top, which each is given."""
        lines = []
        for b in self.all[1:]:
            lines += ["", f"class {b.name}(Elaboratable):"]
            if holds_top:
                lines += ["    def __init__(self, top):", "        self.top = top", ""]
            body = self.body(b, "self" if holds_top else "")
            if holds_top:
                body = [line.replace("self.", "self.top.").replace("(self)", "(self.top)") for line in body]
            lines += ["    def elaborate(self, platform):", "        m = Module()"] + indented(indented(body)) + ["        return m"]
        return lines + [""]

    def top(self, holds_top):
        return self.body(self.all[0], "self" if holds_top else "")
