"""Random expressions and targets for random_designs.py."""
from random_shapes import plain, value_in, walk_into

BINARY = ["+", "-", "*", "//", "%", "&", "|", "^", "==", "!=", "<", "<=", ">", ">=", "<<", ">>"]
METHODS = ["bool", "any", "all", "xor", "as_signed", "as_unsigned"]
COMPARED = {"==", "!=", "<", "<=", ">", ">="}


class Signal:
    """What may be read by a name: how it is written, and its shape; perhaps it is made like another."""

    def __init__(self, name, shape, like=None):
        self.name, self.shape, self.like = name, shape, like

    @property
    def width(self):
        return self.shape.width

    @property
    def signed(self):
        return self.shape.signed


def common(a, b):
    """The common shape of two, each a width and a sign."""
    if a[1] == b[1]:
        return max(a[0], b[0]), a[1]
    (u, s) = (b, a) if a[1] else (a, b)
    return max(u[0] + 1, s[0]), True


class Text:
    """The expressions of one design; with `shapes` views and members of enumerations stand among them."""

    def __init__(self, dice, readable, shapes=None):
        self.dice, self.readable, self.shapes = dice, readable, shapes
        self.kinds = [self.binary] * 5 + [self.unary, self.slice, self.cat, self.mux, self.method, self.part, self.pick]
        if shapes:
            self.kinds += [self.seen_as, self.matched, self.of_enumeration]

    def leaf(self):
        """A signal, a value in a view or a number, with its shape."""
        if self.readable and self.dice.random() < 0.85:
            s = self.dice.choice(self.readable)
            text, shape = value_in(self.dice, s.name, s.shape, self.index) if s.shape.is_view else (s.name, s.shape)
            return text, (shape.width, shape.signed)
        n = self.dice.choice([0, 1, 2, 3, 5, 7, 12, 100, -1, -2, -8, 255])
        width = max(1, n.bit_length()) if n >= 0 else (-n - 1).bit_length() + 1
        return f"Const({n})", (width, n < 0)

    def index(self):
        """A value that chooses an item of an array."""
        known = [s for s in self.readable if not s.shape.is_view]
        if not known:
            return "Const(1)"
        s = self.dice.choice(known)
        return s.name if s.width < 3 and not s.signed else f"{s.name}[0:{min(2, s.width)}]"

    def value(self, depth):
        """An expression with its shape; what stands over the widths that are kept small is not taken."""
        for _ in range(20):
            text, shape = self.try_value(depth)
            if shape[0] <= 40:
                return text, shape
        return self.narrow_leaf()

    def narrow_leaf(self):
        text, shape = self.leaf()
        return (text, shape) if shape[0] <= 40 else (f"({text})[0:40]", (40, False))

    def operand(self, depth):
        """A value, or what stands for one: a view, a member of an enumeration or a number."""
        if self.shapes and self.dice.random() < 0.15:
            return self.dice.choice([self.view, self.member, self.number])()
        return self.value(depth)

    def view(self):
        views = [s for s in self.readable if s.shape.is_view]
        if not views:
            return self.member()
        s = self.dice.choice(views)
        text, shape = walk_into(self.dice, s.name, s.shape, self.index, 0.4)
        return text, (shape.width, shape.signed)

    def member(self):
        shape = self.dice.choice(self.shapes.enumerations)
        return f"{shape.text}.{self.dice.choice(shape.members)[0]}", (shape.width, shape.signed)

    def number(self):
        n = self.dice.choice([0, 1, 3, -1, -4])
        return str(n) if n >= 0 else f"({n})", (max(1, n.bit_length()), False) if n >= 0 else ((-n - 1).bit_length() + 1, True)

    def try_value(self, depth):
        if depth == 0 or self.dice.random() < 0.15:
            return self.leaf()
        kind = self.dice.choice(self.kinds)
        a, sa = self.value(depth - 1)
        return kind(a, sa, depth)

    def binary(self, a, sa, depth):
        op = self.dice.choice(BINARY)
        b, sb = self.operand(depth - 1) if op not in ("<<", ">>") else self.value(depth - 1)
        if self.shapes and op not in COMPARED and op not in ("<<", ">>") and self.dice.random() < 0.3:
            a, sa, b, sb = b, sb, a, sa
        c = common(sa, sb)
        if op in ("<<", ">>"):
            b = f"({b})[0:{min(2, sb[0])}]"
            grown = sa[0] + 2 ** min(2, sb[0]) - 1
            return f"({a} {op} {b})", (grown if op == "<<" else sa[0], sa[1])
        if op in COMPARED:
            return f"({a} {op} {b})", (1, False)
        if op == "+":
            shape = c[0] + 1, c[1]
        elif op == "-":
            shape = c[0] + 1, True
        elif op == "*":
            shape = sa[0] + sb[0], sa[1] or sb[1]
        elif op == "//":
            shape = (sa[0] + 1, True) if sb[1] else sa
        elif op == "%":
            shape = sb
        else:
            shape = c
        return f"({a} {op} {b})", shape

    def unary(self, a, sa, depth):
        op = self.dice.choice(["-", "~", "abs"])
        if op == "-":
            return f"(-{a})", (sa[0] + 1, True)
        if op == "~":
            return f"(~{a})", sa
        return f"abs({a})", (sa[0], False)

    def slice(self, a, sa, depth):
        if sa[0] == 0:
            return f"({a})[0:0]", (0, False)
        low = self.dice.randrange(sa[0])
        if self.dice.random() < 0.3:
            return f"({a})[{self.dice.choice([low, low - sa[0]])}]", (1, False)
        high = self.dice.randint(low, sa[0])
        if self.dice.random() < 0.15:
            return f"({a})[{low}:{high}:2]", (len(range(low, high, 2)), False)
        return f"({a})[{low}:{high}]", (high - low, False)

    def cat(self, a, sa, depth):
        b, sb = self.operand(depth - 1)
        if self.dice.random() < 0.2:
            return f"({a}).replicate(2)", (2 * sa[0], False)
        return f"Cat({a}, {b})", (sa[0] + sb[0], False)

    def mux(self, a, sa, depth):
        b, sb = self.operand(depth - 1)
        s, _ = self.operand(depth - 1)
        return f"Mux({s}, {a}, {b})", common(sa, sb)

    def method(self, a, sa, depth):
        m = self.dice.choice(METHODS)
        if m == "as_signed" and sa[0] == 0:
            m = "as_unsigned"
        if m == "as_signed":
            return f"({a}).as_signed()", (sa[0], True)
        if m == "as_unsigned":
            return f"({a}).as_unsigned()", (sa[0], False)
        if self.dice.random() < 0.3:
            pattern = "".join(self.dice.choice("01-") for _ in range(sa[0]))
            return f'({a}).matches("{pattern}", {self.dice.randrange(8)})', (1, False)
        return f"({a}).{m}()", (1, False)

    def part(self, a, sa, depth):
        off, so = self.value(depth - 1)
        off = f"({off})[0:{min(3, so[0])}]"
        width = self.dice.randint(0, 6)
        return f"({a}).{self.dice.choice(['bit_select', 'word_select'])}({off}, {width})", (width, False)

    def pick(self, a, sa, depth):
        b, sb = self.operand(depth - 1)
        i, si = self.value(depth - 1)
        return f"Array([{a}, {b}])[({i})[0:{min(2, si[0])}]]", common(sa, sb)

    def seen_as(self, a, sa, depth):
        """A value under a view that is made of it."""
        layout = self.dice.choice(self.shapes.layouts)
        under = f"({a})[0:{layout.width}]" if sa[0] >= layout.width else f"Const({self.dice.randrange(100)}, {layout.width})"
        text, shape = value_in(self.dice, f"{layout.text}({under})", layout, self.index)
        return text, (shape.width, shape.signed)

    def matched(self, a, sa, depth):
        return f"({a}).matches({self.member()[0]})", (1, False)

    def of_enumeration(self, a, sa, depth):
        shape = self.dice.choice(self.shapes.enumerations)
        return f"Const({self.dice.choice(shape.members)[1]}, {shape.text})", (shape.width, shape.signed)


def part_of(dice, text, width):
    """The whole of a target, a slice or a bit of it."""
    if width < 2 or dice.random() < 0.7:
        return text
    low = dice.randrange(width)
    return f"{text}[{low}]" if dice.random() < 0.5 else f"{text}[{low}:{dice.randint(low + 1, width)}]"


class Targets:
    """The targets of one design; with `is_computed` those that are chosen by what signals are, too."""

    def __init__(self, dice, shapes, is_computed):
        self.dice, self.shapes, self.is_computed = dice, shapes, is_computed

    def whole(self, s, known):
        """A value that is a target, with its width: a signal, or what a view has."""
        if not s.shape.is_view:
            return s.name, s.width
        text, shape = value_in(self.dice, s.name, s.shape, Text(self.dice, known).index)
        return text, shape.width

    def fixed(self, s, known):
        """A target in a signal: the whole, a slice, a bit, or a view in it."""
        if s.shape.is_view and self.dice.random() < 0.25:
            return walk_into(self.dice, s.name, s.shape, Text(self.dice, known).index, 0.5)[0]
        text, width = self.whole(s, known)
        if self.shapes and width and self.dice.random() < 0.1:
            return self.seen_as(text, width, known)
        return part_of(self.dice, text, width)

    def seen_as(self, text, width, known):
        """A field of a view that is made of a target, where a layout is no wider."""
        fitting = [layout for layout in self.shapes.layouts if layout.width <= width]
        if not fitting:
            return text
        layout = self.dice.choice(fitting)
        return value_in(self.dice, f"{layout.text}({text}[0:{layout.width}])", layout, Text(self.dice, known).index)[0]

    def computed(self, s, others, known):
        """A target that is chosen by what signals are."""
        text = Text(self.dice, known, self.shapes)
        base, width = self.whole(s, known)
        kind = self.dice.randrange(5)
        if kind == 0:
            off, so = text.value(1)
            return f"{base}.bit_select(({off})[0:{min(3, so[0])}], {self.dice.randint(0, 4)})"
        if kind == 1:
            off, so = text.value(1)
            return f"{base}.word_select(({off})[0:{min(2, so[0])}], {self.dice.randint(0, 4)})"
        if kind == 2 and others:
            i, si = text.value(1)
            return f"Array([{base}, {self.dice.choice(others).name}])[({i})[0:{min(2, si[0])}]]"
        if kind == 3 and others:
            return f"Cat({base}, {self.fixed(self.dice.choice(others), known)})"
        return f"{base}.as_signed()" if width else base

    def any_of(self, s, others, known):
        if self.is_computed and self.dice.random() < 0.4:
            return self.computed(s, others, known)
        return self.fixed(s, known)
