"""Random enumerations and layouts for random_designs.py: how they are declared, and the ways into a view."""
KEYS = ["op", "val", "x", "y", "low", "high", "tag", "eq", "class", "in"]
WORDS = {"class", "in"}
METHODS = {"eq"}
MEMBERS = ["IDLE", "ADD", "SUB", "NOP", "LAST"]
NUMBERS = [0, 1, 2, 3, 5, 7, 12, -1, -2, -5]
WIDEST = 40


class Shape:
    """A shape as it is written, with its width and sign."""
    is_view, members, fields = False, (), ()

    def __init__(self, text, width, signed=False):
        self.text, self.width, self.signed = text, width, signed


class Enumeration(Shape):
    def __init__(self, text, width, signed, members):
        super().__init__(text, width, signed)
        self.members = members


class Layout(Shape):
    """Fields are pairs of a key and a shape; those of an array have numbers as keys."""
    is_view = True

    def __init__(self, text, width, fields, is_array=False):
        super().__init__(text, width)
        self.fields, self.is_array = fields, is_array


def plain(width, signed=False):
    return Shape(f"signed({width})" if signed else str(width), width, signed)


def least(numbers):
    """The width and sign of the least shape that holds these numbers."""
    if any(n < 0 for n in numbers):
        return max((-n - 1 if n < 0 else n).bit_length() + 1 for n in numbers), True
    return max(n.bit_length() for n in numbers), False


def enumeration(dice, name):
    """The lines of an enumeration's class, and its shape."""
    names = dice.sample(MEMBERS, dice.randint(1, 4))
    members = [(n, dice.choice(NUMBERS)) for n in names]
    width, signed = least([number for _, number in members])
    keyword = ""
    if dice.random() < 0.5:
        width += dice.choice([0, 0, 1, 2])
        if not signed and dice.random() < 0.3:
            width, signed = width + 1, True
        keyword = f", shape={plain(width, signed).text}"
    head = f"class {name}(enum.{dice.choice(['Enum', 'IntEnum'])}{keyword}):"
    return [head] + [f"    {n} = {number}" for n, number in members], Enumeration(name, width, signed, members)


class Shapes:
    """The enumerations and layouts of one design, and the lines that declare them."""

    def __init__(self, dice):
        self.dice, self.lines, self.enumerations, self.layouts = dice, [], [], []
        for k in range(dice.choice([1, 1, 2])):
            lines, shape = enumeration(dice, f"E{k}")
            self.declare(lines)
            self.enumerations.append(shape)
        for k in range(dice.choice([1, 2, 2, 3])):
            self.layouts.append(self.named_layout(f"L{k}"))

    def declare(self, lines):
        self.lines += [""] + lines if lines[0].startswith("class") else lines

    def any_of(self, shapes):
        return self.dice.choice(shapes) if shapes else self.plain_shape()

    def plain_shape(self):
        signed = self.dice.random() < 0.3
        return plain(self.dice.choice([1, 1, 2, 3, 4, 5] if signed else [0, 1, 1, 2, 3, 4, 6]), signed)

    def signal_shape(self):
        """A shape for a signal: a layout, an enumeration or a plain one."""
        kind = self.dice.random()
        return self.any_of(self.layouts) if kind < 0.55 else self.any_of(self.enumerations) if kind < 0.75 else self.plain_shape()

    def field_shape(self, depth):
        kind = self.dice.random()
        if kind < 0.5:
            return self.plain_shape()
        if kind < 0.7:
            return self.any_of(self.enumerations)
        return self.any_of(self.layouts) if kind < 0.9 or depth == 0 else self.layout(depth - 1)

    def named_layout(self, name):
        """A layout that is declared under a name, as a class or as a layout that is bound."""
        for _ in range(20):
            shape = self.structure(1) if self.dice.random() < 0.5 else self.layout(1)
            if shape.width <= WIDEST:
                break
        else:
            shape = Layout("data.StructLayout({})", 0, [])
        if shape.text is None:
            self.declare([f"class {name}(data.Struct):"] + [f"    {key}: {field.text}" for key, field in shape.fields])
        else:
            self.declare([f"{name} = {shape.text}"])
        shape.text = name
        return shape

    def members_of(self, depth, keys):
        count = self.dice.choice([1, 2, 2, 3, 3, 4])
        return [(key, self.field_shape(depth)) for key in self.dice.sample(keys, count)]

    def structure(self, depth):
        """The layout of a class, which has no text of its own."""
        fields = self.members_of(depth, [key for key in KEYS if key not in WORDS])
        return Layout(None, sum(field.width for _, field in fields), fields)

    def layout(self, depth):
        kind = self.dice.choice(["StructLayout", "UnionLayout", "ArrayLayout", "ArrayLayout"])
        if kind == "ArrayLayout":
            item, length = self.field_shape(depth), self.dice.choice([0, 1, 2, 2, 3, 3, 4])
            return Layout(f"data.ArrayLayout({item.text}, {length})", item.width * length, [(k, item) for k in range(length)], True)
        fields = self.members_of(depth, KEYS)
        widths = [field.width for _, field in fields]
        written = ", ".join(f'"{key}": {field.text}' for key, field in fields)
        return Layout(f"data.{kind}({{{written}}})", sum(widths) if kind == "StructLayout" else max(widths), fields)


def step_into(dice, text, shape, index):
    """A field of a view, by its name or its number; `index` writes a value that chooses an item."""
    key, field = dice.choice(shape.fields)
    if shape.is_array:
        chosen = index() if dice.random() < 0.5 else key - dice.choice([0, 0, len(shape.fields)])
        return f"{text}[{chosen}]", field
    by_name = key not in WORDS and key not in METHODS and dice.random() < 0.7
    return (f"{text}.{key}" if by_name else f'{text}["{key}"]'), field


def walk_into(dice, text, shape, index, stops):
    """A way into a view that ends, each time with chance `stops`, before it comes to a value."""
    while shape.is_view and shape.fields and dice.random() >= stops:
        text, shape = step_into(dice, text, shape, index)
    return text, shape


def value_in(dice, text, shape, index):
    """A value in a view: a field that is one, or the value under a view."""
    text, shape = walk_into(dice, text, shape, index, 0.15)
    return (f"{text}.as_value()", plain(shape.width)) if shape.is_view else (text, shape)
