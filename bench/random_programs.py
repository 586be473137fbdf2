"""Programs that are derived from the grammar at random, each of which CPython takes as well.

It is a third reading of the grammar, beside the definitions and CPython: it makes texts, and knows no trees. What the
grammar derives and CPython refuses (bench/lines/accepted_here_alone.txt) is left out.
"""
import random

NAMES = ["a", "b", "c", "x1", "_", "é", "变量", "ctx", "not_in"]
NUMBERS = ["0", "7", "1_000", "0x1F", "0o17", "0b101", "340282366920938463463374607431768211455"]
DECIMALS = ["1.5", "2e3", "1.50e-3", "00.5", "1E+06"]
STRINGS = ["'a'", '"b\\n"', "'''c'd'''", "'a' \"b\"", "'\\\\'", "'é\\t'", "''", "'# ('", "'a\\\nb'", '"""a\n"b" """']
FORMATS = ["f'a{b}'", "f'{{}}'", "f'{a}{é}c'", "f''", "f\"{a}'\"", "f'''{c}\n'''"]
LEVELS = [["|"], ["^"], ["&"], ["<<", ">>"], ["+", "-"], ["*", "//", "%"]]
COMPARISONS = ["<", "<=", ">", ">=", "==", "!=", "in", "not in", "is", "is not"]
AUGMENTS = ["+=", "-=", "*=", "//=", "%=", "&=", "|=", "^=", "<<=", ">>="]


class Maker:
    """Makes one program."""

    def __init__(self, seed):
        self.random = random.Random(seed)
        self.inside = 0
        self.is_async, self.in_function, self.in_loop = False, False, False

    def chance(self, share):
        """Whether something of this share of all cases is made."""
        return self.random.random() < share

    def pick(self, items):
        """One of them."""
        return self.random.choice(items)

    def gap(self, may_lack=True):
        """What stands between two tokens."""
        if self.inside and self.chance(0.03):
            return self.pick(["\n", " # c )\n  ", "\n\n    "])
        if self.chance(0.01):
            return " \\\n  "
        return self.pick(["", " ", "  "] if may_lack else [" ", " ", "\t"])

    def word(self, word):
        """A keyword between two gaps."""
        return self.gap(False) + word + self.gap(False)

    def sign(self, sign):
        """A sign between two gaps."""
        return self.word(sign) if sign.isidentifier() or " " in sign else self.gap() + sign + self.gap()

    def bracketed(self, begin, make, end):
        """What is made, between brackets."""
        self.inside += 1
        text = begin + self.gap() + make() + self.gap() + end
        self.inside -= 1
        return text

    def listed(self, make, least=1, most=3, trailing=True):
        """Some of what is made, with commas."""
        items = [make() for _ in range(self.random.randint(least, most))]
        comma = "," if items and trailing and self.chance(0.3) else ""
        return (self.gap() + "," + self.gap()).join(items) + comma

    # expressions; `deep` is how deep more of them may stand in one another

    def expr(self, deep):
        """An expression."""
        first = self.disjunction(deep)
        if deep < 1 or not self.chance(0.1):
            return first
        return first + self.word("if") + self.disjunction(deep - 1) + self.word("else") + self.expr(deep - 1)

    def exprs(self, deep):
        """Expressions with commas, or one."""
        return self.expr(deep) if self.chance(0.85) else self.listed(lambda: self.expr(deep - 1))

    def chain(self, make, signs, share):
        """Operands with signs of one level."""
        text = make()
        while self.chance(share):
            text += self.sign(self.pick(signs)) + make()
        return text

    def disjunction(self, deep):
        """An expression that is no `if else`."""
        return self.chain(lambda: self.chain(lambda: self.negation(deep), ["and"], 0.05), ["or"], 0.05)

    def negation(self, deep):
        """A comparison, or `not`."""
        if deep > 0 and self.chance(0.1):
            return "not" + self.gap(False) + self.negation(deep - 1)
        return self.chain(lambda: self.level(0, deep), COMPARISONS, 0.1)

    def level(self, k, deep):
        """Operands of a level of the signs between numbers."""
        if k == len(LEVELS):
            return self.unary(deep)
        return self.chain(lambda: self.level(k + 1, deep), LEVELS[k], 0.05)

    def unary(self, deep):
        """An operand with signs before it, or a power."""
        if deep > 0 and self.chance(0.1):
            return self.pick(["-", "+", "~"]) + self.gap() + self.unary(deep - 1)
        base = self.awaited(deep)
        if deep > 0 and self.chance(0.05):
            return base + self.sign("**") + self.unary(deep - 1)
        return base

    def awaited(self, deep):
        """A primary, with `await` before it where that may stand."""
        if self.is_async and self.chance(0.1):
            return "await" + self.gap(False) + self.primary(deep)
        return self.primary(deep)

    def primary(self, deep):
        """An atom with what trails it."""
        text = self.atom(deep)
        while self.chance(0.25):
            text += self.trailer(deep)
        return text

    def trailer(self, deep):
        """What may stand behind a primary."""
        kind = self.pick(["name", "call", "index"])
        if kind == "name" or deep < 1:
            return " ." + self.gap() + self.pick(NAMES)
        if kind == "call":
            return self.gap() + self.bracketed("(", lambda: self.arguments(deep - 1, True), ")")
        return self.gap() + self.bracketed("[", lambda: self.index(deep - 1), "]")

    def arguments(self, deep, may_be_each):
        """The arguments of a call or a class."""
        if may_be_each and self.chance(0.1):
            return self.expr(deep) + self.each(deep)
        given = [self.pick(["", "", "*"]) + self.expr(deep) for _ in range(self.random.randint(0, 2))]
        named = [self.pick(NAMES) + self.sign("=") + self.expr(deep) for _ in range(self.random.randint(0, 2))]
        comma = "," if given + named and self.chance(0.2) else ""
        return (self.gap() + "," + self.gap()).join(given + named) + comma

    def index(self, deep):
        """An index or a slice."""
        if self.chance(0.5):
            return self.expr(deep)
        bounds = [self.expr(deep) if self.chance(0.6) else "" for _ in range(self.random.randint(2, 3))]
        return self.sign(":").join(bounds)

    def each(self, deep):
        """The `for` of a comprehension."""
        condition = self.word("if") + self.disjunction(deep) if self.chance(0.4) else ""
        return self.word("for") + self.targets(deep) + self.word("in") + self.disjunction(deep) + condition

    def atom(self, deep):
        """An atom."""
        kind = self.pick(["leaf", "leaf", "round", "square", "curly"]) if deep > 0 else "leaf"
        if kind == "leaf":
            return self.leaf()
        if kind == "round":
            return self.bracketed("(", lambda: "" if self.chance(0.1) else self.exprs(deep - 1), ")")
        if kind == "square":
            return self.bracketed("[", lambda: self.items(lambda: self.expr(deep - 1), deep), "]")
        pair = lambda: self.expr(deep - 1) + self.sign(":") + self.expr(deep - 1)
        return self.bracketed("{", lambda: self.items(pair, deep), "}")

    def items(self, make, deep):
        """The inside of a list or a dict."""
        if self.chance(0.3):
            return make() + self.each(deep - 1)
        return self.listed(make, least=0)

    def leaf(self):
        """An atom without brackets."""
        kind = self.pick(["name"] * 6 + ["number", "decimal", "time", "string", "format", "constant"])
        if kind == "time":
            return self.pick(NUMBERS) + self.sign("/") + self.pick(NUMBERS + DECIMALS)
        leaves = {"name": NAMES, "number": NUMBERS, "decimal": DECIMALS, "string": STRINGS, "format": FORMATS}
        return self.pick(leaves.get(kind, ["None", "True", "False"]))

    # targets

    def target(self, deep):
        """A target without commas."""
        kind = self.pick(["name", "name", "attribute", "index", "round"])
        if kind == "name" or deep < 1:
            return self.pick(NAMES)
        if kind == "round":
            return self.bracketed("(", lambda: self.target(deep - 1), ")")
        base = self.pick(NAMES + STRINGS + ["()", "[]", "None"]) + self.trailer(deep - 1) * self.random.randint(0, 1)
        if kind == "attribute":
            return base + " ." + self.pick(NAMES)
        return base + self.bracketed("[", lambda: self.index(deep - 1), "]")

    def targets(self, deep):
        """Targets with commas, or one."""
        if self.chance(0.7):
            return self.target(deep)
        if self.chance(0.3):
            return self.bracketed("(", lambda: self.targets(deep - 1), ")")
        return self.listed(lambda: self.target(deep - 1))

    # statements

    def simple(self):
        """A statement without a block."""
        kinds = ["pass", "assert", "raise", "import", "assign", "assign", "annotate", "augment", "evaluate", "evaluate"]
        kinds += ["return"] * self.in_function + ["break", "continue"] * self.in_loop
        return getattr(self, "make_" + self.pick(kinds))()

    def make_pass(self):
        return "pass"

    def make_break(self):
        return "break"

    def make_continue(self):
        return "continue"

    def make_return(self):
        return "return" + (self.gap(False) + self.exprs(2) if self.chance(0.7) else "")

    def make_assert(self):
        return "assert" + self.gap(False) + self.expr(2) + (self.sign(",") + self.expr(2) if self.chance(0.4) else "")

    def make_raise(self):
        return "raise" + self.gap(False) + self.expr(2)

    def make_import(self):
        path = self.sign(".").join(self.pick(NAMES) for _ in range(self.random.randint(1, 3)))
        name = lambda: self.pick(NAMES) + (self.word("as") + self.pick(NAMES) if self.chance(0.3) else "")
        in_brackets = lambda: self.bracketed("(", lambda: self.listed(name), ")")
        names = self.pick([lambda: "*", lambda: self.listed(name, trailing=False), in_brackets])
        return "from" + self.gap(False) + path + self.word("import") + names()

    def make_assign(self):
        return "".join(self.targets(2) + self.sign("=") for _ in range(self.random.randint(1, 2))) + self.exprs(2)

    def make_annotate(self):
        value = self.sign("=") + self.exprs(2) if self.chance(0.5) else ""
        return self.target(2) + self.sign(":") + self.expr(2) + value

    def make_augment(self):
        return self.target(2) + self.sign(self.pick(AUGMENTS)) + self.exprs(2)

    def make_evaluate(self):
        return self.exprs(3)

    def stmts(self, indent, most, nest):
        """The lines of a block."""
        return "".join(self.line(indent, nest) for _ in range(self.random.randint(1, most)))

    def line(self, indent, nest):
        """A statement with what stands before it."""
        noise = self.pick(["\n", "# c\n", "      # c\n", "  \n"]) if self.chance(0.15) else ""
        if nest < 1 or self.chance(0.6):
            return noise + indent + self.simple() + self.pick(["\n", "\n", "  # c\n", "\r\n"])
        return noise + self.compound(indent, nest)

    def compound(self, indent, nest):
        """A statement with a block."""
        kind = self.pick(["if", "while", "for", "with", "def", "class"])
        return getattr(self, "make_" + kind)(indent, nest)

    def suite(self, indent, nest, **around):
        """The colon of a head, and what stands behind it."""
        before = {name: getattr(self, name) for name in around}
        self.__dict__.update(around)
        if self.chance(0.4):
            text = self.gap() + ":" + self.gap() + self.simple() + "\n"
        else:
            text = self.gap() + ":\n" + self.stmts(indent + " " * self.random.randint(1, 4), 2, nest - 1)
        self.__dict__.update(before)
        return text

    def make_if(self, indent, nest):
        text = indent + "if" + self.gap(False) + self.expr(2) + self.suite(indent, nest)
        while self.chance(0.3):
            text += indent + "elif" + self.gap(False) + self.expr(2) + self.suite(indent, nest)
        return text + (indent + "else" + self.suite(indent, nest) if self.chance(0.4) else "")

    def make_while(self, indent, nest):
        return indent + "while" + self.gap(False) + self.expr(2) + self.suite(indent, nest, in_loop=True)

    def make_for(self, indent, nest):
        head = "for" + self.gap(False) + self.targets(2) + self.word("in") + self.exprs(2)
        return indent + head + self.suite(indent, nest, in_loop=True)

    def make_with(self, indent, nest):
        bound = self.word("as") + self.target(2) if self.chance(0.5) else ""
        return indent + "with" + self.gap(False) + self.expr(2) + bound + self.suite(indent, nest)

    def make_def(self, indent, nest):
        is_async = self.chance(0.3)
        head = ("async" + self.gap(False) if is_async else "") + "def" + self.gap(False) + self.pick(NAMES)
        head += self.bracketed("(", self.params, ")")
        head += self.sign("->") + self.expr(2) if self.chance(0.3) else ""
        return indent + head + self.suite(indent, nest, in_function=True, is_async=is_async, in_loop=False)

    def params(self):
        """Parameters of different names, those without a default first."""
        names = self.random.sample(NAMES, self.random.randint(0, 4))
        star = self.random.randint(0, len(names)) if names and self.chance(0.3) else len(names)
        first_default = self.random.randint(0, star)
        has_default = lambda k: first_default <= k < star or k >= star and self.chance(0.5)
        texts = [self.param(name, has_default(k)) for k, name in enumerate(names)]
        texts[star:star] = ["*"] if star < len(names) else []
        return (self.gap() + "," + self.gap()).join(texts) + ("," if texts and self.chance(0.2) else "")

    def param(self, name, has_default):
        """A parameter."""
        annotation = self.sign(":") + self.expr(1) if self.chance(0.3) else ""
        return name + annotation + (self.sign("=") + self.expr(1) if has_default else "")

    def make_class(self, indent, nest):
        bases = self.bracketed("(", lambda: self.arguments(2, False), ")") if self.chance(0.6) else ""
        head = "class" + self.gap(False) + self.pick(NAMES) + bases
        return indent + head + self.suite(indent, nest, in_function=False, is_async=False, in_loop=False)


def programs(seed, count):
    """So many programs, the same at each run."""
    return [Maker(f"{seed} {number}").stmts("", 3, 2) for number in range(count)]
