"""Programs that run, made at random by one who knows what the values are: for runs_agree.py.

Each name has a kind, and an expression is made for the kind that is wanted, so most statements do what they say. In some
programs a share of the leaves is spoiled: a leaf that raises, or None where a number is wanted; then parts stand on lines of
their own, so that the line at which a program raises tells which part was met first. What the tool leaves out or has otherwise
on purpose (docs/LANGUAGE.md, docs/RULES.md, docs/DECISIONS.md) is not made: no equality of dicts, ranges and functions, no order
of texts, no text of a list, no key but numbers and texts, no iterator that is kept, no number that can grow past 128 bits.
"""
import random

RAISES = [
    "missing", "[0][1]", "{}['k']", "(1 // 0)", "(1).up", "(None + 1)", "len(3)", "zero(1)", "'ab'[5]", "(1 << -1)", "[].pop()", "range(0, 1, 0)",
    "[1].insert('a', 0)", "{[]: 0}", "(-'a')", "sum('k', 1)", "int([])", "range('a')", "abs(None)", "[i for i in 5]", "{i: 1 for i in [[]]}",
    "dict([(1, 2, 3)])", "zip([1], 2)", "enumerate(4)", "list(7)", "max()", "min([])", "super()", "'a'.up", "[1][None]", "f(*5)", "f(k=1, j=2)",
]
ARITHMETIC = ["+", "+", "-", "-", "*", "//", "%", "&", "|", "^"]
COMPARISONS = ["<", "<=", ">", ">=", "==", "!="]
AUGMENTS = ["+=", "-=", "*=", "//=", "%=", "&=", "|=", "^="]
KEYS = ["'a'", "'b'", "'cd'", "0", "1", "2", "True", "-1"]
BOUND = {
    "int": "abcdxyz", "bool": "abcdxyz", "text": ["word", "line"], "list": ["row", "more", "all_"], "dict": ["table", "by_key"],
    "pair": ["both", "two"],
}
NEW = "'new'"
TEXTS = ["''", "'a'", "'ab'", "'xyz'", "'a\\n'", "\"it's\""]


def indented(lines):
    return ["    " + line for line in lines]


class Place:
    """Where statements stand: the names there by kind, and what may be done."""

    def __init__(self, names, functions, classes, kind="module", loops=0):
        self.names, self.functions, self.classes = dict(names), list(functions), list(classes)
        self.kind, self.loops = kind, loops

    def inner(self, kind=None, loops=None):
        return Place(self.names, self.functions, self.classes, kind or self.kind, self.loops if loops is None else loops)

    def of(self, kind):
        return [name for name, k in self.names.items() if k == kind]


class Function:
    def __init__(self, name, params, keywords):
        self.name, self.params, self.keywords = name, params, keywords


class Class:
    def __init__(self, name, base, attributes, methods, starts):
        self.name, self.base, self.attributes, self.methods, self.starts = name, base, attributes, methods, starts

    def all_attributes(self):
        return self.attributes + (self.base.all_attributes() if self.base else [])

    def all_methods(self):
        return self.methods + (self.base.all_methods() if self.base else [])

    def first(self):
        """How many arguments its `__init__` takes behind the object, or None where no class has one."""
        if self.starts is not None or not self.base:
            return self.starts
        return self.base.first()


class Maker:
    """Makes one program."""

    def __init__(self, seed):
        self.dice = random.Random(seed)
        self.spoils = self.dice.random() < 0.4
        self.share = 0.0
        self.made = 0

    def chance(self, share):
        return self.dice.random() < share

    def pick(self, items):
        return self.dice.choice(items)

    def new(self, stem):
        self.made += 1
        return f"{stem}{self.made}"

    # ---- expressions: of a kind, `deep` of them in one another

    def value(self, at, kind, deep=2):
        if self.chance(self.share):
            return self.pick(RAISES)
        return getattr(self, "of_" + kind)(at, deep)

    def name(self, at, kind, otherwise):
        names = at.of(kind)
        return self.pick(names) if names and self.chance(0.7) else otherwise

    def of_int(self, at, deep):
        if self.chance(self.share):
            return "None"
        if deep < 1:
            return self.name(at, "int", str(self.dice.randint(0, 9)))
        ways = ["leaf", "binary", "binary", "chain", "unary", "shift", "power", "choice", "item", "length", "built", "call", "method", "attribute", "get"]
        return getattr(self, "int_" + self.pick(ways))(at, deep - 1)

    def int_leaf(self, at, deep):
        return self.of_int(at, 0)

    def int_binary(self, at, deep):
        sign = self.pick(ARITHMETIC)
        other = str(self.dice.randint(1, 9)) if sign in ("//", "%") and self.chance(0.8) else self.value(at, "int", deep)
        return f"({self.value(at, 'int', deep)} {sign} {other})"

    def int_chain(self, at, deep):
        parts = [self.value(at, "int", deep) for _ in range(3)]
        return f"({parts[0]} {self.pick('+-')} {parts[1]} {self.pick('++--%')} {parts[2]}) % 97"

    def int_unary(self, at, deep):
        return f"{self.pick(['-', '+', '~'])}{self.value(at, 'int', 0)}"

    def int_shift(self, at, deep):
        return f"({self.value(at, 'int', deep)} {self.pick(['<<', '>>'])} {self.dice.randint(0, 4)})"

    def int_power(self, at, deep):
        return f"({self.value(at, 'int', deep)} % 7) ** {self.dice.randint(0, 4)}"

    def int_choice(self, at, deep):
        return f"({self.value(at, 'int', deep)} if {self.value(at, 'bool', deep)} else {self.value(at, 'int', deep)})"

    def int_item(self, at, deep):
        rows = at.of("list")
        if not rows:
            return self.int_binary(at, deep)
        return f"{self.pick(rows)}[{self.pick(['0', '-1', '0', self.value(at, 'int', deep)])}]"

    def int_length(self, at, deep):
        return f"len({self.value(at, self.pick(['list', 'text', 'dict', 'pair']), deep)})"

    def int_built(self, at, deep):
        one, other = self.value(at, "int", deep), self.value(at, "int", deep)
        row = self.value(at, "list", deep)
        truth = self.value(at, "bool", deep)
        return self.pick([
            f"abs({one})", f"min({one}, {other})", f"max({one}, {other}, 3)", f"sum({row})", f"sum({row}, {one})", f"int({truth})",
            f"len(range({one}, {other}))",
        ])

    def int_call(self, at, deep):
        if not at.functions:
            return self.int_unary(at, deep)
        f = self.pick(at.functions)
        return f"{f.name}({self.arguments(at, f, deep)})"

    def arguments(self, at, f, deep):
        """Arguments that meet the parameters of a function, or, rarely, do not."""
        given, named = [], []
        for name, optional in f.params:
            if optional and self.chance(0.4):
                break
            given.append(self.value(at, "int", deep))
        for name, optional in f.params[len(given):] + f.keywords:
            if not optional or self.chance(0.4):
                named.append(f"{name}={self.value(at, 'int', deep)}")
        self.dice.shuffle(named)
        if self.chance(self.share):
            named.append(self.pick(["nobody=1", f"{f.params[0][0]}=2" if f.params and given else "other=1"]))
        if len(given) > 1 and self.chance(0.2):
            given = [given[0], "*[" + ", ".join(given[1:]) + "]"]
        return self.apart(given + [part for k, part in enumerate(named) if part.split("=")[0] not in [n.split("=")[0] for n in named[:k]]])

    def apart(self, parts):
        """Parts with commas, each on a line of its own where something may be spoiled."""
        if self.spoils and len(parts) > 1 and self.chance(0.4):
            return "\n" + "".join(f"  {part},\n" for part in parts)
        return ", ".join(parts)

    def int_method(self, at, deep):
        objects = [(name, k) for name, k in at.names.items() if isinstance(k, Class) and k.all_methods()]
        if not objects:
            return self.int_unary(at, deep)
        name, k = self.pick(objects)
        f = self.pick(k.all_methods())
        inner = self.arguments(at, f, deep)
        if self.chance(0.15):
            return f"{k.name}.{f.name}({name}, {inner})"
        return f"{name}.{f.name}({inner})"

    def int_attribute(self, at, deep):
        objects = [(name, k) for name, k in at.names.items() if isinstance(k, Class) and k.all_attributes()]
        if not objects:
            return self.int_unary(at, deep)
        name, k = self.pick(objects)
        return f"{name}.{self.pick(k.all_attributes())}"

    def int_get(self, at, deep):
        of = self.value(at, "dict", 0)
        return f"{of}[{self.key(at, deep)}]" if self.chance(0.2) else f"{of}.get({self.key(at, deep)}, {self.value(at, 'int', deep)})"

    def key(self, at, deep):
        return self.pick(KEYS) if self.chance(0.7) else f"({self.value(at, 'int', deep)}) % 5"

    def of_bool(self, at, deep):
        if deep < 1:
            return self.name(at, "bool", self.pick(["True", "False"]))
        one, other = self.value(at, "int", deep - 1), self.value(at, "int", deep - 1)
        row, pair = self.value(at, "list", deep - 1), self.value(at, "pair", deep - 1)
        return self.pick([
            f"({one} {self.pick(COMPARISONS)} {other})", f"({one} < {other} {self.pick(COMPARISONS)} {self.value(at, 'int', 0)})",
            f"({one} {self.pick(['in', 'not in'])} {row})", f"(not {self.value(at, 'bool', deep - 1)})",
            f"({self.value(at, 'bool', deep - 1)} {self.pick(['and', 'or'])} {self.value(at, 'bool', deep - 1)})",
            f"({row} {self.pick(['==', '!='])} {self.value(at, 'list', deep - 1)})", f"({pair} == {self.value(at, 'pair', deep - 1)})",
            f"({self.value(at, 'text', deep - 1)} {self.pick(['==', '!=', 'in'])} {self.value(at, 'text', 0)})",
            f"({self.key(at, 0)} in {self.value(at, 'dict', deep - 1)})", f"bool({self.value(at, self.pick(['int', 'list', 'text', 'dict']), deep - 1)})",
            f"({one} is {self.pick(['', 'not '])}None)",
        ])

    def of_text(self, at, deep):
        if deep < 1 or self.chance(0.3):
            return self.name(at, "text", self.pick(TEXTS))
        text = self.value(at, "text", deep - 1)
        counts = at.of("count")
        return self.pick([
            f"({text} + {self.value(at, 'text', deep - 1)})", f"{self.name(at, 'text', self.pick(TEXTS))}[{self.bounds(at)}]",
            f"str(({self.value(at, 'int', deep - 1)}) + 0)", "f'<{" + self.pick(counts) + "}>'" if counts else text,
        ])

    def bounds(self, at):
        parts = [self.pick(["", "0", "1", "-1", "2", "None", self.value(at, "int", 0)]) for _ in range(self.pick([2, 2, 3]))]
        if len(parts) == 3 and parts[2] == "0":
            parts[2] = "-2"
        return ":".join(parts)

    def of_list(self, at, deep):
        if deep < 1 or self.chance(0.2):
            return self.name(at, "list", f"[{self.dice.randint(0, 9)}, {self.dice.randint(0, 9)}]")
        row = self.value(at, "list", deep - 1)
        return self.pick([
            lambda: "[" + self.apart([self.value(at, "int", deep - 1) for _ in range(self.dice.randint(0, 3))]) + "]",
            lambda: f"({row} + {self.value(at, 'list', deep - 1)})", lambda: f"({row} * {self.dice.randint(-1, 3)})",
            lambda: f"{self.name(at, 'list', '[1, 2, 3]')}[{self.bounds(at)}]",
            lambda: self.comprehended(at, deep), lambda: self.comprehended(at, deep),
            lambda: f"list(range({self.dice.randint(0, 5)}))",
            lambda: f"list(reversed({row}))", lambda: f"list({self.value(at, 'dict', 0)}.values())",
        ])()

    def comprehended(self, at, deep):
        targets, source, inner = self.each(at, deep)
        condition = f" if {self.value(inner, 'bool', deep - 1)}" if self.chance(0.4) else ""
        return f"[{self.value(inner, 'int', deep - 1)} for {targets} in {source}{condition}]"

    def each(self, at, deep):
        """Targets, what they go over, and where they are known."""
        inner = at.inner("comprehension")
        kind = self.pick(["list", "range", "items", "enumerate", "zip", "pairs"])
        if kind in ("list", "range"):
            name = self.pick("ijk")
            inner.names[name] = "int"
            return name, self.value(at, "list", deep - 1) if kind == "list" else f"range({self.dice.randint(0, 4)})", inner
        one, other = self.pick([("i", "j"), ("k", "i")])
        inner.names[one] = inner.names[other] = "int"
        row = self.copied(at, deep)
        if kind == "items":
            inner.names[one] = "any"
            return f"{one}, {other}", f"list({self.value(at, 'dict', 0)}.items())", inner
        if kind == "enumerate":
            return f"{one}, {other}", self.pick([f"enumerate({row})", f"enumerate({row}, {self.dice.randint(-1, 3)})"]), inner
        if kind == "zip":
            return f"({one}, {other})", f"zip({row}, {self.copied(at, deep)})", inner
        return f"{one}, {other}", f"[{self.value(at, 'pair', deep - 1)}, (1, 2)]", inner

    def copied(self, at, deep):
        """A list that nothing changes while it is gone over: an iterator of CPython would see it."""
        row = self.value(at, "list", deep - 1)
        return row + "[:]" if row.isidentifier() else row

    def of_dict(self, at, deep):
        if deep < 1 or self.chance(0.2):
            return self.name(at, "dict", "{'a': 1, 2: 3}")
        if self.chance(0.4):
            targets, source, inner = self.each(at, deep)
            keys = inner.of("int")
            key = f"{self.pick(keys)} % 3" if keys else self.pick(KEYS)
            return "{" + f"{key}: {self.value(inner, 'int', deep - 1)} for {targets} in {source}" + "}"
        if self.chance(0.2):
            pair = f"({self.key(at, 0)}, {self.value(at, 'int', 0)})"
            return f"dict({self.pick([self.name(at, 'dict', '{}'), f'[{pair}]'])})"
        return "{" + self.apart([f"{self.key(at, 0)}: {self.value(at, 'int', deep - 1)}" for _ in range(self.dice.randint(0, 3))]) + "}"

    def of_pair(self, at, deep):
        if deep < 1 or self.chance(0.2):
            return self.name(at, "pair", "(1, 2)")
        return f"({self.value(at, 'int', deep - 1)}, {self.value(at, 'int', deep - 1)})"

    # ---- statements

    def program(self):
        at = Place({}, [], [])
        lines = ["zero = 0", "def f(a):", "    return a"]
        at.names["zero"] = "count"
        for _ in range(self.dice.randint(4, 12)):
            self.share = 0.06 if self.spoils and len(lines) > 12 else 0.0
            lines += self.statement(at, 2)
        return "\n".join(lines) + "\n"

    def block(self, at, nest, least=1):
        lines = []
        for _ in range(self.dice.randint(least, 3)):
            lines += self.statement(at, nest)
        return indented(lines or ["pass"])

    def statement(self, at, nest):
        ways = ["assign"] * 4 + ["unpack", "item", "augment", "augment", "annotate", "grow", "alias", "count", "attribute", "leaf", "checked", "shared"]
        if nest > 0:
            ways += ["chosen", "loop", "loop", "repeat", "function", "function", "klass", "klass", "object", "object"]
        return "\n".join(getattr(self, "make_" + self.pick(ways))(at, nest)).split("\n")

    def kind(self):
        return self.pick(["int", "int", "bool", "text", "list", "list", "dict", "pair"])

    def bound(self, at, kind):
        """A name that is bound to a value of a kind."""
        name = self.pick(BOUND[kind]) if self.chance(0.7) else self.new(kind[0])
        at.names[name] = kind
        return name

    def make_assign(self, at, nest):
        kind = self.kind()
        text = self.value(at, kind)
        return [f"{self.bound(at, kind)} = " + (f"{self.bound(at, kind)} = " if self.chance(0.1) else "") + text]

    def make_unpack(self, at, nest):
        parts = [self.value(at, "int") for _ in range(3)]
        a, b, c = self.dice.sample("abcdxyz", 3)
        at.names |= dict.fromkeys((a, b, c), "int")
        wrong = ", 4" if self.chance(self.share) else ""
        nested = f"({a}, {b}), {c} = [{parts[0]}, {parts[1]}{wrong}], {parts[2]}"
        return [self.pick([f"{a}, {b}, {c} = {', '.join(parts)}{wrong}", nested, f"{a}, {b}, {c} = range(3)"])]

    def make_item(self, at, nest):
        rows, dicts = at.of("list"), at.of("dict")
        if dicts and self.chance(0.6):
            return [f"{self.pick(dicts)}[{self.key(at, 1)}] = {self.value(at, 'int')}"]
        if not rows:
            return self.make_assign(at, nest)
        row = self.pick(rows)
        where = self.pick(["0", "-1", f"{self.value(at, 'int', 1)} % len({row})"])
        return [f"if {row}:", f"    {row}[{where}] = {self.value(at, 'int')}"]

    def make_augment(self, at, nest):
        choices = [(name, "int") for name in at.of("int")] + [(name, "list") for name in at.of("list")] * 2
        if not choices or at.kind == "function":
            return self.make_assign(at, nest)
        name, kind = self.pick(choices)
        if kind == "list":
            if self.chance(0.3):
                return [f"if {name}:", f"    {name}[0] {self.pick(AUGMENTS)} {self.value(at, 'int', 1)}"]
            return [self.pick([f"{name} += {self.value(at, self.pick(['list', 'pair']))}", f"{name} *= {self.dice.randint(-1, 2)}", f"{name} = {name}[:20]"])]
        return [f"{name} {self.pick(AUGMENTS)} {self.value(at, 'int')}", f"{name} %= 1009"]

    def make_annotate(self, at, nest):
        text = self.value(at, "int")
        if at.kind == "function":
            local = self.pick(at.of("int") or ["z"])
            return [self.pick([f"({local}): missing", f"{local}: missing = {text}", f"({local}): 1 // 0 = {text}"])]
        name = self.bound(at, "int")
        return [self.pick([
            f"{name}: int = {text}", f"({name}): int = {text}", f"{name}: {self.value(at, 'bool', 1)} = {text}",
            f"w: {text}\n{name} = 1", f"(w): {text}\n{name} = 2",
        ])]

    def make_grow(self, at, nest):
        rows = at.of("list")
        if not rows:
            return self.make_assign(at, nest)
        row, one = self.pick(rows), self.value(at, "int", 1)
        return [self.pick([
            f"{row}.append({one})", f"{row}.extend({self.value(at, 'list', 1)})", f"{row}.insert({one}, {self.value(at, 'int', 1)})",
            f"if {row}:\n    z = {row}.pop({self.pick(['', '0', '-1'])})",
        ])]

    def make_alias(self, at, nest):
        kind = self.pick(["list", "dict"])
        names = at.of(kind)
        if not names:
            return self.make_assign(at, nest)
        old = self.pick(names)
        return [f"{self.bound(at, kind)} = {old}"]

    def make_count(self, at, nest):
        name = self.new("n")
        text = self.value(at, "int", 1)
        at.names[name] = "count"
        return [f"{name} = ({text}) % 89"]

    def make_leaf(self, at, nest):
        return [self.pick([f"print({self.value(at, 'int')}, {self.value(at, 'text', 1)})", self.value(at, "list"), "pass"])]

    def make_checked(self, at, nest):
        holds = self.value(at, "bool", 1)
        return [f"assert {holds} or True, {self.value(at, 'int', 1)}" if not self.chance(self.share) else f"assert not {holds}, {self.value(at, 'text', 1)}"]

    def make_shared(self, at, nest):
        """A function that changes what a comprehension goes over."""
        names = at.of("dict")
        if not names:
            return self.make_assign(at, nest)
        d, f, key = self.pick(names), self.new("h"), self.pick(["k", "7", NEW])
        made = self.pick([f"[{f}(k) for k in {d}]", "{k: " + f"{f}(k) for k in {d}" + "}", f"[{f}(k) for k in {d} if {self.value(at, 'bool', 1)}]"])
        return [f"def {f}(k):", f"    {d}[{key}] = 1", "    return k", f"made = {made}"]

    def make_attribute(self, at, nest):
        objects = [(name, k) for name, k in at.names.items() if isinstance(k, Class) and k.all_attributes()]
        if not objects:
            return self.make_assign(at, nest)
        name, k = self.pick(objects)
        attribute = self.pick(k.all_attributes())
        return [f"{name}.{attribute} {self.pick(['=', '=', '+=', '-='])} {self.value(at, 'int')}"]

    def make_chosen(self, at, nest):
        lines = [f"if {self.value(at, 'bool')}:"] + self.block(at.inner(), nest - 1)
        if self.chance(0.4):
            lines += [f"elif {self.value(at, self.pick(['bool', 'int', 'list']))}:"] + self.block(at.inner(), nest - 1)
        return lines + (["else:"] + self.block(at.inner(), nest - 1) if self.chance(0.5) else [])

    def make_loop(self, at, nest):
        targets, source, inner = self.each(at, 1)
        inner.kind, inner.loops = at.kind, at.loops + 1
        lines = self.block(inner, nest - 1)
        grown = at.of("dict")
        if self.chance(0.15) and grown:
            d = self.pick(grown)
            targets, source = "k", d
            lines = [f"    {d}[{self.pick(['k', '9', NEW])}] = 1"] + lines
        if self.chance(0.4):
            lines += indented([f"if {self.value(inner, 'bool', 1)}:", "    " + self.pick(["break", "continue"])] + (["z = 3"] if self.chance(0.3) else []))
        return [f"for {targets} in {source}:"] + lines

    def make_repeat(self, at, nest):
        name = self.new("t")
        inner = at.inner(loops=at.loops + 1)
        return [f"{name} = 0", f"while {name} < {self.dice.randint(1, 4)}:", f"    {name} += 1"] + self.block(inner, nest - 1)

    def make_function(self, at, nest, method=None):
        names = self.dice.sample(["p", "q", "r", "s"], self.dice.randint(0, 3))
        cut = self.dice.randint(0, len(names))
        params = [(name, False) for name in names[:cut]] + [(name, True) for name in names[cut:]]
        keywords = [("key", self.chance(0.5))] if self.chance(0.3) else []
        f = Function(method or self.new("g"), params, keywords)
        texts = ["self"] * bool(method) + [self.param(at, *param) for param in params] + ["*"] * bool(keywords) + [self.param(at, *param) for param in keywords]
        arrow = f" -> {self.value(at, 'int', 0)}" if self.chance(0.2) else ""
        inner = at.inner("function", 0)
        inner.names = {name: kind for name, kind in at.names.items() if at.kind != "class"}
        inner.names |= {name: "int" for name, _ in params + keywords}
        lines = self.block(inner, nest - 1, least=0) + indented([f"return {self.value(inner, 'int')}"])
        if not method:
            at.functions.append(f)
        self.last = f
        return [f"def {f.name}({', '.join(texts)}){arrow}:"] + lines

    def param(self, at, name, optional):
        note = f": {self.value(at, 'int', 0)}" if self.chance(0.2) else ""
        return name + note + (f"={self.value(at, 'int', 1)}" if optional else "")

    def make_klass(self, at, nest):
        bases = [k for k in at.classes]
        base = self.pick(bases) if bases and self.chance(0.5) else None
        name = self.new("K")
        inner = at.inner("class", 0)
        k = Class(name, base, [], [], None)
        lines = []
        for attribute in self.dice.sample(["u", "v", "w"], self.dice.randint(1, 2)):
            note = self.pick(["", "", ": int"])
            lines.append(f"{attribute}{note} = {self.value(inner, 'int', 1)}")
            k.attributes.append(attribute)
            inner.names[attribute] = "int"
        if self.chance(0.4):
            lines.append(f"rows = {self.comprehended(inner if self.chance(0.2) else at, 2)}")
        if self.chance(0.5):
            k.starts = self.dice.randint(0, 2)
            lines += self.starting(at, k, base)
        for method in self.dice.sample(["m", "o"], self.dice.randint(0, 2)):
            lines += self.make_function(inner, nest, method)
            if base and self.chance(0.3) and method in [f.name for f in base.all_methods()]:
                above = next(f for f in base.all_methods() if f.name == method)
                lines[-1] += f" + super().{method}({self.arguments(Place({}, [], []), above, 0)})"
            k.methods.append(self.last)
        head = f"({base.name})" if base else self.pick(["", "()"])
        if self.chance(self.share):
            head = self.pick(["(3)", "(None)", "(missing)", f"({self.pick(RAISES)})", "(k=1)", f"(k={self.pick(RAISES)})"])
        at.classes.append(k)
        return [f"class {name}{head}:"] + indented("\n".join(lines).split("\n"))

    def starting(self, at, k, base):
        """An `__init__`, which calls that of its base where there is one, or that of every object."""
        names = ["p", "q"][: k.starts]
        inner = Place({name: "int" for name in names}, [], [])
        given = base.first() if base else None
        words = ", ".join(self.value(inner, "int", 0) for _ in range(given or 0))
        calls = [f"super().__init__({words})", "pass"] + ([f"{base.name}.__init__(self, {words})"] if base else [])
        lines = [self.pick(calls), f"self.e = {self.value(inner, 'int', 1)}"]
        k.attributes.append("e")
        return [f"def __init__({', '.join(['self'] + names)}):"] + indented(lines)

    def make_object(self, at, nest):
        if not at.classes:
            return self.make_klass(at, nest)
        k = self.pick(at.classes)
        count = k.first() or 0
        args = [self.value(at, "int", 1) for _ in range(count + (1 if self.chance(self.share) else 0))]
        name = self.new("k")
        lines = [f"{name} = {k.name}({self.apart(args)})"]
        at.names[name] = k
        if self.chance(0.2):
            lines.append(f"{name}.__init__({', '.join(args)})")
        elif self.chance(0.1) and k.first() is None:
            lines.append(f"z = {k.name}.__init__({self.pick([name, '3', name + ', 1'])})")
        return lines


def programs(seed, count):
    """So many programs, the same at each run."""
    return [Maker(f"{seed} {number}").program() for number in range(count)]
