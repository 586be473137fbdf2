"""The tree that CPython makes of a text, in the notation of trees that the program syntax_table prints.

The notation is told in crates/syntax_table/src/main.rt. Here a tree is a list: a head, a place where it has one, and parts,
each a tree or a word. CPython nests a chain to the left and shows no brackets round one expression, but a node begins at
its first token, so both are told by the places: `a + b + c` is a sum whose left side begins where it begins itself, and
`(a + b) + c` is none. So chains and trailers are put together where the places agree.

CPython reads some texts in another way. Before it reads, these are put in other words of the same width:

- a quotient of two numbers is one operand, as in `x * 1/2`: a name stands in its place;
- `1.e5` is the number 1 and an attribute, and no decimal: a name stands in the number's place;
- `with (a, b):` has one tuple, and not two contexts: `if` stands in the place of `with`.

Three things are not in CPython's tree and are taken from its tokens: the digits of a decimal, the place of a lone `*`
among parameters, and whether a class without arguments has brackets.
"""
import ast
import io
import re
import tokenize

SIGNS = {
    **{ast.Mult: "*", ast.FloorDiv: "//", ast.Mod: "%", ast.Add: "+", ast.Sub: "-", ast.LShift: "<<", ast.RShift: ">>"},
    **{ast.BitAnd: "&", ast.BitXor: "^", ast.BitOr: "|", ast.Lt: "<", ast.LtE: "<=", ast.Gt: ">", ast.GtE: ">="},
    **{ast.Eq: "==", ast.NotEq: "!=", ast.In: "in", ast.NotIn: "not-in", ast.Is: "is", ast.IsNot: "is-not"},
    **{ast.And: "and", ast.Or: "or", ast.USub: "-", ast.UAdd: "+", ast.Invert: "~"},
}
LEVELS = [
    (ast.Mult, ast.FloorDiv, ast.Mod),
    (ast.Add, ast.Sub),
    (ast.LShift, ast.RShift),
    (ast.BitAnd,),
    (ast.BitXor,),
    (ast.BitOr,),
]


def spelled(text):
    """A text in escapes: printable ASCII stands for itself, but for the backslash and the quote."""
    short = {ord("\\"): "\\\\", ord("\n"): "\\n", ord("\t"): "\\t"}
    return "".join(short.get(b, chr(b) if 32 <= b < 127 and b != 34 else f"\\x{b:02X}") for b in text.encode("utf-8"))


def quoted(text):
    """A string in escapes, between quotes."""
    return f'"{spelled(text)}"'


def decimal(literal):
    """The digits and the exponent of a decimal."""
    whole, fraction, exponent = re.fullmatch(r"([0-9]+)(?:\.([0-9]+))?(?:[eE]([-+]?[0-9]+))?", literal).groups("")
    return f"{int(whole + fraction)}e{int(exponent or 0) - len(fraction)}"


def amount(literal):
    """A number or a decimal."""
    return str(int(literal, 0)) if re.fullmatch(r"[0-9]+|0[xob]\w+|[0-9_]+", literal) else decimal(literal)


class Source:
    """A text as CPython is to read it, and what its tokens tell besides."""

    def __init__(self, text):
        self.rows = [list(row) for row in text.split("\n")]
        self.quotients, self.numbers, self.contexts, self.stars, self.classes = {}, {}, set(), [], set()
        skipped = (tokenize.COMMENT, tokenize.NL)
        tokens = [t for t in tokenize.generate_tokens(io.StringIO(text, newline="").readline) if t.type not in skipped]
        for k in range(len(tokens) - 2):
            self.look(tokens, k)
        self.text = "\n".join("".join(row) for row in self.rows)
        self.bytes = [row.encode("utf-8") for row in self.text.split("\n")]

    def look(self, tokens, k):
        """Notes what begins at a token."""
        first, second, third = tokens[k : k + 3]
        if first.type == tokenize.NUMBER and second.string == "/" and third.type == tokenize.NUMBER:
            self.quotients[first.start] = [str(int(first.string, 0)), amount(third.string)]
            self.cover(first, "_")
            self.cover(second, " ")
            self.cover(third, " ")
        elif first.type == tokenize.NUMBER and re.match(r"[0-9]+\.[eE]", first.string):
            self.numbers[first.start] = [first.string.split(".")[0]]
            self.cover(first, "_", len(first.string.split(".")[0]))
        elif first.string == "with" and second.string == "(" and not self.binds(tokens, k):
            self.contexts.add(first.start)
            self.cover(first, "if  ")
        elif first.string == "*" and tokens[k - 1].string in ("(", ",") and second.string == ",":
            self.stars.append(first.start)
        elif first.string == "class" and third.string == "(":
            self.classes.add(first.start)

    def cover(self, token, by, width=None):
        """Puts other characters in the place of a token."""
        row, column = token.start
        width = len(token.string) if width is None else width
        self.rows[row - 1][column : column + width] = (by * width)[:width]

    @staticmethod
    def binds(tokens, k):
        """Whether the head that begins at a token has an `as`."""
        depth = 0
        for token in tokens[k:]:
            depth += (token.string in "([{") - (token.string in ")]}")
            if depth == 0 and token.string in (":", "as"):
                return token.string == "as"
        return False

    def spot(self, node):
        """The row, and the column in characters from 0, of a node's first token."""
        return node.lineno, len(self.bytes[node.lineno - 1][: node.col_offset].decode("utf-8"))

    def literal(self, node):
        """The one token of a node."""
        return self.bytes[node.lineno - 1][node.col_offset : node.end_col_offset].decode("utf-8")


class Trees:
    """Makes the trees of a source."""

    def __init__(self, source):
        self.source = source

    def place(self, node):
        """The place of a node."""
        row, column = self.source.spot(node)
        return f"{row}:{column + 1}"

    def node(self, head, node, *parts):
        """A tree at the place of a node."""
        return [head, self.place(node), *parts]

    # expressions

    def expr(self, e):
        """The tree of an expression."""
        return getattr(self, type(e).__name__)(e)

    def exprs(self, es):
        """The trees of expressions, one after the other."""
        return [self.expr(e) for e in es]

    def perhaps(self, e):
        """The tree of an expression, where there is one."""
        return [] if e is None else [self.expr(e)]

    def Name(self, e):
        spot = self.source.spot(e)
        if spot in self.source.quotients:
            return self.node("quotient", e, *self.source.quotients[spot])
        if spot in self.source.numbers:
            return self.node("number", e, *self.source.numbers[spot])
        return self.node("name", e, spelled(e.id))

    def Constant(self, e):
        if isinstance(e.value, str):
            return self.node("string", e, quoted(e.value))
        if e.value is None or isinstance(e.value, bool):
            return self.node("constant", e, str(e.value))
        if isinstance(e.value, int):
            return self.node("number", e, str(e.value))
        return self.node("decimal", e, decimal(self.source.literal(e)))

    def JoinedStr(self, e):
        pieces = [quoted(v.value) if isinstance(v, ast.Constant) else spelled(v.value.id) for v in e.values]
        return self.node("format", e, *pieces)

    def Tuple(self, e):
        return self.node("tuple", e, *self.exprs(e.elts))

    def List(self, e):
        return self.node("list", e, *self.exprs(e.elts))

    def Dict(self, e):
        return self.node("dict", e, *[["pair", self.expr(k), self.expr(v)] for k, v in zip(e.keys, e.values)])

    def each(self, generators):
        """The one `for` of a comprehension."""
        [only] = generators
        assert not only.is_async and len(only.ifs) < 2
        return ["each", self.expr(only.target), self.expr(only.iter), *self.exprs(only.ifs)]

    def ListComp(self, e):
        return self.node("list", e, self.expr(e.elt), self.each(e.generators))

    def DictComp(self, e):
        return self.node("dict", e, ["pair", self.expr(e.key), self.expr(e.value)], self.each(e.generators))

    def Await(self, e):
        return self.node("await", e, self.expr(e.value))

    def BinOp(self, e):
        if isinstance(e.op, ast.Pow):
            return self.node("power", e, self.expr(e.left), self.expr(e.right))
        [level] = [level for level in LEVELS if isinstance(e.op, level)]
        links, first = [], e
        while isinstance(first, ast.BinOp) and isinstance(first.op, level) and self.place(first) == self.place(e):
            links.insert(0, [SIGNS[type(first.op)], self.expr(first.right)])
            first = first.left
        return self.node("binary", e, self.expr(first), *links)

    def UnaryOp(self, e):
        if isinstance(e.op, ast.Not):
            return self.node("not", e, self.expr(e.operand))
        return self.node("unary", e, SIGNS[type(e.op)], self.expr(e.operand))

    def Compare(self, e):
        links = [[SIGNS[type(op)], self.expr(operand)] for op, operand in zip(e.ops, e.comparators)]
        return self.node("comparison", e, self.expr(e.left), *links)

    def BoolOp(self, e):
        links = [[SIGNS[type(e.op)], self.expr(operand)] for operand in e.values[1:]]
        return self.node("boolean", e, self.expr(e.values[0]), *links)

    def IfExp(self, e):
        return self.node("choice", e, self.expr(e.body), self.expr(e.test), self.expr(e.orelse))

    # what trails a primary

    def Attribute(self, e):
        trailers, first = [], e
        while isinstance(first, (ast.Attribute, ast.Call, ast.Subscript)) and self.place(first) == self.place(e):
            trailers.insert(0, self.trailer(first))
            first = first.func if isinstance(first, ast.Call) else first.value
        return self.node("trailed", e, self.expr(first), *trailers)

    Call = Subscript = Attribute

    def trailer(self, e):
        """The last trailer of a primary."""
        if isinstance(e, ast.Attribute):
            return ["attribute", spelled(e.attr)]
        if isinstance(e, ast.Call):
            return self.call(e.args, e.keywords)
        if not isinstance(e.slice, ast.Slice):
            return ["index", self.expr(e.slice)]
        bounds = (e.slice.lower, e.slice.upper, e.slice.step)
        return ["slice", *["-" if bound is None else self.expr(bound) for bound in bounds]]

    def call(self, args, keywords):
        """The arguments of a call or a class."""
        if len(args) == 1 and isinstance(args[0], ast.GeneratorExp):
            return ["call", self.expr(args[0].elt), self.each(args[0].generators)]
        given = [["starred", self.expr(a.value)] if isinstance(a, ast.Starred) else self.expr(a) for a in args]
        return ["call", *given, *[["keyword", spelled(k.arg), self.expr(k.value)] for k in keywords]]

    # statements

    def stmts(self, body):
        """The trees of statements, one after the other."""
        return [getattr(self, type(s).__name__)(s) for s in body]

    def block(self, body):
        """A block of statements."""
        return ["block", *self.stmts(body)]

    def Pass(self, s):
        return self.node("pass", s)

    def Break(self, s):
        return self.node("break", s)

    def Continue(self, s):
        return self.node("continue", s)

    def Return(self, s):
        return self.node("return", s, *self.perhaps(s.value))

    def Assert(self, s):
        return self.node("assert", s, self.expr(s.test), *self.perhaps(s.msg))

    def Raise(self, s):
        assert s.cause is None
        return self.node("raise", s, self.expr(s.exc))

    def ImportFrom(self, s):
        assert s.level == 0
        path = ["path", *[spelled(name) for name in s.module.split(".")]]
        if s.names[0].name == "*":
            return self.node("import-all", s, path)
        return self.node("import", s, path, *[self.imported(alias) for alias in s.names])

    def imported(self, alias):
        """An imported name."""
        return self.node("imported", alias, spelled(alias.name), *([spelled(alias.asname)] if alias.asname else []))

    def Assign(self, s):
        return self.node("assign", s, ["targets", *self.exprs(s.targets)], self.expr(s.value))

    def AnnAssign(self, s):
        return self.node("annotate", s, self.expr(s.target), self.expr(s.annotation), *self.perhaps(s.value))

    def AugAssign(self, s):
        return self.node("augment", s, SIGNS[type(s.op)], self.expr(s.target), self.expr(s.value))

    def Expr(self, s):
        return self.node("evaluate", s, self.expr(s.value))

    def If(self, s):
        if self.source.spot(s) in self.source.contexts:
            return self.node("with", s, self.expr(s.test), self.block(s.body))
        branches, rest = [["branch", self.expr(s.test), self.block(s.body)]], s.orelse
        while len(rest) == 1 and isinstance(rest[0], ast.If) and self.begins(rest[0], "elif"):
            branches.append(["branch", self.expr(rest[0].test), self.block(rest[0].body)])
            rest = rest[0].orelse
        return self.node("if", s, *branches, *([["else", *self.stmts(rest)]] if rest else []))

    def begins(self, node, word):
        """Whether a word stands at the place of a node."""
        return self.source.bytes[node.lineno - 1][node.col_offset :].startswith(word.encode())

    def While(self, s):
        assert not s.orelse
        return self.node("while", s, self.expr(s.test), self.block(s.body))

    def For(self, s):
        assert not s.orelse
        return self.node("for", s, self.expr(s.target), self.expr(s.iter), self.block(s.body))

    def With(self, s):
        [item] = s.items
        bound = [] if item.optional_vars is None else [["as", self.expr(item.optional_vars)]]
        return self.node("with", s, self.expr(item.context_expr), *bound, self.block(s.body))

    def FunctionDef(self, s):
        head = "async-function" if isinstance(s, ast.AsyncFunctionDef) else "function"
        result = [] if s.returns is None else [["result", self.expr(s.returns)]]
        params = ["params", *self.params(s, s.args)]
        return self.node("def", s, self.node(head, s, spelled(s.name), params, *result, self.block(s.body)))

    AsyncFunctionDef = FunctionDef

    def params(self, function, args):
        """The parameters of a function."""
        assert not args.posonlyargs and args.vararg is None and args.kwarg is None
        defaults = [None] * (len(args.args) - len(args.defaults)) + args.defaults
        trees = [self.param(a, d) for a, d in zip(args.args, defaults)]
        if args.kwonlyargs:
            row, column = min(star for star in self.source.stars if star > self.source.spot(function))
            trees.append(["star", f"{row}:{column + 1}"])
        return trees + [self.param(a, d) for a, d in zip(args.kwonlyargs, args.kw_defaults)]

    def param(self, arg, default):
        """A parameter."""
        annotation = [] if arg.annotation is None else [["annotation", self.expr(arg.annotation)]]
        value = [] if default is None else [["default", self.expr(default)]]
        return self.node("param", arg, spelled(arg.arg), *annotation, *value)

    def ClassDef(self, s):
        has_brackets = self.source.spot(s) in self.source.classes
        arguments = [self.call(s.bases, s.keywords)] if has_brackets else []
        return self.node("class", s, spelled(s.name), *arguments, self.block(s.body))


def tree_of(text):
    """The tree of a text that CPython takes."""
    source = Source(text)
    return ["program", *Trees(source).stmts(ast.parse(source.text).body)]


def parts_of(tree):
    """The tree that is written in the notation."""
    stack = [[]]
    for word in re.findall(r'"[^"]*"|[()]|[^\s()"]+', tree):
        if word == "(":
            stack.append([])
        elif word == ")":
            done = stack.pop()
            stack[-1].append(done)
        else:
            stack[-1].append(word)
    [[whole]] = stack
    return whole


def written(tree):
    """The notation of a tree."""
    return tree if isinstance(tree, str) else "(" + " ".join(written(part) for part in tree) + ")"


def difference(one, other):
    """The first node at which two trees differ, in each of them, if any does."""
    if one == other:
        return None
    if isinstance(one, str) or isinstance(other, str) or one[:1] != other[:1] or len(one) != len(other):
        return one, other
    a, b = next((a, b) for a, b in zip(one, other) if a != b)
    return (one, other) if isinstance(a, str) or isinstance(b, str) else difference(a, b)
