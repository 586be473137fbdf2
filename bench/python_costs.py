"""What a program of the Python subset asks, comes to and costs, worked out over CPython's `ast`.

It was written from the rules of the language alone: one unit for each statement, literal, name, operator, call, attribute,
index, display, comprehension and `await` that is begun, for each turn of a loop, for each value that is unpacked and for
each pair that an equality compares, and the unit that reaches the budget is not carried out. bench/machine_table.py
compares the tables of bench/programs with it.
"""
import ast
import fractions
import math

import python_builtins
import python_private
from python_values import (
    Builtin, Class, Dict, Function, LONGEST, List, Object, Refusal, Thing, Time, Tuple,
    elements, in_quotes, is_key, shown, truth,
)

CALLS = 200
TAKES = {
    "Import": "give bind", "Attribute": "give text through", "CallThing": "give list call", "Iterate": "list",
    "InitBase": "bind", "BodyEnd": "give call", "Await": "give list",
}
SIGNS = {
    ast.Add: "+", ast.Sub: "-", ast.Mult: "*", ast.FloorDiv: "//", ast.Mod: "%", ast.Pow: "**", ast.LShift: "<<",
    ast.RShift: ">>", ast.BitAnd: "&", ast.BitOr: "|", ast.BitXor: "^", ast.USub: "-", ast.UAdd: "+", ast.Invert: "~",
    ast.Not: "not", ast.Eq: "==", ast.NotEq: "!=", ast.Lt: "<", ast.LtE: "<=", ast.Gt: ">", ast.GtE: ">=",
    ast.In: "in", ast.NotIn: "not in", ast.Is: "is", ast.IsNot: "is not",
}


class Stop(Exception):
    def __init__(self, cause, place):
        self.cause, self.place = cause, place


class Waits(Exception):
    """All answers are used up."""


class Begins(Exception):
    """A testbench begins where an answer would come."""

    def __init__(self, words):
        self.words = words


class Leaves(Exception):
    """A block is left before its end."""

    def __init__(self, how, value=None):
        self.how, self.value = how, value


def reachable(values):
    """All values that can be reached from some, by their numbers, so that none of them ends."""
    found, left = {}, list(values)
    while left:
        value = left.pop()
        if id(value) not in found:
            found[id(value)] = value
            left += inner(value)
    return found


def inner(value):
    """The values in a value."""
    if isinstance(value, (List, Tuple)):
        return value.items
    if isinstance(value, Dict):
        return list(value.items.values())
    if isinstance(value, Object):
        return [value.of, *value.attributes.values()]
    if isinstance(value, Class):
        return [value.base, *value.attributes.values()]
    if isinstance(value, Function):
        return [value.this, *value.defaults.values()]
    return []


class Scope:
    def __init__(self, parent, own, is_class=False):
        self.parent, self.own, self.is_class = parent, own, is_class
        self.names, self.bindings, self.notes = {}, [], []
        self.cell = None

    def class_body(self, own):
        """The scope of a class body made here, whose functions see a cell with the class, once it is there."""
        outside = Scope(self.seen(), set())
        outside.cell = []
        return Scope(outside, own, True)

    def class_round(self):
        """The class in whose body a function was defined, where there is one."""
        scope = self
        while scope and scope.cell is None:
            scope = scope.parent
        return scope.cell[0] if scope and scope.cell else None

    def seen(self):
        """The scope that functions made here see."""
        return self.parent if self.is_class else self


def target_names(node):
    if isinstance(node, ast.Name):
        return [node.id]
    if isinstance(node, ast.Tuple):
        return [name for item in node.elts for name in target_names(item)]
    return []


def bound_names(body):
    """The names that a body binds itself."""
    names = []
    for stmt in body:
        if isinstance(stmt, ast.Assign):
            names += [name for target in stmt.targets for name in target_names(target)]
        elif isinstance(stmt, ast.AugAssign) or isinstance(stmt, ast.AnnAssign) and (stmt.simple or stmt.value is not None):
            names += target_names(stmt.target)
        elif isinstance(stmt, ast.For):
            names += target_names(stmt.target) + bound_names(stmt.body)
        elif isinstance(stmt, (ast.If, ast.While)):
            names += bound_names(stmt.body) + bound_names(stmt.orelse)
        elif isinstance(stmt, ast.With):
            vars_ = stmt.items[0].optional_vars
            names += (target_names(vars_) if vars_ else []) + bound_names(stmt.body)
        elif isinstance(stmt, (ast.FunctionDef, ast.AsyncFunctionDef, ast.ClassDef)):
            names.append(stmt.name)
        elif isinstance(stmt, ast.ImportFrom):
            names += [alias.asname or alias.name for alias in stmt.names]
    return names


class Here:
    """What belongs to the function that runs."""

    def __init__(self, scope, first=None):
        self.scope, self.first = scope, first


class Run:
    def __init__(self, text, budget, answers):
        self.lines = text.splitlines()
        self.tree = python_private.tree_of(text)
        self.budget, self.used, self.calls = budget, 0, 0
        self.answers = list(answers)
        self.said, self.requests = [], []
        self.module = Scope(None, set())
        self.here = Here(self.module)
        self.builtins = {}
        self.made_texts = self.made_items = 0
        self.frozen = {}

    # ---- the whole

    def told(self):
        """All that comes, and the cost."""
        work = self.body
        try:
            while work:
                words = self.comes_of(work)
                work = words and self.testbench(*[self.meant(word) for word in words])
        except Waits:
            pass
        return " / ".join(self.said) + f" cost {self.used}"

    def body(self):
        self.block(self.tree.body)
        names = list(self.module.names.items())
        return self.ask("BodyEnd", [v for _, v in names], [n for n, _ in names], (1, 1))[1]

    def testbench(self, callee, ctx):
        """The call of a function with a thing, over all that was made."""
        self.frozen = self.frozen or reachable([*self.module.names.values(), *(v for vals, _ in self.requests for v in vals)])
        self.here, self.calls = Here(self.module), 0
        place = self.place(callee.node) if isinstance(callee, Function) else (1, 1)
        return lambda: self.called_alone(callee, ctx, place)

    def called_alone(self, callee, ctx, place):
        self.at(place, python_builtins.wants, self.is_async(callee))
        return self.enter(callee, [ctx], {}, place)

    def comes_of(self, work):
        """Says what work comes to, and again for each answer behind it; gives the words of a testbench that begins instead."""
        try:
            last = f"ended {shown(work())}"
        except Stop as stop:
            last = f"stopped {stop.cause} {stop.place[0]}:{stop.place[1]}"
        except Begins as begins:
            return begins.words
        self.said.append(last)
        while self.answers:
            kind, *words = self.answers.pop(0).split()
            if kind == "bench":
                return words
            self.said.append(last)
        return None

    def change(self, value, place):
        """What is frozen is not changed."""
        self.at(place, python_builtins.wants, id(value) not in self.frozen)

    def place(self, node):
        line = self.lines[node.lineno - 1].encode()
        return node.lineno, len(line[: node.col_offset].decode()) + 1

    def spend(self, units, place):
        if self.used + units >= self.budget:
            self.used = self.budget
            raise Stop("spent", place)
        self.used += units

    def at(self, place, work, *args):
        """What is worked out at a place, or its refusal there."""
        try:
            return work(*args)
        except Refusal as refusal:
            raise Stop(str(refusal), place) from None

    # ---- what is made

    def text(self, value, place):
        """A string that was made."""
        if len(value) > 4096:
            raise Stop("limit", place)
        self.made_texts += len(value)
        if self.made_texts > 16777216:
            raise Stop("limit", place)
        return value

    def count(self, items, place):
        """So many items more, in one value of so many."""
        if items > LONGEST:
            raise Stop("limit", place)
        self.grow(items, place)

    def grow(self, items, place):
        self.made_items += items
        if self.made_items > 4194304:
            raise Stop("limit", place)

    def fresh(self, value, place):
        """A value that may be new, counted."""
        if isinstance(value, str):
            return self.text(value, place)
        if isinstance(value, (List, Tuple, Dict)):
            self.count(len(value.items), place)
        return value

    # ---- requests

    def tell(self, act, vals, names, place):
        self.requests.append((vals, names))
        if act == "BodyEnd":
            inner = ", ".join(f"{n}={shown(v)}" for n, v in zip(names, vals))
        else:
            inner = ", ".join(shown(v) for v in vals)
            if names:
                inner += "; " + ", ".join(in_quotes(n) for n in names)
        self.said.append(f"{act}({inner}) {place[0]}:{place[1]}")
        if not self.answers:
            raise Waits
        words = self.answers.pop(0).split()
        if words[0] == "bench":
            raise Begins(words[1:])
        return words

    def ask(self, act, vals, names, place):
        """Asks, until an answer is no call."""
        takes = TAKES.get(act, "give").split()
        told = act
        while True:
            kind, *words = self.tell(told, vals, names, place)
            if kind == "refuse":
                raise Stop(words[0], place)
            if kind not in takes:
                raise Stop("raised", place)
            if kind != "call":
                return kind, self.answer(kind, words, place)
            callee, *args = [self.meant(word) for word in words]
            self.at(place, python_builtins.wants, not self.is_async(callee))
            value = self.enter(callee, args, {}, place)
            told, vals, names, place = "Returned", [value], [], self.place(callee.node)

    def answer(self, kind, words, place):
        if kind == "text":
            return self.text(words[0].replace("\\s", " ").replace("\\n", "\n").replace("\\\\", "\\"), place)
        if kind == "list":
            return self.fresh(Tuple([self.meant(word) for word in words]), place)
        if kind == "bind":
            return [(n, self.meant(v)) for n, v in zip(words[::2], words[1::2])]
        return self.meant(words[0])

    def meant(self, word):
        constants = {"None": None, "True": True, "False": False}
        if word in constants:
            return constants[word]
        if word in ("ceil_log2", "bits_for"):
            return Builtin(word)
        if word.startswith("#"):
            return Thing(int(word[1:]))
        if "." in word:
            r, k = word.split(".")
            return self.requests[int(r)][0][int(k)]
        if ":" in word:
            r, name = word.split(":")
            vals, names = self.requests[int(r)]
            return vals[names.index(name)]
        return int(word)

    # ---- names

    def read(self, name, place):
        scope = self.here.scope
        if name in scope.names:
            return scope.names[name]
        if name in scope.own:
            if not scope.is_class:
                raise Stop("raised", place)
            scope = self.module
        while True:
            if name in scope.names and not (scope.is_class and scope is not self.here.scope):
                return scope.names[name]
            if name in scope.own and not scope.is_class:
                raise Stop("raised", place)
            if scope.parent is None:
                return self.builtin(name, place)
            scope = scope.parent

    def builtin(self, name, place):
        if name == "__name__":
            return "__main__"
        if name in python_builtins.NAMES:
            return self.builtins.setdefault(name, Builtin(name))
        raise Stop("raised", place)

    def bind(self, name, value):
        self.here.scope.names[name] = value
        self.here.scope.bindings.append((name, value))

    # ---- statements

    def block(self, body):
        for stmt in body:
            place = self.place(stmt)
            self.spend(1, place)
            getattr(self, "do_" + type(stmt).__name__)(stmt, place)

    def do_Pass(self, stmt, place):
        pass

    def do_Break(self, stmt, place):
        raise Leaves("break")

    def do_Continue(self, stmt, place):
        raise Leaves("continue")

    def do_Return(self, stmt, place):
        raise Leaves("return", None if stmt.value is None else self.value(stmt.value))

    def do_Raise(self, stmt, place):
        raise Stop("raised", place)

    def do_Expr(self, stmt, place):
        self.value(stmt.value)

    def do_Assert(self, stmt, place):
        if not self.test(stmt.test):
            if stmt.msg:
                self.value(stmt.msg)
            raise Stop("assert", place)

    def do_ImportFrom(self, stmt, place):
        for alias in stmt.names:
            if alias.name == "*" and self.here.scope is not self.module:
                raise Stop("raised", place)
            kind, value = self.ask("Import", [], [stmt.module, alias.name], place)
            if (kind == "bind") != (alias.name == "*"):
                return
            if kind == "bind":
                for name, v in value:
                    self.bind(name, v)
            else:
                self.bind(alias.asname or alias.name, value)

    def do_Assign(self, stmt, place):
        value = self.value(stmt.value, self.call_name(stmt.targets[0]))
        for target in stmt.targets:
            self.assign(target, value)

    def call_name(self, target):
        """The name that a call has which is assigned to a target."""
        if isinstance(target, ast.Name):
            return target.id
        return target.attr if isinstance(target, ast.Attribute) else ""

    def do_AnnAssign(self, stmt, place):
        if stmt.value is not None:
            self.assign(stmt.target, self.value(stmt.value, self.call_name(stmt.target)))
        elif not isinstance(stmt.target, ast.Name):
            self.reach(stmt.target)
        scope = self.here.scope
        if scope.is_class or scope.parent is None:
            note = self.value(stmt.annotation)
            if stmt.simple:
                scope.notes.append((stmt.target.id, note))

    def do_AugAssign(self, stmt, place):
        self.spend(1, place)
        target, sign = stmt.target, SIGNS[type(stmt.op)]
        where = self.place(target)
        self.spend(1, where)
        if isinstance(target, ast.Name):
            old = self.read(target.id, where)
            self.bind(target.id, self.augmented(sign, old, stmt.value, place))
        elif isinstance(target, ast.Attribute):
            of = self.value(target.value)
            old = self.attribute(of, target.attr, where)
            self.set_attribute(of, target.attr, self.augmented(sign, old, stmt.value, place), where)
        else:
            of = self.value(target.value)
            index = self.value(target.slice)
            old = self.index(of, index, where)
            self.set_index(of, index, self.augmented(sign, old, stmt.value, place), where)

    def augmented(self, sign, old, node, place):
        value = self.value(node)
        if isinstance(old, Thing) or isinstance(value, Thing):
            return self.ask("Operator", [old, value], [sign + "="], place)[1]
        if sign == "+" and isinstance(old, List):
            python_builtins.extend(self, old, value, place)
            return old
        if sign == "*" and isinstance(old, List):
            return self.repeat(old, value, place)
        return self.operate(sign, old, value, place)

    def repeat(self, row, times, place):
        """A list that becomes its items so many times; what it grows by is counted."""
        items = self.at(place, python_builtins.operated, "*", row, times, None).items
        self.change(row, place)
        if len(items) > LONGEST:
            raise Stop("limit", place)
        self.grow(max(0, len(items) - len(row.items)), place)
        row.items = items
        return row

    def do_If(self, stmt, place):
        if self.test(stmt.test):
            return self.block(stmt.body)
        if len(stmt.orelse) == 1 and self.is_elif(stmt.orelse[0]):
            return self.do_If(stmt.orelse[0], place)
        return self.block(stmt.orelse)

    def is_elif(self, stmt):
        line = self.lines[stmt.lineno - 1]
        return isinstance(stmt, ast.If) and line[stmt.col_offset :].startswith("elif")

    def do_While(self, stmt, place):
        while self.test(stmt.test):
            self.spend(1, place)
            if self.turn(stmt.body):
                break

    def turn(self, body):
        """Whether a turn ends its loop."""
        try:
            self.block(body)
        except Leaves as leaves:
            if leaves.how == "return":
                raise
            return leaves.how == "break"
        return False

    def do_For(self, stmt, place):
        for item in self.walk(self.value(stmt.iter), place):
            self.spend(1, place)
            self.assign(stmt.target, item)
            if self.turn(stmt.body):
                break

    def walk(self, value, place):
        """The elements as they are at each turn."""
        if isinstance(value, Thing):
            value = self.ask("Iterate", [value], [], place)[1]
        if isinstance(value, range):
            yield from value
        elif isinstance(value, (List, Tuple)):
            i = 0
            while i < len(value.items):
                yield value.items[i]
                i += 1
        elif isinstance(value, Dict):
            size, i = len(value.items), 0
            while i < size:
                yield list(value.items)[i]
                i += 1
                if len(value.items) != size:
                    raise Stop("raised", place)
        else:
            raise Stop("raised", place)

    def do_With(self, stmt, place):
        item = stmt.items[0]
        thing = self.value(item.context_expr)
        if not isinstance(thing, Thing):
            raise Stop("raised", place)
        _, value = self.ask("Enter", [thing], [], place)
        if item.optional_vars is not None:
            self.assign(item.optional_vars, value)
        left = None
        try:
            self.block(stmt.body)
        except Leaves as leaves:
            left = leaves
        self.ask("Leave", [thing], [], place)
        if left:
            raise left

    def do_FunctionDef(self, stmt, place):
        args = stmt.args
        optional = dict(zip([a.arg for a in args.args[len(args.args) - len(args.defaults) :]], args.defaults))
        optional |= {a.arg: d for a, d in zip(args.kwonlyargs, args.kw_defaults) if d is not None}
        defaults = {name: self.value(node) for name, node in optional.items()}
        for arg in args.args + args.kwonlyargs:
            if arg.annotation is not None:
                self.value(arg.annotation)
        if stmt.returns is not None:
            self.value(stmt.returns)
        self.bind(stmt.name, Function(stmt, defaults, self.here.scope.seen()))

    do_AsyncFunctionDef = do_FunctionDef

    def do_ClassDef(self, stmt, place):
        bases = self.positional(stmt.bases, place)
        keywords = self.by_keyword(stmt.keywords, place)
        base = bases[0] if bases else None
        outer = self.here
        self.here = Here(outer.scope.class_body(set(bound_names(stmt.body))))
        self.block(stmt.body)
        scope, self.here = self.here.scope, outer
        if len(bases) > 1 or not (not bases or isinstance(base, (Class, Thing))):
            raise Stop("raised", place)
        over = self.bottom(base)
        if keywords and not isinstance(over, Thing):
            raise Stop("raised", place)
        made = Class(base, dict(scope.names))
        self.grow(1 + len(made.attributes), place)
        scope.parent.cell.append(made)
        if isinstance(over, Thing):
            parts = [("=" + n, v) for n, v in keywords] + [(":" + n, v) for n, v in scope.notes]
            parts += [("." + n, v) for n, v in scope.bindings]
            _, made = self.ask("ClassMade", [made, base] + [v for _, v in parts], [stmt.name] + [n for n, _ in parts], place)
        self.bind(stmt.name, made)

    def bottom(self, base):
        while isinstance(base, Class):
            base = base.base
        return base

    # ---- targets

    def assign(self, target, value):
        place = self.place(target)
        if isinstance(target, ast.Name):
            self.bind(target.id, value)
        elif isinstance(target, ast.Tuple):
            items = list(self.walk(value, place)) if not isinstance(value, range) else self.few(value, target)
            if len(items) != len(target.elts):
                raise Stop("raised", place)
            self.spend(len(items), place)
            for node, item in zip(target.elts, items):
                self.assign(node, item)
        elif isinstance(target, ast.Attribute):
            self.spend(1, place)
            self.set_attribute(self.value(target.value), target.attr, value, place)
        else:
            self.spend(1, place)
            of = self.value(target.value)
            self.set_index(of, self.value(target.slice), value, place)

    def reach(self, target):
        """The parts of a target to which nothing goes."""
        self.value(target.value)
        if isinstance(target, ast.Subscript):
            if isinstance(target.slice, ast.Slice):
                raise Stop("raised", self.place(target))
            self.value(target.slice)

    def few(self, value, target):
        return list(value) if python_builtins.size(value) == len(target.elts) else []

    # ---- expressions

    def value(self, node, name=""):
        place = self.place(node)
        return getattr(self, "of_" + type(node).__name__)(node, place, name)

    def test(self, node):
        """Whether a test holds."""
        place = self.place(node)
        return self.at(place, truth, self.value(node))

    def of_Constant(self, node, place, name):
        self.spend(1, place)
        if isinstance(node.value, float):
            return self.time(fractions.Fraction(self.source(node)), place)
        if isinstance(node.value, str) and len(node.value) > 4096:
            raise Stop("limit", place)
        return node.value

    def source(self, node):
        line = self.lines[node.lineno - 1].encode()
        return line[node.col_offset : node.end_col_offset].decode().replace("_", "")

    def time(self, seconds, place):
        femtoseconds = math.floor(seconds * 10**15 / 2) * 2
        if not 0 <= femtoseconds < 2**63:
            raise Stop("raised", place)
        return Time(femtoseconds)

    def of_JoinedStr(self, node, place, name):
        self.spend(1, place)
        text = ""
        for piece in node.values:
            if isinstance(piece, ast.Constant):
                text += piece.value
                continue
            self.spend(1, place)
            value = self.read(piece.value.id, place)
            if isinstance(value, bool) or not isinstance(value, (int, str)):
                raise Stop("raised", place)
            text += str(value)
        return self.text(text, place)

    def of_Name(self, node, place, name):
        self.spend(1, place)
        return self.read(node.id, place)

    def of_Tuple(self, node, place, name):
        self.spend(1, place)
        return self.fresh(Tuple([self.value(item) for item in node.elts]), place)

    def of_List(self, node, place, name):
        self.spend(1, place)
        return self.fresh(List([self.value(item) for item in node.elts]), place)

    def of_Dict(self, node, place, name):
        self.spend(1, place)
        pairs = [(self.value(k), self.value(v)) for k, v in zip(node.keys, node.values)]
        return self.fresh(self.at(place, python_builtins.dict_of, pairs), place)

    def of_ListComp(self, node, place, name):
        self.spend(1, place)
        return self.fresh(List(self.comprehended(node, place, lambda: [self.value(node.elt)])), place)

    def of_DictComp(self, node, place, name):
        self.spend(1, place)
        pairs = self.comprehended(node, place, lambda: [self.pair(node, place)])
        return self.fresh(self.at(place, python_builtins.dict_of, pairs), place)

    def pair(self, node, place):
        key, value = self.value(node.key), self.value(node.value)
        if not is_key(key):
            raise Stop("raised", place)
        return key, value

    def comprehended(self, node, place, element):
        each = node.generators[0]
        source = self.value(each.iter)
        walk = self.walk(source, place)
        outer = self.here
        inner = Here(Scope(outer.scope.seen(), set(target_names(each.target))), outer.first)
        made = []
        for item in walk:
            self.here = inner
            self.spend(1, place)
            self.assign(each.target, item)
            if all(self.test(condition) for condition in each.ifs):
                made += element()
            self.here = outer
        self.here = outer
        return made

    def of_BinOp(self, node, place, name):
        self.spend(1, place)
        if isinstance(node.op, ast.Div):
            top, bottom = (fractions.Fraction(ast_number(self, part)) for part in (node.left, node.right))
            if bottom == 0:
                raise Stop("raised", place)
            return self.time(top / bottom, place)
        left = self.value(node.left)
        return self.operate_or_ask(SIGNS[type(node.op)], [left, self.value(node.right)], place)

    def of_UnaryOp(self, node, place, name):
        self.spend(1, place)
        sign = SIGNS[type(node.op)]
        value = self.value(node.operand)
        if sign == "not":
            return not self.at(place, truth, value)
        if isinstance(value, Thing):
            return self.ask("Operator", [value], [sign], place)[1]
        return self.at(place, python_builtins.turned, sign, value)

    def of_BoolOp(self, node, place, name):
        self.spend(len(node.values) - 1, place)
        for part in node.values[:-1]:
            value = self.value(part)
            if self.at(self.place(part), truth, value) == isinstance(node.op, ast.Or):
                return value
        return self.value(node.values[-1])

    def of_Compare(self, node, place, name):
        left = None
        for i, (op, part) in enumerate(zip(node.ops, node.comparators)):
            self.spend(1, place)
            left = self.value(node.left) if i == 0 else left
            right = self.value(part)
            holds = self.related(SIGNS[type(op)], left, right, place)
            if i + 1 < len(node.ops) and not self.at(place, truth, holds):
                return holds
            left = right
        return holds

    def of_IfExp(self, node, place, name):
        self.spend(1, place)
        return self.value(node.body if self.test(node.test) else node.orelse)

    def of_Await(self, node, place, name):
        self.spend(1, place)
        if isinstance(node.value, ast.Call):
            at = self.place(node.value)
            self.spend(1, at)
            callee, args, keywords = self.callee_and_arguments(node.value, at)
            if self.is_async(callee):
                return self.enter(callee, args, keywords, at)
            value = self.call(callee, args, keywords, at, "")
        else:
            value = self.value(node.value)
        if not isinstance(value, Thing):
            raise Stop("raised", place)
        return self.ask("Await", [value], [], place)[1]

    def of_Attribute(self, node, place, name):
        self.spend(1, place)
        return self.attribute(self.value(node.value), node.attr, place)

    def of_Subscript(self, node, place, name):
        self.spend(1, place)
        of = self.value(node.value)
        if not isinstance(node.slice, ast.Slice):
            return self.index(of, self.value(node.slice), place)
        parts = [None if p is None else self.value(p) for p in (node.slice.lower, node.slice.upper, node.slice.step)]
        if isinstance(of, Thing):
            return self.ask("Index", [of, *parts], [], place)[1]
        return self.fresh(self.at(place, python_builtins.sliced, of, *parts), place)

    def of_Call(self, node, place, name):
        self.spend(1, place)
        callee, args, keywords = self.callee_and_arguments(node, place)
        return self.call(callee, args, keywords, place, name)

    def callee_and_arguments(self, node, place):
        callee = self.value(node.func)
        if len(node.args) == 1 and isinstance(node.args[0], ast.GeneratorExp):
            each = node.args[0]
            at = self.place(each.elt)
            self.spend(1, at)
            return callee, [self.fresh(List(self.comprehended(each, at, lambda: [self.value(each.elt)])), at)], {}
        args = self.positional(node.args, place)
        return callee, args, self.by_keyword(node.keywords, place)

    def by_keyword(self, nodes, place):
        """The arguments by keyword, none of which stands twice."""
        given = []
        for node in nodes:
            value = self.value(node.value)
            if any(name == node.arg for name, _ in given):
                raise Stop("raised", place)
            given.append((node.arg, value))
        return given

    def positional(self, nodes, place):
        args = []
        for node in nodes:
            if isinstance(node, ast.Starred):
                value = self.value(node.value)
                if isinstance(value, Thing):
                    value = self.ask("Iterate", [value], [], place)[1]
                args += self.at(place, elements, value)
            else:
                args.append(self.value(node))
        return args

    # ---- operators

    def related(self, sign, left, right, place):
        """A comparison: in a row with things, a thing is asked of each element in turn."""
        row = right.items if isinstance(right, (List, Tuple)) else []
        seeks = isinstance(right, (List, Tuple)) and any(isinstance(v, Thing) for v in [left, *row])
        if sign not in ("in", "not in") or not seeks:
            return self.operate_or_ask(sign, [left, right], place)
        for item in row:
            self.spend(1, place)
            same = isinstance(left, Thing) and left == item
            if same or self.at(place, truth, self.operate_or_ask("==", [left, item], place)):
                return sign == "in"
        return sign != "in"

    def added(self, total, items, place):
        """The items of a row with things, added from the left."""
        for item in items:
            total = self.operate_or_ask("+", [total, item], place)
        return total

    def operate_or_ask(self, sign, operands, place):
        left, right = operands
        asks = isinstance(right, Thing) or isinstance(left, Thing) and sign not in ("in", "not in")
        if asks and sign not in ("is", "is not"):
            return self.ask("Operator", operands, [sign], place)[1]
        return self.operate(sign, left, right, place)

    def operate(self, sign, left, right, place):
        pairs = lambda: self.spend(1, place)
        value = self.at(place, python_builtins.operated, sign, left, right, pairs)
        return self.fresh(value, place) if sign in ("+", "*") else value

    # ---- indices and attributes

    def index(self, of, index, place):
        if isinstance(of, Thing):
            return self.ask("Index", [of, index], [], place)[1]
        value = self.at(place, python_builtins.indexed, of, index)
        return self.fresh(value, place) if isinstance(of, str) else value

    def set_index(self, of, index, value, place):
        if isinstance(of, Thing):
            self.ask("SetIndex", [of, index, value], [], place)
            return
        self.change(of, place)
        grew = self.at(place, python_builtins.index_set, of, index, value)
        if grew:
            self.grow(1, place)
            if len(of.items) > LONGEST:
                raise Stop("limit", place)

    def inherited(self, name, of):
        """A class's value and True; or a thing or None where it ends, and False."""
        while isinstance(of, Class):
            if name in of.attributes:
                return of.attributes[name], True
            of = of.base
        return of, False

    def method(self, value, this, bound):
        if isinstance(value, Function) and not value.bound:
            return Function(value.node, value.defaults, value.scope, this, bound)
        if isinstance(value, Builtin) and value.name == "init nothing" and not value.bound:
            return Builtin("init nothing", this, None, bound)
        return value

    def attribute(self, of, name, place):
        while True:
            if isinstance(of, (List, Dict)):
                methods = python_builtins.LIST_METHODS if isinstance(of, List) else python_builtins.DICT_METHODS
                if name not in methods:
                    raise Stop("raised", place)
                return Builtin(name, of, None, True)
            if isinstance(of, Builtin) and of.name == "super" and of.bound:
                found, known = self.inherited(name, of.home.base)
                if known:
                    return self.method(found, of.this, True)
                if name == "__init__":
                    return Builtin("init base" if isinstance(found, Thing) else "init nothing", of.this, None, True)
                if not isinstance(found, Thing):
                    raise Stop("raised", place)
                asked = of.this
            elif isinstance(of, Object) and name in of.attributes:
                return of.attributes[name]
            elif isinstance(of, (Object, Class)):
                found, known = self.inherited(name, of.of if isinstance(of, Object) else of)
                if known:
                    return self.method(found, of, True) if isinstance(of, Object) else self.method(found, None, False)
                if name == "__init__" and not isinstance(found, Thing):
                    return Builtin("init nothing", of, None, True) if isinstance(of, Object) else Builtin("init nothing")
                if not isinstance(found, Thing):
                    raise Stop("raised", place)
                asked = of
            elif isinstance(of, Thing):
                asked = of
            else:
                raise Stop("raised", place)
            kind, value = self.ask("Attribute", [asked], [name], place)
            if kind != "through":
                return value
            of = value

    def set_attribute(self, of, name, value, place):
        if isinstance(of, Thing):
            self.ask("SetAttribute", [of, value], [name], place)
        elif isinstance(of, (Object, Class)):
            self.change(of, place)
            if name not in of.attributes:
                self.grow(1, place)
            of.attributes[name] = value
        else:
            raise Stop("raised", place)

    # ---- calls

    def is_async(self, callee):
        return isinstance(callee, Function) and isinstance(callee.node, ast.AsyncFunctionDef)

    def call(self, callee, args, keywords, place, name):
        keywords = list(keywords)
        if self.is_async(callee):
            raise Stop("raised", place)
        if isinstance(callee, Function):
            return self.enter(callee, args, keywords, place)
        if isinstance(callee, Builtin):
            return python_builtins.called(self, callee, args, keywords, place)
        if isinstance(callee, Class):
            return self.instance(callee, args, keywords, place)
        if isinstance(callee, Thing):
            vals = [callee, *args, *(v for _, v in keywords)]
            return self.ask("CallThing", vals, [name, *(n for n, _ in keywords)], place)[1]
        raise Stop("raised", place)

    def instance(self, of, args, keywords, place):
        made = Object(of, {})
        self.grow(1, place)
        found, known = self.inherited("__init__", of)
        if known:
            method = self.method(found, made, True)
            if self.call(method, args, keywords, place, "") is not None:
                raise Stop("raised", place)
        elif isinstance(found, Thing):
            self.init_base(made, args, keywords, place)
        elif args or keywords:
            raise Stop("raised", place)
        return made

    def init_base(self, this, args, keywords, place):
        vals = [this, *args, *(v for _, v in keywords)]
        _, names = self.ask("InitBase", vals, [n for n, _ in keywords], place)
        for name, value in names:
            self.set_attribute(this, name, value, place)

    def enter(self, function, args, keywords, place):
        """Runs the body of a function."""
        if not isinstance(function, Function):
            raise Stop("raised", place)
        args = ([function.this] if function.bound else []) + list(args)
        met = self.met(function, args, dict(keywords), place)
        if self.calls == CALLS:
            raise Stop("limit", place)
        outer = self.here
        scope = Scope(function.scope, set(list(met)) | set(bound_names(function.node.body)))
        scope.names.update(met)
        self.here = Here(scope, args[0] if args else None)
        self.calls += 1
        value = None
        try:
            self.block(function.node.body)
        except Leaves as leaves:
            value = leaves.value
        self.calls -= 1
        self.here = outer
        return value

    def met(self, function, args, keywords, place):
        """The parameters with their values."""
        wanted = function.node.args
        names = [a.arg for a in wanted.args]
        if len(args) > len(names):
            raise Stop("raised", place)
        met = dict(zip(names, args))
        for name, value in keywords.items():
            if name in met or name not in names + [a.arg for a in wanted.kwonlyargs]:
                raise Stop("raised", place)
            met[name] = value
        every = names + [a.arg for a in wanted.kwonlyargs]
        for name in every:
            if name not in met:
                if name not in function.defaults:
                    raise Stop("raised", place)
                met[name] = function.defaults[name]
        return {name: met[name] for name in every}


def ast_number(run, node):
    return run.source(node) if isinstance(node.value, float) else node.value
