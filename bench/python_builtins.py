"""Operators and builtins of the Python subset over the values of bench/python_values.py, for bench/python_costs.py."""
from python_values import (
    Builtin, Class, Dict, List, Object, Refusal, Thing, Time, Tuple, elements, is_key, is_number, kept, truth,
)

NAMES = "range len int str bool list tuple dict enumerate zip reversed min max sum abs print super".split()
LIST_METHODS = "append extend insert pop".split()
DICT_METHODS = "items keys values get".split()
GOES_OVER = {"list": 0, "tuple": 0, "dict": 0, "enumerate": 0, "reversed": 0, "sum": 0}


def wants(holds):
    if not holds:
        raise Refusal("raised")


# ---- operators


def turned(sign, value):
    wants(is_number(value))
    return kept({"-": -value, "+": +value, "~": ~value}[sign])


def equal(left, right, pairs, depth=64):
    """Whether two values are equal; each pair of elements costs a unit."""
    for value in (left, right):
        wants(not isinstance(value, (Time, Dict, range)))
    if isinstance(left, Thing) or isinstance(right, Thing):
        wants(left == right)
        return True
    if is_number(left) and is_number(right) or isinstance(left, str) and isinstance(right, str):
        return left == right
    if not (isinstance(left, (List, Tuple)) and type(left) is type(right)):
        return left is right
    if left is right:
        return True
    if len(left.items) != len(right.items):
        return False
    for a, b in zip(left.items, right.items):
        wants(depth > 0)
        pairs()
        if not equal(a, b, pairs, depth - 1):
            return False
    return True


def member(value, of, pairs):
    if isinstance(of, str):
        wants(isinstance(value, str))
        return value in of
    if isinstance(of, (List, Tuple)):
        for item in of.items:
            pairs()
            if equal(value, item, pairs):
                return True
        return False
    if isinstance(of, Dict):
        wants(is_key(value))
        return value in of.items
    wants(isinstance(of, range) and is_number(value))
    return value in of


def operated(sign, left, right, pairs):
    if sign in ("==", "!="):
        return equal(left, right, pairs) == (sign == "==")
    if sign in ("in", "not in"):
        return member(left, right, pairs) == (sign == "in")
    if sign in ("is", "is not"):
        wants(left is None or right is None)
        return (left is None and right is None) == (sign == "is")
    if sign == "+" and isinstance(left, (str, List, Tuple)):
        wants(type(left) is type(right))
        return left + right if isinstance(left, str) else type(left)(left.items + right.items)
    if sign == "*" and isinstance(right, (List, Tuple)):
        left, right = right, left
    if sign == "*" and isinstance(left, (List, Tuple)):
        wants(is_number(right))
        if left.items and right > 65536:
            raise Refusal("limit")
        return type(left)(left.items * max(-1, right) if left.items else [])
    wants(is_number(left) and is_number(right))
    return number(sign, left, right)


def number(sign, a, b):
    if sign in ("//", "%"):
        wants(b != 0)
        return kept(a // b if sign == "//" else a % b)
    if sign in ("<<", ">>", "**"):
        wants(b >= 0)
        return kept(power(sign, a, b))
    if sign in ("<", "<=", ">", ">="):
        return {"<": a < b, "<=": a <= b, ">": a > b, ">=": a >= b}[sign]
    return kept({"+": a + b, "-": a - b, "*": a * b, "&": a & b, "|": a | b, "^": a ^ b}[sign] if sign != "*" else a * b)


def power(sign, a, b):
    if sign == ">>":
        return a >> min(b, 1000)
    if sign == "<<":
        return a << min(b, 1000)
    return a ** (min(b, 1000) if a not in (0, 1, -1) else b)


# ---- indices


def item(items, index):
    count = size(items) if isinstance(items, range) else len(items)
    wants(is_number(index) and -count <= index < count)
    return items[index]


def indexed(of, index):
    if isinstance(of, Dict):
        wants(is_key(index) and index in of.items)
        return of.items[index]
    if isinstance(of, (List, Tuple)):
        return item(of.items, index)
    wants(isinstance(of, (str, range)))
    return item(of, index)


def sliced(of, *parts):
    wants(all(part is None or is_number(part) for part in parts) and parts[2] != 0)
    cut = slice(*parts)
    if isinstance(of, str):
        return of[cut]
    wants(isinstance(of, (List, Tuple)))
    return type(of)(of.items[cut])


def index_set(of, index, value):
    """Sets an item; whether there is one more."""
    if isinstance(of, Dict):
        wants(is_key(index))
        grows = index not in of.items
        of.items[index] = value
        return grows
    wants(isinstance(of, List))
    item(of.items, index)
    of.items[index] = value
    return False


def dict_of(pairs):
    wants(all(is_key(key) for key, _ in pairs))
    return Dict(dict(pairs))


# ---- builtins


def called(run, builtin, args, keywords, place):
    name = builtin.name
    if name == "print":
        return None
    if name == "super":
        return super_called(run, builtin, args, keywords, place)
    if name == "init base":
        return run.init_base(builtin.this, args, keywords, place)
    if name == "init nothing":
        given = len(args) + (1 if builtin.bound else 0)
        return run.at(place, lambda: wants(given == 1 and not keywords))
    run.at(place, lambda: wants(not keywords))
    args = ([builtin.this] if builtin.bound else []) + args
    if name == "len" and len(args) == 1 and isinstance(args[0], Thing):
        return run.ask("Length", args, [], place)[1]
    if name == "abs" and len(args) == 1 and isinstance(args[0], Thing):
        return run.ask("Operator", args, ["abs"], place)[1]
    args = [run.ask("Iterate", [a], [], place)[1] if isinstance(a, Thing) and goes_over(name, args, i) else a for i, a in enumerate(args)]
    if name == "sum" and adds_things(args):
        return run.added(args[1] if len(args) == 2 else 0, run.at(place, elements, args[0]), place)
    work = globals().get("of_" + name)
    if name == "pop":
        run.change(args[0] if args else None, place)
    if name in ("append", "insert", "extend"):
        return grown(run, name, args, place)
    value = run.at(place, work, *checked(run, work, args, place))
    if name == "items":
        for _ in value.items:
            run.count(2, place)
    if name in ("enumerate", "zip"):
        for row in value.items:
            run.count(len(row.items), place)
    return value if name in ("get", "pop", "min", "max") else run.fresh(value, place)


def super_called(run, builtin, args, keywords, place):
    first, of = run.here.first, run.here.scope.class_round()
    run.at(place, lambda: wants(not args and not keywords and not builtin.bound))
    run.at(place, lambda: wants(isinstance(first, Object) and isinstance(of, Class) and first.is_of(of)))
    return Builtin("super", first, of, True)


def adds_things(args):
    """Whether there is a thing among what a sum adds."""
    items = args[0].items if args and isinstance(args[0], (List, Tuple, Dict)) else []
    return len(args) in (1, 2) and any(isinstance(v, Thing) for v in [*args[1:], *items])


def goes_over(name, args, i):
    if name in ("min", "max"):
        return len(args) == 1
    return name == "zip" or GOES_OVER.get(name) == i or name == "extend" and i == 1


def checked(run, work, args, place):
    """Arguments, where there are as many as a builtin takes."""
    code = work.__code__
    least = code.co_argcount - len(work.__defaults__ or ())
    many = bool(code.co_flags & 4)
    run.at(place, lambda: wants(least <= len(args) and (many or len(args) <= code.co_argcount)))
    return args


def grown(run, name, args, place):
    run.at(place, lambda: wants(isinstance(args[0], List) and len(args) == (3 if name == "insert" else 2)))
    of = args[0]
    if name == "extend":
        return extend(run, of, args[1], place)
    run.change(of, place)
    if name == "insert":
        run.at(place, lambda: wants(is_number(args[1])))
    if len(of.items) + 1 > 65536:
        run.at(place, refuse_limit)
    run.grow(1, place)
    if name == "append":
        of.items.append(args[1])
    else:
        of.items.insert(args[1], args[2])
    return None


def extend(run, of, value, place):
    more = run.at(place, elements, value)
    run.change(of, place)
    if len(of.items) + len(more) > 65536:
        run.at(place, refuse_limit)
    run.grow(len(more), place)
    of.items.extend(more)


def refuse_limit():
    raise Refusal("limit")


def of_range(first, *others):
    wants(len(others) < 3)
    first, end, step = (0, first, 1) if not others else (first, others[0], others[1] if len(others) == 2 else 1)
    wants(all(is_number(n) for n in (first, end, step)) and step != 0)
    return range(int(first), int(end), int(step))


def of_len(value):
    if isinstance(value, (List, Tuple, Dict)):
        return len(value.items)
    wants(isinstance(value, (str, range)))
    return len(value) if isinstance(value, str) else kept(size(value))


def size(of):
    """The length of a range, which may be long."""
    return max(0, -(-(of.stop - of.start) // of.step))


def of_int(value):
    wants(is_number(value))
    return int(value)


def of_str(value):
    wants(isinstance(value, (int, str)) and not isinstance(value, bool))
    return str(value)


def of_bool(value=False):
    return truth(value)


def of_list(value=()):
    return List([] if value == () else elements(value))


def of_tuple(value=()):
    return Tuple([] if value == () else elements(value))


def of_dict(value=()):
    if value == ():
        return Dict({})
    if isinstance(value, Dict):
        return Dict(dict(value.items))
    pairs = elements(value)
    wants(all(isinstance(pair, (List, Tuple)) and len(pair.items) == 2 for pair in pairs))
    return dict_of([tuple(pair.items) for pair in pairs])


def of_enumerate(value, start=0):
    wants(is_number(start))
    rows = [Tuple([kept(start + i), v]) for i, v in enumerate(elements(value))]
    return List(rows)


def of_zip(*values):
    return List([Tuple(list(row)) for row in zip(*map(elements, values))])


def of_reversed(value):
    return List(elements(value)[::-1])


def of_min(*values):
    return extreme(values, min)


def of_max(*values):
    return extreme(values, max)


def extreme(values, pick):
    numbers = elements(values[0]) if len(values) == 1 else list(values)
    wants(numbers and all(is_number(n) for n in numbers))
    return pick(numbers)


def of_sum(value, start=0):
    numbers = elements(value)
    wants(is_number(start) and all(is_number(n) for n in numbers))
    for n in numbers:
        start = kept(start + n)
    return start


def of_abs(value):
    wants(is_number(value))
    return abs(value)


def of_pop(of, index=-1):
    wants(isinstance(of, List))
    item(of.items, index)
    return of.items.pop(index)


def of_items(of):
    return List([Tuple([k, v]) for k, v in of.items.items()])


def of_keys(of):
    return List(list(of.items))


def of_values(of):
    return List(list(of.items.values()))


def of_get(of, key, default=None):
    wants(is_key(key))
    return of.items.get(key, default)


def of_ceil_log2(n):
    wants(is_number(n) and n >= 0)
    return next(k for k in range(129) if 2**k >= n) if n else 0


def of_bits_for(n):
    wants(is_number(n))
    return max(1, int(n).bit_length()) if n >= 0 else next(k for k in range(1, 130) if -(2 ** (k - 1)) <= n)
