"""Values of the Python subset, as the rules of docs/LANGUAGE.md and docs/DECISIONS.md have them, for bench/python_costs.py."""
import dataclasses

LEAST, MOST = -(2**127), 2**128 - 1
LONGEST = 65536
DEEPEST = 7


class Refusal(Exception):
    """Why a value is not given: `raised`, `width` or `limit`."""


@dataclasses.dataclass(frozen=True)
class Thing:
    number: int


@dataclasses.dataclass(frozen=True)
class Time:
    femtoseconds: int


class List:
    def __init__(self, items):
        self.items = items


class Tuple:
    def __init__(self, items):
        self.items = items


class Dict:
    """Python's own dict has its keys as the rules have them: numbers and booleans are one kind, things are by number."""

    def __init__(self, items):
        self.items = items


@dataclasses.dataclass(eq=False)
class Function:
    node: object
    defaults: dict
    scope: object
    this: object = None
    bound: bool = False


@dataclasses.dataclass(eq=False)
class Builtin:
    name: str
    this: object = None
    home: object = None
    bound: bool = False


@dataclasses.dataclass(eq=False)
class Class:
    base: object
    attributes: dict


@dataclasses.dataclass(eq=False)
class Object:
    of: object
    attributes: dict

    def is_of(self, wanted):
        """Whether this is an object of a class, by its own class or a base of that."""
        of = self.of
        while isinstance(of, Class) and of is not wanted:
            of = of.base
        return of is wanted


def is_number(value):
    return isinstance(value, int)


def kept(number):
    """A number in the range of integers."""
    if not LEAST <= number <= MOST:
        raise Refusal("width")
    return number


def elements(value):
    """What a loop goes over."""
    if isinstance(value, (List, Tuple)):
        return list(value.items)
    if isinstance(value, Dict):
        return list(value.items)
    if isinstance(value, range):
        if value[LONGEST:]:
            raise Refusal("limit")
        return list(value)
    raise Refusal("raised")


def truth(value):
    if isinstance(value, (Time, Thing)):
        raise Refusal("raised")
    if isinstance(value, (List, Tuple, Dict)):
        return len(value.items) > 0
    return bool(value)


def is_key(value):
    return isinstance(value, (int, str, Thing))


def in_quotes(text):
    short = {"'": "\\'", "\\": "\\\\", "\n": "\\n", "\t": "\\t"}
    return "'" + "".join(short.get(letter, letter) for letter in text) + "'"


def named(attributes, depth):
    return ", ".join(f"{name}={shown(value, depth)}" for name, value in attributes.items())


def shown(value, depth=DEEPEST):
    """A value as the table has it."""
    if depth == 0:
        return ".."
    depth -= 1
    if isinstance(value, List):
        return "[" + ", ".join(shown(item, depth) for item in value.items) + "]"
    if isinstance(value, Tuple):
        inner = ", ".join(shown(item, depth) for item in value.items)
        return f"({inner},)" if len(value.items) == 1 else f"({inner})"
    if isinstance(value, Dict):
        return "{" + ", ".join(f"{shown(k, depth)}: {shown(v, depth)}" for k, v in value.items.items()) + "}"
    if isinstance(value, Class):
        base = "" if value.base is None else shown(value.base, depth) + "; "
        return f"class({base}{named(value.attributes, depth)})"
    if isinstance(value, Object):
        return f"object({named(value.attributes, depth)})"
    return shown_leaf(value)


def shown_leaf(value):
    if isinstance(value, (Function, Builtin)):
        return "function"
    if isinstance(value, Thing):
        return f"#{value.number}"
    if isinstance(value, Time):
        return f"{value.femtoseconds}fs"
    if isinstance(value, str):
        return in_quotes(value)
    return repr(value)
