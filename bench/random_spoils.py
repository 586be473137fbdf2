"""Breaks one thing in a random design: what is broken is a line of Python, a block, a state machine, or a layout."""
import re

ANY = [
    (r"\(", "(("),
    (r"\)", "))"),
    (r"Signal\(", "Signal(1, 2, "),
    (r"(In|Out)\((?!129)", r"\1(129 + "),
    (r"\.eq\(", ".equals("),
    (r"m\.d\.comb", "m.d.sync"),
    (r"m\.d\.sync", "m.d.comb"),
    (r"\+=", "="),
    (r"(?<=\S) ", ""),
]
BLOCKS = [
    (r"m\.If\(", "m.Elif("),
    (r"m\.If\(", "m.Case("),
    (r"m\.If\(", "m.Switch("),
    (r"m\.Elif\(.*\):", "m.Else():"),
    (r"m\.Elif\(", "m.If("),
    (r"m\.Else\(\)", "m.Default()"),
    (r"m\.Default\(\)", "m.Else()"),
    (r"m\.Case\(.*\):", "m.If(1):"),
    (r"m\.Switch\(", "m.If("),
    (r'Case\("', 'Case("-'),
    (r'Case\("[01-]', 'Case("'),
    (r'Case\("[01-]', 'Case("x'),
    (r"Case\(\)", "Case(None)"),
    (r'matches\("', 'matches("0'),
]
MACHINES = [
    (r'm\.State\("\w+"\)', 'm.State("{state}")'),
    (r'm\.State\("\w+"\)', 'm.State("a b")'),
    (r'm\.State\("\w+"\)', "m.State(3)"),
    (r'm\.State\("\w+"\):', "m.If(1):"),
    (r'm\.next = "\w+"', 'm.next = "NOWHERE"'),
    (r'm\.next = "\w+"', "m.next = 1"),
    (r"m\.next", "m.nest"),
    (r'\.ongoing\("\w+"\)', '.ongoing("NOWHERE")'),
    (r'\.ongoing\("\w+"\)', '.ongoing("")'),
    (r'init="\w+"', 'init="NOWHERE"'),
    (r'domain="sync"', 'domain="comb"'),
    (r"FSM\((?!.*domain)", 'FSM(domain="comb", '),
    (r'name="\w+"', 'name="1st"'),
    (r"m\.FSM\(.*\) as", "m.If(1) as"),
]
LAYOUTS = [
    (r'"\w+":', '"1st":'),
    (r'"\w+": ', '"": '),
    (r'"\w+": ', "3: "),
    (r'("\w+"): \d+', r"\1: -1"),
    (r'("\w+"): \d+', r"\1: 129"),
    (r'("\w+"): \d+', r'\1: "three"'),
    (r"(ArrayLayout\(.*), \d\)", r"\1, 200)"),
    (r"(ArrayLayout\(.*), \d\)", r"\1, -1)"),
    (r"ArrayLayout\(.*, \d\)", "ArrayLayout(0, 256)"),
    (r"(?<=\w)\.(op|val|x|y|low|high|tag)\b", ".nope"),
    (r'(?<=\w)\["\w+"\]', '["nope"]'),
    (r"(?<=\w)\.(op|val|x|y|low|high|tag)\b", "[0]"),
    (r"(?<=\w)\[-?\d\]", "[9]"),
    (r"(?<=\w)\[-?\d\]", "[Const(-1)]"),
    (r"\b(L\d)\((?!\w+\.)", r"\1(0, "),
    (r"\b(L\d)\(\((.*?)\)\[0:\d+\]\)", r"\1(Cat(\2, Const(0, 99)))"),
    (r"\.as_value\(\)", ".as_values()"),
    (r"\.as_value\(\)", ".any()"),
    (r"class (\w+)\(data\.Struct\)", r"class \1(data.Struct, shape=3)"),
    (r"^(    \w+: \d+)$", r"\1 = 1"),
    (r"^    (\w+): \d+$", r"    \1: None"),
]
ENUMERATIONS = [
    (r"^(    [A-Z]+) = -?\d+$", r"\1 = 99"),
    (r"^(    [A-Z]+) = -?\d+$", r'\1 = "one"'),
    (r"shape=signed\(\d+\)", "shape=1"),
    (r"shape=\d+", "shape=0"),
    (r"\b(E\d)\.[A-Z]+", r"\1.NOWHERE"),
    (r"init=E\d\.[A-Z]+", 'init="one"'),
    (r"Const\((-?\d+), E\d\)", r'Const(\1, "E")'),
]


def indent_of(line):
    return line[:len(line) - len(line.lstrip())]


def replaced(dice, lines, pattern, replacement):
    """The lines with one place of the pattern replaced, or None where it has none."""
    places = [(k, found) for k, line in enumerate(lines) for found in re.finditer(pattern, line)]
    if not places:
        return None
    at, found = dice.choice(places)
    states = re.findall(r'State\("(\w+)"\)', "\n".join(lines))
    put = found.expand(replacement.replace("{state}", dice.choice(states) if states else "S"))
    return lines[:at] + [lines[at][:found.start()] + put + lines[at][found.end():]] + lines[at + 1:]


def taken_out(dice, lines):
    at = dice.randrange(len(lines))
    return lines[:at] + lines[at + 1:]


def doubled(dice, lines):
    at = dice.randrange(len(lines))
    return lines[:at] + [lines[at]] + lines[at:]


def doubled_member(dice, lines):
    """A member of an enumeration or a field that stands twice."""
    places = [k for k, line in enumerate(lines) if re.match(r"    \w+( = -?\d+|: (?!In|Out).*)$", line)]
    at = dice.choice(places) if places else None
    return None if at is None else lines[:at] + [lines[at]] + lines[at:]


def swapped(dice, lines):
    """Two lines behind each other of one indent, of which one begins a block, change their places."""
    places = [k for k in range(1, len(lines)) if indent_of(lines[k - 1]) == indent_of(lines[k]) and "m." in lines[k]]
    at = dice.choice(places) if places else None
    return None if at is None else lines[:at - 1] + [lines[at], lines[at - 1]] + lines[at + 1:]


def put_under(heads, put):
    """A spoil that puts lines directly under one of these blocks."""
    def spoil(dice, lines):
        places = [k for k, line in enumerate(lines) if re.search(heads, line)]
        if not places:
            return None
        at = dice.choice(places)
        inside = indent_of(lines[at]) + "    "
        return lines[:at + 1] + [inside + line for line in put] + lines[at + 1:]
    return spoil


def put_before(heads, put):
    """A spoil that puts lines before a line, at its indent."""
    def spoil(dice, lines):
        places = [k for k, line in enumerate(lines) if re.search(heads, line)]
        if not places:
            return None
        at = dice.choice(places)
        return lines[:at] + [indent_of(lines[at]) + line for line in put] + lines[at:]
    return spoil


def in_table(table):
    return [lambda dice, lines, row=row: replaced(dice, lines, *row) for row in table]


STATEMENT = r"m\.d\.\w+ \+="
GENERAL = in_table(ANY) + [taken_out, doubled]
OF_BLOCKS = in_table(BLOCKS) + [
    swapped,
    put_under(r"m\.Switch\(", ["m.d.comb += []"]),
    put_under(r"m\.Switch\(", ["with m.If(1):", "    pass"]),
    put_under(r"m\.Switch\(", ["with m.Switch(1):", "    pass"]),
    put_before(r"m\.(Elif|Else)\(", ["m.d.comb += []"]),
    put_before(STATEMENT, ["with m.Else():", "    pass"]),
    put_before(STATEMENT, ["with m.Case(1):", "    pass"]),
    put_before(STATEMENT, ["with m.Default():", "    pass"]),
]
OF_MACHINES = in_table(MACHINES) + [
    put_under(r"m\.FSM\(", ["m.d.comb += Signal().eq(0)"]),
    put_under(r"m\.FSM\(", ['m.next = "IDLE"']),
    put_under(r"m\.FSM\(", ["with m.If(1):", "    pass"]),
    put_under(r"m\.FSM\(", ["with m.Switch(1):", "    pass"]),
    put_under(r"m\.FSM\(", ["with m.FSM():", "    pass"]),
    put_under(r"m\.FSM\(", ["with m.Else():", "    pass"]),
    put_under(r"m\.State\(", ['with m.State("S"):', "    pass"]),
    put_under(r"m\.(If|Elif|Else)\(", ['with m.State("S"):', "    pass"]),
    put_before(STATEMENT, ['m.next = "IDLE"']),
    put_before(STATEMENT, ['with m.State("S"):', "    pass"]),
]
OF_LAYOUTS = in_table(LAYOUTS + ENUMERATIONS) * 2 + [
    doubled_member,
    put_under(r"data\.Struct\)", ["def f(self):", "    pass"]),
    put_under(r"data\.Struct\)", ["n = 3"]),
    put_under(r"enum\.\w+", ["def f(self):", "    pass"]),
    put_under(r"enum\.\w+", ["n: 3"]),
]


def spoiled(dice, lines, options):
    """The text with one thing broken that stands in it."""
    families = [GENERAL, *([OF_BLOCKS] if options.blocks or options.machines else []),
                *([OF_MACHINES] * 2 if options.machines else []), *([OF_LAYOUTS] * 2 if options.layouts else [])]
    while True:
        broken = dice.choice(dice.choice(families))(dice, lines)
        if broken is not None and broken != lines:
            return broken
