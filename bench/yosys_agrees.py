#!/usr/bin/env python3
"""Compares the trace of every operator, at the corners of its shapes, with Yosys and with Python's integers.

For each pair of shapes it writes a module with two inputs and an output for each operator that takes them, plays all
pairs of corners (0, 1, -1, the least and the greatest integer), and has Yosys's `eval` compute the outputs of the written
RTLIL for the same inputs. Each number of the trace must be that of Python's own integers, modulo 2^128, and that of Yosys.
Operators are those of operator_corners.py. Skipped where yosys is not installed (Debian's package `yosys`). No part of the gate.
"""
import itertools
import os
import pathlib
import re
import shutil
import subprocess
import sys
import tempfile

from operator_corners import UNARY, corners, integer, stop

TOOL = os.environ.get("AMH_TOOL") or pathlib.Path(__file__).resolve().parent.parent / "amh_tool"
SHAPES = [(1, False), (1, True), (3, False), (4, True), (64, False), (127, True), (128, False), (128, True)]
NOTHING = (0, False)
FORMS = {
    "Add": "{} + {}", "Sub": "{} - {}", "Mul": "{} * {}", "Div": "{} // {}", "Mod": "{} % {}",
    "And": "{} & {}", "Or": "{} | {}", "Xor": "{} ^ {}", "Shl": "{} << {}", "Shr": "{} >> {}",
    "Eq": "{} == {}", "Ne": "{} != {}", "Lt": "{} < {}", "Le": "{} <= {}", "Gt": "{} > {}", "Ge": "{} >= {}",
    "Neg": "-{}", "Not": "~{}", "Abs": "abs({})", "Any": "{}.any()", "All": "{}.all()", "Parity": "{}.xor()",
}


def taken(a, b):
    """The operators that take these shapes; those of one operand stand where both are alike."""
    return [op for op in FORMS if (stop(op, a, NOTHING if op in UNARY else b) is None and (op not in UNARY or a == b))]


def shape_text(shape):
    return f"signed({shape[0]})" if shape[1] else str(shape[0])


def design(a, b, operators):
    lines = ["from amaranth import *", "m = Module()", f"a = Signal({shape_text(a)})", f"b = Signal({shape_text(b)})"]
    lines += [f"y_{op} = Signal(128)" for op in operators]
    lines += [f"m.d.comb += y_{op}.eq({FORMS[op].format('a', 'b')})" for op in operators]
    return "\n".join([*lines, "top = m", ""])


def rows_of(trace):
    """The numbers of all columns after each event."""
    now, rows = {}, []
    for line in trace.splitlines():
        if " |" in line:
            now.update((n, int(v)) for n, v in re.findall(r" (\S+)=(-?\d+)", line.partition(" |")[2]))
            rows.append(dict(now))
    return rows


def bits(value, width):
    return f"{width}'b{value % 2**width:0{width}b}"


def compare(folder, a, b):
    operators = taken(a, b)
    if not operators:
        return 0, []
    pairs = list(itertools.product(corners(a), corners(b)))
    (folder / "t.py").write_text(design(a, b, operators))
    (folder / "t.stim").write_text("".join(f"set a {x}\nset b {y}\n" for x, y in pairs))
    subprocess.run([TOOL, "t.py", "t.il", "t.tr", "--play", "t.stim"], cwd=folder, check=True, stdout=subprocess.DEVNULL)
    rows = rows_of((folder / "t.tr").read_text())[2::2]
    show = " ".join(f"-show y_{op}" for op in operators)
    evals = "".join(f"; eval -set a {bits(x, a[0])} -set b {bits(y, b[0])} {show}" for x, y in pairs)
    said = subprocess.run(
        ["yosys", "-p", f"read_rtlil t.il; hierarchy -check -top top; check -assert; cd top{evals}"],
        cwd=folder, check=True, capture_output=True, text=True,
    ).stdout
    found = re.findall(r"Eval result: \\y_(\S+) = \d+'([01x]+)\.", said)
    if len(found) != len(pairs) * len(operators):
        return 0, [f"{a} {b}: yosys told {len(found)} results of {len(pairs) * len(operators)}"]
    wrong = []
    for k, (op, text) in enumerate(found):
        (x, y), row = pairs[k // len(operators)], rows[k // len(operators)]
        by_python = integer(op, a, x, b, y) % 2**128
        if not row[f"y_{op}"] == by_python == (None if "x" in text else int(text, 2)):
            wrong.append(f"{op} {a} {x} {b} {y}: trace {row[f'y_{op}']}, python {by_python}, yosys {text}")
    return len(found), wrong


def main():
    if not shutil.which("yosys"):
        print("skipped: yosys is not installed")
        return 0
    count, wrong = 0, []
    with tempfile.TemporaryDirectory() as folder:
        for a, b in itertools.product(SHAPES, SHAPES):
            tried, differ = compare(pathlib.Path(folder), a, b)
            count, wrong = count + tried, wrong + differ
    print("\n".join(wrong[:20] + [f"{count} numbers compared, {len(wrong)} differ"]))
    return 1 if wrong else 0


sys.exit(main())
