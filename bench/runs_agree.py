#!/usr/bin/env python3
"""Compares what random programs come to with CPython: `runs_agree.py COUNT SEED [--program PATH] [--keep FILE]`.

The programs are those of random_runs.py. Each is run by CPython and by the counter of bench/python_costs.py, and with --program by
the built program machine_table (crates/machine_table/out/machine_table, as `rt run` leaves it), whose values, cost and places have
to be the counter's. With CPython the names that are left and their values are compared, or the line and the column at which a
program raises and whether it is an `assert` that does; CPython has another column where a loop or a comprehension asks for an
element, at an `assert`, and in what an f-string holds. Programs that end here by `width`, `limit` or `spent` are counted apart;
CPython does not run them, as they may not end there.
"""
import argparse
import contextlib
import dis
import io
import re
import resource
import subprocess
import sys

import python_costs
import python_names
import random_runs
from machine_table import in_escapes, with_room

BUDGET = 20_000
MEMORY = 2_000_000_000
BOUNDED = re.compile("stopped (width|limit|spent) ")
OF_LOOPS = ("GET_ITER", "FOR_ITER", "UNPACK_SEQUENCE", "FORMAT_VALUE", "BUILD_STRING")


def in_python(text):
    """What CPython leaves: the names, or the cause, line and column at which it raises."""
    names = {"__name__": "__main__"}
    with contextlib.redirect_stdout(io.StringIO()):
        try:
            exec(compile(text, "program", "exec"), names)
        except Exception as error:
            return "stopped", where(error)
    return "names", python_names.named(names)


def where(error):
    """The cause, and the line and column of the innermost part of the program; no column where CPython has one of its own."""
    trace, last = error.__traceback__, None
    while trace:
        last = trace if trace.tb_frame.f_code.co_filename == "program" else last
        trace = trace.tb_next
    code = last.tb_frame.f_code
    line, _, column, _ = list(code.co_positions())[last.tb_lasti // 2]
    named = dis.opname[code.co_code[last.tb_lasti]]
    cause = "assert" if isinstance(error, AssertionError) else "raised"
    has_own = column is None or cause == "assert" or named in OF_LOOPS
    return cause, line or last.tb_lineno, None if has_own else column + 1


def agrees(said, python):
    """Whether what is said here is what CPython comes to."""
    kind, left = python
    stopped = re.match(r"stopped (\w+) (\d+):(\d+) cost ", said)
    if not stopped:
        return kind == "names" and said.startswith(f"BodyEnd({left}) 1:1 cost ")
    cause, line, column = stopped[1], int(stopped[2]), int(stopped[3])
    return kind == "stopped" and (cause, line) == left[:2] and left[2] in (None, column)


def from_program(path, texts):
    """What the program says of each text."""
    questions = "".join(f"{BUDGET}||{in_escapes(text)}\n" for text in texts)
    said = subprocess.run([path], input=questions, capture_output=True, text=True, check=True).stdout
    return [line.split(" ", 1)[1] for line in said.splitlines()]


def main(given):
    texts = random_runs.programs(given.seed, given.count)
    if given.keep:
        with open(given.keep, "w", encoding="utf-8") as file:
            file.writelines(f"{BUDGET}||{in_escapes(text)}\n" for text in texts)
    counted = [python_costs.Run(text, BUDGET, []).told() for text in texts]
    here = from_program(given.program, texts) if given.program else counted
    left_out = raised = wrong = 0
    for number, (text, said, cost) in enumerate(zip(texts, here, counted)):
        python = None if BOUNDED.match(said) else in_python(text)
        same = python and agrees(said, python)
        left_out += same is None
        raised += bool(same) and python[0] == "stopped"
        if same is False or said != cost:
            wrong += 1
            print(f"program {number} of seed {given.seed}:\n{text}here: {said}\ncounter: {cost}\nCPython: {python}\n")
    compared = f"{len(texts) - left_out} compared with CPython, {raised} of them raise; {left_out} end by a bound"
    print(f"{len(texts)} programs of seed {given.seed}: {compared}; {wrong} do not agree")
    return wrong


def arguments():
    parser = argparse.ArgumentParser()
    parser.add_argument("count", type=int)
    parser.add_argument("seed")
    parser.add_argument("--program")
    parser.add_argument("--keep")
    return parser.parse_args()


if __name__ == "__main__":
    resource.setrlimit(resource.RLIMIT_AS, (MEMORY, resource.getrlimit(resource.RLIMIT_AS)[1]))
    sys.exit(with_room(lambda: main(arguments())) != [0])
