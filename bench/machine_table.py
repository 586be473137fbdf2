#!/usr/bin/env python3
"""Writes what the program machine_table reads, and what it must write, from the tables in bench/programs.

A case is a line `: BUDGET | ANSWERS` or `: BUDGET | ANSWERS | here alone`, the lines of a program, and behind `-> ` what
comes of it, in the words of the program. `## ` begins a line for readers. The answers were worked out by hand or by the
counter of bench/python_costs.py, which knows the rules alone; the program is not run here. For each case the script
compares the answer with that counter, and where nothing is asked but the end of the body, and the case is not of programs
that mean something `here alone`, with the names that CPython leaves, or the line at which it raises.
"""
import pathlib
import re
import sys
import threading
import warnings

import python_costs
import python_names

BENCH = pathlib.Path(__file__).resolve().parent
CRATE = BENCH.parent / "crates" / "machine_table"
ARROW = "-> "


class Case:
    def __init__(self, table, head):
        self.table = table
        budget, answers, *mark = [part.strip() for part in head.split("|")]
        self.budget, self.here_alone = int(budget), mark == ["here alone"]
        self.answers = [answer.strip() for answer in answers.split(";")] if answers else []
        self.lines, self.said = [], None

    def text(self):
        return "".join(line + "\n" for line in self.lines)


def cases():
    """Each case of the tables."""
    for table in sorted((BENCH / "programs").glob("*.txt")):
        case = None
        for line in table.read_text(encoding="utf-8").splitlines():
            if line.startswith(": "):
                case = Case(table.name, line[2:])
            elif line.startswith(ARROW):
                case.said = line.removeprefix(ARROW)
                yield case
                case = None
            elif case:
                case.lines.append(line)
            elif line and not line.startswith("## "):
                raise SystemExit(f"{table.name}: no case has {line}")
        if case:
            raise SystemExit(f"{table.name}: no answer under {case.lines[0]}")


def long_cases():
    """Cases too long for a table: a literal and an answered text at their edge and one past it."""
    for count, said in ((4096, "BodyEnd(n=4096) 1:1 cost 4"), (4097, "stopped limit 1:9 cost 4")):
        case = Case("long", "1000 |")
        case.lines, case.said = [f"n = len('{'x' * count}')"], said
        yield case
    asked = "Import(; 'm', 't') 1:1 / Attribute(#1; 'a') 2:9 / "
    for count, said in ((4096, "BodyEnd(t=#1, n=4096) 1:1 cost 6"), (4097, "stopped limit 2:9 cost 6")):
        case = Case("long", f"1000 | give #1; text {'x' * count}")
        case.lines, case.said = ["from m import t", "n = len(t.a)"], asked + said
        yield case


def in_escapes(text):
    return text.replace("\\", "\\\\").replace("\n", "\\n").replace("\t", "\\t")


def counted(case):
    return python_costs.Run(case.text(), case.budget, case.answers).told()


def in_python(case):
    """Whether CPython leaves the same."""
    kind, left = python_names.ends(case.text())
    if kind == "names":
        return case.said.startswith(f"BodyEnd({left}) 1:1 cost ")
    return re.match(rf"stopped (raised|assert) {left}:", case.said)


def faults(table):
    """Each case with which something does not agree."""
    compared = 0
    for case in table:
        if case.said != counted(case):
            yield case, "the counter says " + counted(case)
        asks_nothing = not case.answers and re.match(r"BodyEnd|stopped (raised|assert)", case.said)
        if asks_nothing and not case.here_alone:
            compared += 1
            if not in_python(case):
                yield case, f"CPython says {python_names.ends(case.text())}"
    print(f"{compared} of them compared with CPython")


def main():
    table = list(cases()) + list(long_cases())
    wrong = 0
    for case, why in faults(table):
        wrong += 1
        print(f"{case.table}:\n{case.text()}{ARROW}{case.said}\n{why}\n")
    questions = "".join(f"{case.budget}|{';'.join(case.answers)}|{in_escapes(case.text())}\n" for case in table)
    answers = "".join(f"{number} {case.said}\n" for number, case in enumerate(table, 1))
    (CRATE / "stdin").write_text(questions, encoding="utf-8")
    (CRATE / "stdout").write_text(answers, encoding="utf-8")
    print(f"{len(table)} programs, {wrong} of which do not agree")
    return wrong


def with_room(work):
    """What a function gives that calls itself deep."""
    given = []
    warnings.simplefilter("ignore", SyntaxWarning)
    sys.setrecursionlimit(100000)
    threading.stack_size(512 * 1024 * 1024)
    worker = threading.Thread(target=lambda: given.append(work()))
    worker.start()
    worker.join()
    return given


if __name__ == "__main__":
    sys.exit(with_room(main) != [0])
