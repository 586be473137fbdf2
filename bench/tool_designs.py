#!/usr/bin/env python3
"""Writes the designs of bench/tool that are accepted, each with its script, into a folder: `tool_designs.py FOLDER [NAMES]`,
NAMES being the tables to take.

The files are K.py and K.stim, K from 0 on, as random_designs.py writes them, so that what compares two tools over random
designs, or a trace with what Yosys and Icarus make of the RTLIL, can be run over the table, too. No part of the gate.
"""
import pathlib
import sys

from tool_table import TABLES, WORDS, cases_in, expanded, filled, lines

HEAD = "from amaranth import *\nm = Module()\n"


def text_of(run):
    """The text of the design, of which a module has its lines between two of its own."""
    return HEAD + lines(run["module"]) + "top = m\n" if "module" in run else lines(run["design"])


def is_taken(run):
    """A run that is done, of files that are given in lines."""
    return "done" in run and run.get("words", WORDS) == WORDS and not {"bytes", "script bytes", "fail"} & run.keys()


def main():
    folder, *names = sys.argv[1:]
    folder = pathlib.Path(folder)
    folder.mkdir(parents=True, exist_ok=True)
    tables = [TABLES / f"{name}.txt" for name in names] or sorted(TABLES.glob("*.txt"))
    runs = [run for table in tables for case in cases_in(table) for run in expanded(filled(case)) if is_taken(run)]
    for k, run in enumerate(runs):
        (folder / f"{k}.py").write_text(text_of(run), encoding="utf-8")
        (folder / f"{k}.stim").write_text(lines(run.get("script", [])), encoding="utf-8")
    print(f"{len(runs)} designs")


if __name__ == "__main__":
    main()
