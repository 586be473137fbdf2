#!/usr/bin/env python3
"""Feeds each text that the language takes (the tables in bench/lines, and the examples) to CPython's own parser.

python_accepts.py [--random SEED COUNT] [--answers FILE] prints how many texts CPython took, and each that it refused; of
how many its tree is the language's, node by node with the places, and the first node of each tree that differs; the exit
status is 1 where anything does. The texts of bench/lines/accepted_here_alone.txt it has to refuse. Where readings differ
on purpose is listed in python_trees.py. With --random the texts are programs derived from the grammar (random_programs.py).

The language's trees are those that the program syntax_table prints, which is run as it was built, or by `rt try` where
its source is newer; or those in a file, as it printed them. Which texts the language takes is shown by its stored run.
"""
import argparse
import ast
import pathlib
import subprocess
import sys
import warnings

import line_tables
import python_trees
import random_programs
import syntax_table

MOST = 200_000
TOP = pathlib.Path(__file__).resolve().parent.parent


def accepted():
    """The texts that the language and CPython take."""
    with_trees = [text for text, tree in line_tables.trees() if tree.startswith("(")]
    examples = [path.read_text(encoding="utf-8") for path in sorted((TOP / "examples").glob("*.py"))]
    return line_tables.accepted() + with_trees + examples


def takes(text):
    """Whether CPython parses a text."""
    try:
        ast.parse(text)
    except (SyntaxError, ValueError):
        return False
    return True


def program():
    """The words that run the program."""
    built = syntax_table.CRATE / "out" / "syntax_table"
    sources = (TOP / "crates").glob("*/src/*.rt")
    if built.is_file() and all(source.stat().st_mtime < built.stat().st_mtime for source in sources):
        return [built]
    return ["rt", "try"]


def parts(texts):
    """What the program reads to print the trees of texts, in parts whose answers `rt try` takes."""
    part = ""
    for text in texts:
        part += f"tree:{syntax_table.in_escapes(text)}\n"
        if len(part) > MOST:
            yield part
            part = ""
    yield part


def ask(part):
    """The answers of the program to a part, without their numbers."""
    ran = subprocess.run(program(), cwd=syntax_table.CRATE, input=part, capture_output=True, text=True)
    if ran.returncode != 0:
        sys.exit(f"the program did not run: {ran.stderr}")
    return ran.stdout.splitlines()


def answers(texts):
    """What the program prints for the trees of texts."""
    return [line for part in parts(texts) for line in ask(part)]


def compared(text, answer):
    """The first node at which the trees of a text differ, as CPython and as the language has it."""
    if not answer.startswith("(program"):
        return f"not taken here: {text!r}: {answer}"
    found = python_trees.difference(python_trees.tree_of(text), python_trees.parts_of(answer))
    if found is None:
        return None
    theirs, ours = found
    return f"differs: {text!r}\n  CPython: {python_trees.written(theirs)}\n  here:    {python_trees.written(ours)}"


def compare(texts, lines):
    """What is to be told of the trees of texts."""
    if len(lines) != len(texts):
        return [f"{len(lines)} answers for {len(texts)} texts"]
    found = [compared(text, line.partition(" ")[2]) for text, line in zip(texts, lines)]
    wrong = [told for told in found if told]
    print(f"{len(texts) - len(wrong)} of {len(texts)} trees agree")
    return wrong


def arguments():
    """The words behind the command."""
    parser = argparse.ArgumentParser()
    parser.add_argument("--random", nargs=2, metavar=("SEED", "COUNT"))
    parser.add_argument("--answers", type=pathlib.Path, metavar="FILE")
    return parser.parse_args()


def main():
    warnings.simplefilter("ignore", SyntaxWarning)
    warnings.simplefilter("ignore", DeprecationWarning)
    given = arguments()
    texts = random_programs.programs(given.random[0], int(given.random[1])) if given.random else accepted()
    wrong = [f"refused: {text!r}" for text in texts if not takes(text)]
    print(f"{len(texts) - len(wrong)} of {len(texts)} taken")
    wrong += [f"taken: {text!r}" for text in line_tables.accepted_here_alone() if takes(text)]
    taken = [text for text in texts if takes(text)]
    wrong += compare(taken, given.answers.read_text(encoding="utf-8").splitlines() if given.answers else answers(taken))
    print("\n".join(wrong), end="\n" if wrong else "")
    return 1 if wrong else 0


if __name__ == "__main__":
    sys.exit(main())
