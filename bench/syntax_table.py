#!/usr/bin/env python3
"""Writes what the program syntax_table reads, and what it must write, from the tables in bench/lines.

A line of its stdin is a question, a colon and a text in escapes. The line of its stdout is a number and the answer. Both
come from the tables alone, which were worked out by hand; the program is not run here.
"""
import pathlib

import line_tables

CRATE = pathlib.Path(__file__).resolve().parent.parent / "crates" / "syntax_table"


def in_escapes(text):
    """A text, or bytes, as one line: printable ASCII stands for itself, a backslash begins an escape."""
    short = {ord("\\"): "\\\\", ord("\n"): "\\n", ord("\t"): "\\t"}
    in_bytes = text if isinstance(text, bytes) else text.encode("utf-8")
    return "".join(short.get(b, chr(b) if 32 <= b < 127 else f"\\x{b:02X}") for b in in_bytes)


def cases():
    """Each question with its text and its answer."""
    for text in line_tables.accepted() + line_tables.accepted_here_alone():
        yield "program", text, "accepted"
    for text, judge, line, column in line_tables.refused():
        yield "program", text, f"refused {judge} {line}:{column}"
    for text, words in line_tables.words():
        yield "words", text, words
    for text, form in line_tables.forms():
        yield "form", text, form
    for text, expression in line_tables.expressions():
        yield "expression", text, expression
    for text, tree in line_tables.trees():
        yield "tree", text, tree


def main():
    table = list(cases())
    questions = "".join(f"{question}:{in_escapes(text)}\n" for question, text, _ in table)
    answers = "".join(f"{number} {answer}\n" for number, (_, _, answer) in enumerate(table, 1))
    (CRATE / "stdin").write_text(questions, encoding="ascii")
    (CRATE / "stdout").write_text(answers, encoding="utf-8")
    print(f"{len(table)} texts")


if __name__ == "__main__":
    main()
