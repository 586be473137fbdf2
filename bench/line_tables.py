"""The tables of texts in bench/lines, which were worked out by hand from the grammar.

A row is a Python expression: a text, or of what is refused a text with the judge that refuses it (`text`, `lexer`, `parser`),
the line and the column. A text that is no UTF-8 is written as bytes. `blocks(N)` is a text of so many nested blocks.
"""
import pathlib

FOLDER = pathlib.Path(__file__).resolve().parent / "lines"


def blocks(depth):
    """So many blocks, one in the other, each one blank deeper."""
    heads = "".join(" " * k + "if x:\n" for k in range(depth))
    return heads + " " * depth + "pass\n"


def rows(name):
    """The rows of a table. Empty lines and lines that begin with `#` tell of the rows behind them."""
    lines = (FOLDER / name).read_text(encoding="utf-8").splitlines()
    table = [line for line in lines if line and not line.startswith("#")]
    return [eval(row.rstrip(","), {"__builtins__": {}, "blocks": blocks}) for row in table]


def accepted():
    """The texts that the language takes, as does Python."""
    return rows("accepted.txt")


def accepted_here_alone():
    """The texts that the language takes and Python refuses."""
    return rows("accepted_here_alone.txt")


def refused():
    """The texts that are refused, each with its judge, line and column."""
    return rows("refused.txt")


def words():
    """Texts with the words of their lines: places, kinds and values."""
    return rows("words.txt")


def forms():
    """Texts with what each of their lines is as a line of the grammar."""
    return rows("forms.txt")


def expressions():
    """Texts with what each of their lines is as an expression, or as some with commas."""
    return rows("expressions.txt")


def trees():
    """Texts with the whole tree of their program, or what refuses them."""
    return rows("trees.txt")
