#!/usr/bin/env python3
"""Writes what the program design_table reads, and what it must write, from the tables in bench/designs.

A table has designs in the notation of the program, each behind a line with its name, and under each design its answer
behind an arrow. `#` begins a line for readers. The answers were worked out by hand from the definition of which bit
needs which; the program is not run here.
"""
import pathlib

BENCH = pathlib.Path(__file__).resolve().parent
CRATE = BENCH.parent / "crates" / "design_table"
ARROW = "-> "


def designs():
    """The lines of each design, and its answer."""
    for table in sorted((BENCH / "designs").glob("*.txt")):
        lines = []
        for line in table.read_text(encoding="ascii").splitlines():
            if line.startswith(ARROW):
                yield lines, line.removeprefix(ARROW)
                lines = []
            elif line and not line.startswith("#"):
                lines.append(line)
        if lines:
            raise SystemExit(f"{table.name}: no answer under {lines[0]}")


def name_of(lines):
    """The name of a design."""
    word, name = lines[0].split(" ")
    if word != "design":
        raise SystemExit(f"no design: {lines[0]}")
    return name


def main():
    table = list(designs())
    names = [name_of(lines) for lines, _ in table]
    if len(set(names)) < len(names):
        raise SystemExit("a name stands twice")
    questions = "".join("\n".join(lines) + "\ndone\n" for lines, _ in table)
    answers = "".join(f"{name} {answer}\n" for name, (_, answer) in zip(names, table))
    (CRATE / "stdin").write_text(questions, encoding="ascii")
    (CRATE / "stdout").write_text(answers, encoding="ascii")
    print(f"{len(table)} designs")


if __name__ == "__main__":
    main()
