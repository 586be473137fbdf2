#!/usr/bin/env python3
"""Writes what the program tool_table reads, and what it must write, from the tables in bench/tool.

A table has cases with a line of dashes between each two. A case has parts: `NAME: VALUE` on one line, or `NAME:` and then
lines indented by four blanks. The parts are

    words      the words of the command; without it `top.py top.il top.tr --play top.stim`
    design     the lines of top.py; in their place `module` gives those between `m = Module()` and `top = m`, `example` names a design of
               examples/ with its script and its trace, `simulator` one with the trace of its own simulator, and `page` is the number of a whole file shown in docs/LANGUAGE.md
    bytes      the bytes of top.py in escapes, in place of its lines; `times` repeats them
    script     the lines of top.stim; without it the file is empty. `script bytes` gives them in escapes, and `script times` repeats them
    fail       a call of the host that is to fail
    each fault how many calls of each kind there are
    done       the text that is said; refused, assert failed, usage, fault, spent: the text that is warned
    KIND each  lines that are refused with this kind, each alone at the end of the design, at the place before which it has `@`; a line
               that stands further in belongs to the one before it. `script each` has lines that are refused behind the script
    trace      the lines of the trace; `trace lines` how many there are of those of the last case, behind a fault
    rtlil      `there`, `whole`, `none` or `K lines`; without it `there` where there is a trace, else `none`

The answers were worked out by hand; the program is not run here.
"""
import pathlib

from syntax_table import in_escapes

ROOT = pathlib.Path(__file__).resolve().parent.parent
TABLES = ROOT / "bench" / "tool"
CRATE = ROOT / "crates" / "tool_table"
EXAMPLES = ROOT / "examples"
PAGE = ROOT / "docs" / "LANGUAGE.md"
WORDS = "top.py top.il top.tr --play top.stim"
USAGE = "usage: amh_tool DESIGN IL TRACE [--play FILE] [--top NAME] [--budget N] [--make N]\n"
CODES = {"done": 0, "refused": 1, "assert failed": 2, "usage": 3, "spent": 4, "fault": 5}


def cases_in(path):
    """The cases of a table, each with its parts."""
    parts, name = {}, None
    for line in path.read_text(encoding="utf-8").splitlines() + ["----"]:
        if line.startswith("----"):
            if parts:
                yield {key: value if isinstance(value, str) else value for key, value in parts.items()}
            parts, name = {}, None
        elif line.startswith("#") and name is None:
            continue
        elif line.startswith("    ") and name is not None:
            parts[name].append(line[4:])
        elif line == "" and name is not None:
            parts[name].append("")
        elif ":" in line:
            name, value = line.split(":", 1)
            if value.strip():
                parts[name], name = value.strip(), None
            else:
                parts[name] = []
        elif line.strip():
            raise SystemExit(f"{path}: {line!r} is no part of a case")


def pieces_of(part):
    """The pieces of a part, each its lines: one that stands further in belongs to the one before it."""
    pieces = []
    for line in part:
        if line.startswith(" "):
            pieces[-1].append(line)
        elif line:
            pieces.append([line])
    return pieces


def refused_with(case, kind, piece):
    """The run of a case that is refused with this kind, where the piece at its end has the mark."""
    form, above = ("module", 2) if "module" in case else ("design", 0)
    head = lines(case[form]).splitlines()
    row, col = next((row, line.index("@")) for row, line in enumerate(piece) if "@" in line)
    return {form: head + [line.replace("@", "") for line in piece], "refused": f"top.py:{above + len(head) + row + 1}:{col + 1}: {kind}"}


def refused_behind(case, line):
    """The run of a case that is refused for this line behind its script."""
    above = lines(case.get("script", [])).splitlines()
    form = "module" if "module" in case else "design"
    return {form: case[form], "script": above + [line], "refused": f"top.stim:{len(above) + 1}: script"}


def expanded(case):
    """The runs of a case: itself where it has an answer, and one for each piece that is refused."""
    if any(status in case for status in CODES) or "each fault" in case:
        yield {name: part for name, part in case.items() if not name.endswith(" each")}
    for name, part in case.items():
        if name.endswith(" each"):
            for piece in pieces_of(part):
                yield refused_behind(case, piece[0]) if name == "script each" else refused_with(case, name.removesuffix(" each"), piece)


def lines(part, front=""):
    """Lines of a part, each behind this front, without the empty ones at its end."""
    part = list(part)
    while part and part[-1] == "":
        part.pop()
    return "".join(f"{front}{line}\n" if line else "\n" for line in part)


def shown_in(page):
    """The whole design files that a page shows: indented blocks that begin with an import of amaranth."""
    files, block = [], []
    for line in page.read_text(encoding="utf-8").splitlines() + ["end"]:
        if line.startswith("    ") or (line == "" and block):
            block.append(line[4:])
        else:
            if block and block[0].startswith("from amaranth"):
                files.append(block)
            block = []
    return files


def of_example(name, end):
    """The lines of a file in examples/."""
    return (EXAMPLES / f"{name}.{end}").read_text(encoding="utf-8").splitlines()


def filled(case):
    """A case with the lines of the files that it names in their place."""
    if "example" in case:
        design, script, trace = (of_example(case["example"], end) for end in ("py", "stim", "tr"))
        return case | {"design": design, "script": script, "trace": trace}
    if "simulator" in case:
        return case | {"design": of_example(case["simulator"], "py"), "trace": of_example(f"{case['simulator']}_run", "tr")}
    if "page" in case:
        return case | {"design": shown_in(PAGE)[int(case["page"]) - 1]}
    return case


def design_of(case):
    """The bytes of the design in escapes."""
    if "bytes" in case:
        return case["bytes"]
    if "module" in case:
        text = "from amaranth import *\nm = Module()\n" + lines(case["module"]) + "top = m\n"
    else:
        text = lines(case.get("design", []))
    return in_escapes(text).replace("|", "\\x7C")


def times_of(case, part):
    return f"*{case[part]}" if part in case else ""


def question_of(case):
    words = case.get("words", WORDS) if case.get("words") != "none" else ""
    script = case.get("script bytes", in_escapes(lines(case.get("script", []))))
    fields = [words, f"top.py{times_of(case, 'times')}={design_of(case)}", f"top.stim{times_of(case, 'script times')}={script}"]
    if "fail" in case:
        fields.append(f"fail {case['fail']}")
    if "each fault" in case:
        fields.append("each fault")
    return "|".join(fields)


def answer_of(case):
    if "each fault" in case:
        return case["each fault"]
    words = case.get("words", WORDS).split()
    words = [] if words == ["none"] else words
    status = next(name for name in CODES if name in case)
    said = case["done"] + "\n" if status == "done" else ""
    warned = {"done": "", "usage": USAGE, "fault": "host fault\n"}.get(status) if status in ("done", "usage", "fault") else case[status] + "\n"
    trace = in_escapes(lines(case["trace"])) if "trace" in case else "none"
    rtlil = case.get("rtlil", "there" if "trace" in case or status == "done" else "none")
    il, tr = (words + ["", "", ""])[1:3]
    return " | ".join([f"{status} {CODES[status]}", f"said {in_escapes(said)}", f"warned {in_escapes(warned)}", f"{tr} {trace}", f"{il} {rtlil}"])


def main():
    table = [run for path in sorted(TABLES.glob("*.txt")) for case in cases_in(path) for run in expanded(filled(case))]
    questions = "".join(f"{question_of(case)}\n" for case in table)
    answers = "".join(f"{number} {answer_of(case)}\n" for number, case in enumerate(table, 1))
    (CRATE / "stdin").write_text(questions, encoding="utf-8")
    (CRATE / "stdout").write_text(answers, encoding="utf-8")
    print(f"{len(table)} runs")


if __name__ == "__main__":
    main()
