#!/usr/bin/env python3
"""Plays the designs of the table over their RTLIL texts, and compares with the numbers that were worked out by hand.

Yosys reads each text, checks it and writes Verilog, which Icarus plays as SystemVerilog, so that a clock's first 0 is no
edge: `set` gives an input its number, `edge` toggles clocks, and at `show` each wire of the text has the number that the
table says, modulo its width. The texts come from
design_table on a word, one below another (standard input, or the file that is named). Skipped where yosys or iverilog
is not installed (Debian's packages). No part of the gate.
"""
import pathlib
import re
import shutil
import subprocess
import sys
import tempfile

from design_table import designs, name_of


def texts_of(lines):
    """The text of each design, by its name."""
    texts, name = {}, None
    for line in lines:
        if line.startswith("design "):
            name = line.removeprefix("design ").strip()
            texts[name] = ""
        elif name is not None:
            texts[name] += line
    return {name: text for name, text in texts.items() if text.strip()}


def widths_of(text):
    """The width of each public wire, and which of them are inputs."""
    wires = re.findall(r"wire width (\d+)((?: (?:input|output) \d+)?) \\(\S+)", text)
    return {name: int(width) for width, port, name in wires}, {name for width, port, name in wires if "input" in port}


def clocks_of(lines):
    """The clock of each domain of a design, the first domain's first; where no line defines `sync`, it has `clk`."""
    domains = [line.split(" ") for line in lines if line.startswith("domain ")]
    clocks = {words[1]: words[2] for words in domains}
    return clocks if "sync" in clocks else {"sync": "clk", **clocks}


def inits_of(lines):
    """What each input begins with, where a line says so."""
    signals = [line.split(" ") for line in lines if line.startswith("signal ")]
    return {words[1]: int(words[5]) for words in signals if words[4] == "input" and words[5:]}


def bench_of(lines, widths, inputs):
    """A bench in Verilog that plays the events of a design and writes the numbers of all public wires at each `show`."""
    clocks, inits = clocks_of(lines), inits_of(lines)
    ports = [f".\\{n} (\\{n} )" for n in inputs]
    body = ["module bench;"]
    body += [f"  reg [{widths[n] - 1}:0] \\{n} = {inits.get(n, 0) % 2 ** widths[n]};" for n in inputs]
    body += [f"  top dut ({', '.join(ports)});", "  initial begin", "    #1;"]
    for line in lines:
        words = line.split(" ")
        if words[0] == "set" and words[1] in inputs:
            body.append(f"    \\{words[1]} = {int(words[2]) % 2 ** widths[words[1]]}; #1;")
        elif words[0] == "edge":
            toggled = [clocks[name] for name in words[1:] or list(clocks)[:1]]
            body += [f"    \\{clock} = !\\{clock} ;" for clock in toggled] + ["    #1;"]
        elif words[0] == "show":
            body += [f'    $display("{n} %0d", dut.\\{n} );' for n in widths]
            body.append('    $display("done");')
    return "\n".join([*body, "    $finish;", "  end", "endmodule", ""])


def played(folder, lines, text):
    """The numbers of all public wires at each `show`."""
    widths, inputs = widths_of(text)
    path = pathlib.Path(folder)
    (path / "top.il").write_text(text)
    (path / "bench.v").write_text(bench_of(lines, widths, sorted(inputs)))
    script = f"read_rtlil {path}/top.il; hierarchy -check -top top; check -assert; memory_collect; write_verilog -noattr {path}/top.v"
    subprocess.run(["yosys", "-q", "-p", script], check=True)
    subprocess.run(["iverilog", "-g2012", "-o", str(path / "out"), str(path / "bench.v"), str(path / "top.v")], check=True)
    out = subprocess.run(["vvp", str(path / "out")], check=True, capture_output=True, text=True).stdout
    shows, now = [], {}
    for word in (line.split(" ") for line in out.splitlines()):
        if word == ["done"]:
            shows.append(now)
            now = {}
        elif len(word) == 2 and word[0] in widths:
            now[word[0]] = word[1]
    return shows, widths


def differences(name, wanted, shows, widths):
    """What differs from the table, wire by wire."""
    if len(wanted) != len(shows):
        yield f"{name}: {len(shows)} rows in place of {len(wanted)}"
    for k, (row, seen) in enumerate(zip(wanted, shows)):
        for wire, number in row.items():
            if wire in widths and seen.get(wire) != str(int(number) % 2 ** widths[wire]):
                yield f"{name}: row {k}: {wire} is {seen.get(wire)} in place of {number}"


def main():
    if not (shutil.which("yosys") and shutil.which("iverilog")):
        print("skipped: yosys or iverilog is not installed")
        return 0
    source = open(sys.argv[1], encoding="ascii") if sys.argv[1:] else sys.stdin
    texts = texts_of(source)
    designs_played, numbers, faults = 0, 0, []
    for lines, answer in designs():
        name = name_of(lines)
        parts = [row for row in answer.split(" | ")[1:] if not row.startswith(("deltas=", "eval="))]
        rows = [dict(w.split("=") for w in row.split(" ") if "=" in w) for row in parts]
        if name not in texts or not rows:
            continue
        with tempfile.TemporaryDirectory() as folder:
            shows, widths = played(folder, lines, texts[name])
        faults += differences(name, rows, shows, widths)
        designs_played += 1
        numbers += sum(1 for row in rows for wire in row if wire in widths)
    print(f"{designs_played} designs, {numbers} numbers, {len(faults)} differ")
    for fault in faults:
        print(fault)
    return 1 if faults else 0


if __name__ == "__main__":
    sys.exit(main())
