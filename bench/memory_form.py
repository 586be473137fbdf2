#!/usr/bin/env python3
"""The cells of a memory as crates/memory_cells has them, with the guards of the lowering round them, in Yosys and Icarus.

Two memories of three rows: one is read at once, one at the clock, transparently, with the flag that keeps whether the last
address was one of a row. `check` must find nothing, and the numbers that are read are those worked out by hand. Skipped where
yosys or iverilog is not installed. No part of the gate."""
import os, shutil, subprocess, sys, tempfile

MEMORY = [("MEMID", '"\\\\m"'), ("ABITS", 2), ("WIDTH", 4)]


def cell(kind, name, parameters, ends):
    lines = [f"  cell {kind} {name}"]
    lines += [f"    parameter \\{n} {v}" for n, v in parameters]
    lines += [f"    connect \\{n} {v}" for n, v in ends]
    return "\n".join(lines) + "\n  end\n"


def in_range(name, address, y):
    widths = [("A_SIGNED", 0), ("A_WIDTH", 2), ("B_SIGNED", 0), ("B_WIDTH", 2), ("Y_WIDTH", 1)]
    return cell("$lt", name, widths, [("A", address), ("B", "2'11"), ("Y", y)])


def guard(name, width, b, s, y):
    return cell("$mux", name, [("WIDTH", width)], [("A", f"{width}'" + "0" * width), ("B", b), ("S", s), ("Y", y)])


def read(clocked, mask, clock, enable):
    zero = "4'0000"
    parameters = MEMORY + [
        ("CLK_ENABLE", clocked), ("CLK_POLARITY", 1), ("TRANSPARENCY_MASK", f"1'{mask}"), ("COLLISION_X_MASK", "1'0"),
        ("ARST_VALUE", zero), ("SRST_VALUE", zero), ("INIT_VALUE", zero), ("CE_OVER_SRST", 0),
    ]
    ends = [("CLK", clock), ("EN", enable), ("ARST", "1'0"), ("SRST", "1'0"), ("ADDR", "$5"), ("DATA", "$6")]
    return cell("$memrd_v2", "$17", parameters, ends)


def text(clocked):
    wires = [(1, "\\clk"), (2, "\\a"), (4, "\\w"), (2, "\\n"), (2, "\\r"), (1, "\\e")]
    out = "attribute \\top 1\nmodule \\top\n  memory width 4 size 3 \\m\n"
    for k, (width, name) in enumerate(wires):
        out += f"  wire width {width} input {k + 1} {name}\n"
    out += "  wire width 4 output 7 \\d\n"
    for width, name in [(1, "$1"), (2, "$2"), (4, "$3"), (1, "$4"), (2, "$5"), (4, "$6")]:
        out += f"  wire width {width} {name}\n"
    if clocked:
        out += "  attribute \\init 1'0\n  wire width 1 $7\n  wire width 1 $8\n"
    out += in_range("$10", "\\a", "$1") + guard("$11", 2, "\\a", "$1", "$2")
    out += guard("$12", 4, "{ \\n [1] \\n [1] \\n [0] \\n [0] }", "$1", "$3")
    out += in_range("$13", "\\r", "$4") + guard("$14", 2, "\\r", "$4", "$5")
    out += cell("$meminit_v2", "$15", MEMORY + [("WORDS", 3), ("PRIORITY", 0)],
                [("ADDR", "2'00"), ("DATA", "12'001100100001"), ("EN", "4'1111")])
    out += cell("$memwr_v2", "$16", MEMORY + [("CLK_ENABLE", 1), ("CLK_POLARITY", 1), ("PORTID", 0), ("PRIORITY_MASK", "1'0")],
                [("CLK", "\\clk"), ("EN", "$3"), ("ADDR", "$2"), ("DATA", "\\w")])
    if clocked:
        out += read(1, 1, "\\clk", "\\e")
        out += cell("$mux", "$19", [("WIDTH", 1)], [("A", "$7"), ("B", "$4"), ("S", "\\e"), ("Y", "$8")])
        out += cell("$dff", "$20", [("WIDTH", 1), ("CLK_POLARITY", 1)], [("CLK", "\\clk"), ("D", "$8"), ("Q", "$7")])
    else:
        out += read(0, 0, "1'0", "1'1")
    return out + guard("$18", 4, "$6", "$7" if clocked else "$4", "\\d") + "end\n"


# Rows are 1, 2 and 3; the write port puts 12 into the upper half of row 2 at first.
AT_ONCE = ["", "r=2;", "clk=1;", "r=3;", "clk=0;", "a=3;", "clk=1;", "r=0;"]
AT_ONCE_READS = [1, 3, 15, 0, 0, 0, 0, 1]
AT_THE_CLOCK = ["r=2;", "clk=1;", "clk=0; a=3; r=3;", "clk=1;", "clk=0; e=0; r=1;", "clk=1;", "clk=0; e=1;", "clk=1;",
                "clk=0; e=0; r=0;", "clk=1;", "clk=0; e=1; a=0; n=3; w=9;", "clk=1;"]
AT_THE_CLOCK_READS = [0, 15, 15, 0, 0, 0, 0, 2, 2, 2, 2, 9]


def bench(steps):
    body = " ".join(f'{step} #1 $write("%0d ", d);' for step in steps)
    return ("module tb; reg clk=0, e=1; reg [1:0] a=2, n=2, r=0; reg [3:0] w=12; wire [3:0] d;\n"
            "top t(.clk(clk), .a(a), .w(w), .n(n), .r(r), .e(e), .d(d));\n"
            f"initial begin {body} $finish; end endmodule\n")


def numbers(folder, clocked, steps):
    path = os.path.join(folder, "memory")
    with open(path + ".il", "w") as f:
        f.write(text(clocked))
    with open(path + "_tb.v", "w") as f:
        f.write(bench(steps))
    script = f"read_rtlil {path}.il; check -assert; memory_collect; write_verilog -noattr {path}.v"
    subprocess.run(["yosys", "-q", "-p", script], check=True)
    subprocess.run(["iverilog", "-o", path + ".out", path + "_tb.v", path + ".v"], check=True)
    out = subprocess.run(["vvp", path + ".out"], check=True, capture_output=True, text=True).stdout
    return [int(word) for word in out.split() if word.isdigit()][: len(steps)]


def main():
    if not (shutil.which("yosys") and shutil.which("iverilog")):
        print("skipped: yosys or iverilog is not installed")
        return 0
    with tempfile.TemporaryDirectory() as folder:
        for clocked, steps, wanted in [(False, AT_ONCE, AT_ONCE_READS), (True, AT_THE_CLOCK, AT_THE_CLOCK_READS)]:
            seen = numbers(folder, clocked, steps)
            if seen != wanted:
                print(f"clocked={clocked}: read {seen}, wanted {wanted}")
                return 1
    print(f"{len(AT_ONCE_READS) + len(AT_THE_CLOCK_READS)} numbers agree")
    return 0


if __name__ == "__main__":
    sys.exit(main())
