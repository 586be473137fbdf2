#!/bin/bash
# Yosys's `check` finds no logic loop in the RTLIL of designs in which bits of one wide operator need each other in turn:
# each is played, so that its trace shows that it was accepted, and Yosys reads what was written. Skipped where yosys is not
# installed (Debian's package `yosys`). No part of the gate; AMH_TOOL names another built program, with its first words.
set -eu
here="$(cd "$(dirname "$0")/.." && pwd)"
if ! command -v yosys >/dev/null; then
    echo "skipped: yosys is not installed"
    exit 0
fi
tool="${AMH_TOOL:-$here/amh_tool}"
folder="$(mktemp -d)"
trap 'rm -rf "$folder"' EXIT
cd "$folder"

# A module of these signals with these assignments.
module() {
    echo "from amaranth import *"
    echo "m = Module()"
    echo "a = Signal(8)"
    echo "$1" | tr ';' '\n' | sed 's/^ *//'
    shift
    for assignment in "$@"; do
        echo "m.d.$assignment"
    done
    echo "top = m"
}

# Plays a design, and looks for loops in its RTLIL.
try() {
    name="$1"
    shift
    module "$@" >"$name.py"
    printf 'set a 85\nset a 170\nset a 255\n' >"$name.stim"
    $tool "$name.py" "$name.il" "$name.tr" --play "$name.stim" >/dev/null
    yosys -p "read_rtlil $name.il; hierarchy -check -top top; check -assert" >"$name.log" 2>&1 || { cat "$name.log"; exit 1; }
    if grep -q "found logic loop" "$name.log"; then
        grep "found logic loop" "$name.log"
        exit 1
    fi
    echo "$name: no loop in $(grep -c '^  cell ' "$name.il") cells"
}

try chain_of_xor "s = Signal(8)" \
    "comb += s[0].eq(a[0])" \
    "comb += s[1:8].eq(s[0:7] ^ a[1:8])"
try chain_of_and "s = Signal(8)" \
    "comb += s[0].eq(a[0])" \
    "comb += s[1:8].eq(s[0:7] & a[1:8])"
try chain_of_or "s = Signal(8)" \
    "comb += s[0].eq(a[0])" \
    "comb += s[1:8].eq(s[0:7] | a[1:8])"
try chain_of_not "s = Signal(8)" \
    "comb += s[0].eq(a[0])" \
    "comb += s[1:8].eq(~s[0:7])"
try downward "s = Signal(8)" \
    "comb += s[7].eq(a[7])" \
    "comb += s[0:7].eq(s[1:8] ^ a[0:7])"
try through_two_signals "s = Signal(8); t = Signal(8)" \
    "comb += s[0].eq(a[0])" \
    "comb += t.eq(s ^ a)" \
    "comb += s[1:8].eq(t[0:7])"
try through_four_signals "p = Signal(4); q = Signal(4); r = Signal(4); s = Signal(4)" \
    "comb += p[0].eq(a[0])" \
    "comb += q.eq(p & a[0:4])" \
    "comb += r.eq(~q)" \
    "comb += s.eq(r | a[4:8])" \
    "comb += p[1:4].eq(s[0:3])"
try signed_operands "s = Signal(signed(8))" \
    "comb += s[0].eq(a[0])" \
    "comb += s[1:8].eq(s ^ a)"
try beside_a_sum "s = Signal(8); y = Signal(9)" \
    "comb += s[0].eq(a[0])" \
    "comb += s[1:8].eq(s[0:7] ^ a[1:8])" \
    "comb += y.eq(s + a)"
try with_a_register "s = Signal(8); q = Signal(8)" \
    "comb += s[0].eq(q[7])" \
    "comb += s[1:8].eq(s[0:7] ^ a[1:8])" \
    "sync += q.eq(s | q)"
