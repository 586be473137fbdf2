#!/bin/bash
# Yosys finds no logic loop in the RTLIL text of any design of bench/designs that is accepted and lowered: a loop of bits
# that is none must not become a loop of cells. Skipped where yosys is not installed (Debian's package `yosys`). No part of
# the gate. With a folder behind the command, the texts stay there.
set -eu
here="$(cd "$(dirname "$0")/.." && pwd)"
if ! command -v yosys >/dev/null; then
    echo "skipped: yosys is not installed"
    exit 0
fi
folder="${1:-}"
if [ -z "$folder" ]; then
    folder="$(mktemp -d)"
    trap 'rm -rf "$folder"' EXIT
fi
crate="$here/crates/design_table"
# Proves and builds the program.
(cd "$crate" && rt run </dev/null >"$folder/build.log" 2>&1)
cd "$folder"
"$crate/out/design_table" rtlil <"$crate/stdin" >texts
# A line `design NAME` and the text behind it, where there is one: a file NAME.il each.
awk '/^design / { name = $2; next } /./ { print > (name ".il") }' texts
bad=0
count=0
for text in *.il; do
    count=$((count + 1))
    if ! yosys -q -p "read_rtlil $text; hierarchy -check -top top; check" >"$text.log" 2>&1; then
        echo "${text%.il}: not read"
        bad=$((bad + 1))
    elif grep -q "logic loop" "$text.log"; then
        echo "${text%.il}: logic loop"
        bad=$((bad + 1))
    fi
done
echo "$count texts, $bad with a fault"
[ "$bad" -eq 0 ]
