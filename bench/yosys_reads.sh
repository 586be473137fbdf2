#!/bin/bash
# Yosys's own reader takes the RTLIL that the program writes for each example. Skipped where yosys is not installed
# (Debian's package `yosys`). No part of the gate.
set -eu
here="$(cd "$(dirname "$0")/.." && pwd)"
if ! command -v yosys >/dev/null; then
    echo "skipped: yosys is not installed"
    exit 0
fi
folder="$(mktemp -d)"
trap 'rm -rf "$folder"' EXIT
cd "$folder"
for script in "$here"/examples/*.stim; do
    name="$(basename "$script" .stim)"
    "$here/amh_tool" "$here/examples/$name.py" "$name.il" "$name.tr" --play "$script"
    yosys -q -p "read_rtlil $name.il; hierarchy -check -top top; check -assert"
    echo "$name: read by yosys"
done
