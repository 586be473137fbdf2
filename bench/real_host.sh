#!/bin/bash
# The program over the system's files, in an empty folder: the two files that it writes are compared byte for byte
# with those in examples/. The traces were worked out by hand; the RTLIL is what the program wrote. No part of the gate.
set -eu
here="$(cd "$(dirname "$0")/.." && pwd)"
folder="$(mktemp -d)"
trap 'rm -rf "$folder"' EXIT
cd "$folder"
for script in "$here"/examples/*.stim; do
    name="$(basename "$script" .stim)"
    "$here/amh_tool" "$here/examples/$name.py" "$name.il" "$name.tr" --play "$script"
    cmp "$name.il" "$here/examples/$name.il"
    cmp "$name.tr" "$here/examples/$name.tr"
    echo "$name: both files are as expected"
done
