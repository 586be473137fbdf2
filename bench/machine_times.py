#!/usr/bin/env python3
"""Prints how the time of a turn grows with the number of turns, of loops over a list that grows.

It runs the built program machine_table, which `rt run` in crates/machine_table leaves as out/machine_table, so it can be run
once the crate is proved and built. A turn that costs the same whatever the number gives ratios near 1; the limit on items lets
a list have 65,536, so the longest loop starts its list anew where it is full.
"""
import pathlib
import subprocess
import time

PROGRAM = pathlib.Path(__file__).resolve().parent.parent / "crates" / "machine_table" / "out" / "machine_table"
TURNS = (1_000, 10_000, 100_000)
LOOPS = {
    "append and read": "a = []\nfor i in range({}):\n    if i == 60000:\n        a = []\n    a.append(i)\n    x = a[-1]\na = None\n",
    "extend in place": "a = []\nfor i in range({}):\n    if i == 60000:\n        a = []\n    a += [i]\na = None\n",
    "names": "x = 0\nfor i in range({}):\n    x = i\n    y = x\n",
    "calls": "def f(n):\n    return n\nfor i in range({}):\n    x = f(i)\n",
    "attributes": "class A:\n    n = 0\na = A()\nfor i in range({}):\n    a.n += 1\na = None\n",
}


def seconds(program):
    """The least time of three runs."""
    question = "1000000000||" + program.replace("\n", "\\n") + "\n"
    times = []
    for _ in range(3):
        begun = time.perf_counter()
        said = subprocess.run([PROGRAM], input=question, capture_output=True, text=True, check=True).stdout
        times.append(time.perf_counter() - begun)
        if not said.startswith("1 BodyEnd("):
            raise SystemExit(said)
    return min(times)


def main():
    if not PROGRAM.exists():
        raise SystemExit("no program yet: rt run in crates/machine_table builds it")
    empty = seconds("pass\n")
    for name, program in LOOPS.items():
        each = [(seconds(program.format(turns)) - empty) / turns for turns in TURNS]
        ratios = " ".join(f"{time / each[0]:.2f}" for time in each)
        print(f"{name}: {each[-1] * 1e6:.2f} us a turn, ratios {ratios}")


if __name__ == "__main__":
    main()
