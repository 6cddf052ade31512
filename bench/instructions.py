#!/usr/bin/env python3
"""Instructions for a core's cycle, cycle by cycle, of four cores: they don't depend on what else the machine does.

    python3 bench/instructions.py

It runs the program as it was last built, under `valgrind --tool=callgrind`, over 100,000 and over 50,000 cycles of each image
beside this file: the difference, which leaves out the start of the run, is shared out over the cores' cycles. Then the
instructions of a run of one cycle, which are those of the start. It is a measurement and no test.
"""

import pathlib
import re
import subprocess

TOP = pathlib.Path(__file__).resolve().parent.parent
PROGRAM = str(TOP / "crates/slacksim/out/slacksim")
CALLGRIND = ["valgrind", "--tool=callgrind", "--callgrind-out-file=/dev/null"]
CORES, CYCLES = 4, 50000


def instructions(image, limit):
    words = ["run", "--cores", str(CORES), "--interval", "1000000", "--limit", str(limit)]
    with open(TOP / f"bench/{image}.slk1", "rb") as source:
        done = subprocess.run([*CALLGRIND, PROGRAM, *words], stdin=source, capture_output=True, check=False)
    return int(re.search(rb"Collected : (\d+)", done.stderr)[1])


def main():
    print(f"{'image':10} {'a cycle of a core':>18} {'the start':>12}")
    for image in ("loop", "private", "shared", "products"):
        each = (instructions(image, 2 * CYCLES) - instructions(image, CYCLES)) / (CORES * CYCLES)
        print(f"{image:10} {each:18.1f} {instructions(image, 1):12}", flush=True)


if __name__ == "__main__":
    main()
