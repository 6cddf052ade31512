#!/usr/bin/env python3
"""Milliseconds from the start of the program to its end, where it has little to do: `run` of examples/exit.slk1.

    python3 bench/starts.py [STARTS]

It runs the program as it was last built, 200 times, and beside it /bin/true, which is what a start costs by itself. It is a
measurement and no test.
"""

import os
import pathlib
import statistics
import subprocess
import sys
import time

TOP = pathlib.Path(__file__).resolve().parent.parent
PROGRAM = str(TOP / "crates/slacksim/out/slacksim")


def start(words):
    with open(TOP / "examples/exit.slk1", "rb") as source:
        begun = time.perf_counter()
        subprocess.run(words, stdin=source, stdout=subprocess.DEVNULL, check=True)
        return 1000 * (time.perf_counter() - begun)


def main():
    count = int(sys.argv[1]) if len(sys.argv) > 1 else 200
    for words in ([PROGRAM, "run"], ["/bin/true"]):
        times = sorted(start(words) for _ in range(count))
        print(f"{pathlib.Path(words[0]).name}: median {statistics.median(times):.2f} ms, least {times[0]:.2f} ms of {count} starts")
    print("load " + " ".join(f"{one:.1f}" for one in os.getloadavg()))


if __name__ == "__main__":
    main()
