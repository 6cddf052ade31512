#!/usr/bin/env python3
"""Some workloads of examples/workloads in each mode: simulated core-cycles a second, and intervals kept.

    python3 bench/workloads.py [CORES..]

It runs the program as it was last built, three times for each line, and prints the millions of core-cycles a second of the
fastest, elapsed and by processor seconds, with the start of the run; and for the modes in which cores drift apart how many of the
intervals are exact: kept in speculative mode, without a record else, in the last run. It is a measurement and no test.
"""

import os
import pathlib
import re
import subprocess
import sys
import tempfile
import time

TOP = pathlib.Path(__file__).resolve().parent.parent
PROGRAM = str(TOP / "crates/slacksim/out/slacksim")
NAMES = ("matrix-blocks", "stencil", "sort", "histogram-shared", "queue", "sharing-apart", "lock-queue", "chase")
MODES = {
    "lockstep": ["--mode", "lockstep"],
    "quantum 16": ["--mode", "quantum", "--quantum", "16"],
    "bounded 64": ["--mode", "bounded", "--slack", "64"],
    "speculative 8": ["--mode", "speculative", "--slack", "8"],
    "speculative 64": ["--mode", "speculative", "--slack", "64"],
    "speculative 1000": ["--mode", "speculative", "--slack", "1000"],
}
TIMES = 3
EXACT = re.compile(r"^interval \d+ (?:kept \d+|bounded \d+ bus 0 map 0 line 0 reply 0)$", re.M)


def run(name, cores, words):
    """What a run prints, its elapsed and its processor seconds."""
    with open(TOP / f"examples/workloads/{name}.elf", "rb") as image, tempfile.TemporaryFile() as out:
        begun = time.monotonic()
        child = subprocess.Popen([PROGRAM, "run", "--cores", str(cores), "--notes", "on", *words], stdin=image, stdout=out)
        _, status, usage = os.wait4(child.pid, 0)
        elapsed = time.monotonic() - begun
        child.returncode = os.waitstatus_to_exitcode(status)
        if child.returncode != 0:
            sys.exit(f"{name} {' '.join(words)}: status {child.returncode}")
        out.seek(0)
        return out.read().decode(), elapsed, usage.ru_utime + usage.ru_stime


def line(name, cores, mode):
    texts, elapsed, processor = zip(*(run(name, cores, MODES[mode]) for _ in range(TIMES)))
    cycles = int(re.search(r"^cycles (\d+)$", texts[-1], re.M)[1])
    intervals = len(re.findall(r"^interval ", texts[-1], re.M))
    kept = f"{len(EXACT.findall(texts[-1]))} of {intervals}" if intervals else ""
    millions = cores * cycles / 1e6
    print(f"{name:17} {cores:5} {mode:17} {cycles:8} {millions / min(elapsed):8.2f} {millions / max(min(processor), 1e-3):10.2f} {kept:>12}", flush=True)


def load():
    return "load " + " ".join(f"{one:.1f}" for one in os.getloadavg())


def main():
    print(load())
    print(f"{'workload':17} {'cores':>5} {'mode':17} {'cycles':>8} {'elapsed':>8} {'processor':>10} {'exact':>12}")
    for cores in map(int, sys.argv[1:] or ["4"]):
        for name in NAMES:
            for mode in MODES:
                line(name, cores, mode)
    print(load())


if __name__ == "__main__":
    main()
