#!/usr/bin/env python3
"""How often speculative mode rolls back: for programs of examples/ and bench/ and for generated ones, at some slacks.

    python3 bench/rollbacks.py [INTERVAL] [GENERATED] [TIMES] [PROGRAM]

It runs the program as it was last built, or PROGRAM, each run TIMES times (2) in intervals of INTERVAL cycles (1000), up to
20,000 cycles. GENERATED (40) is how many programs of 4 cores are made by `gen`; they are summed up in one line. A line has the
intervals, how many of them were rolled back, and how often each kind was recorded in these; the last lines are the sums over all
programs. Which drifts come out differs from run to run, and with what else the machine does, so the load is said before and
after: two programs are compared by runs at the same time. It is a measurement and no test.
"""

import collections
import itertools
import os
import pathlib
import re
import subprocess
import sys

TOP = pathlib.Path(__file__).resolve().parent.parent
PROGRAM = sys.argv[4] if len(sys.argv) > 4 else str(TOP / "crates/slacksim/out/slacksim")
SLACKS = [1, 2, 4, 8, 16, 64, 256, 1000]
TEXTS = [
    ("examples/stores.s", 2), ("examples/lock.s", 4), ("examples/conditional.s", 2), ("examples/sharing.s", 4),
    ("examples/producer.s", 2), ("examples/barrier.s", 3), ("examples/studies/lock.s", 4), ("examples/studies/barrier.s", 4),
    ("bench/private.s", 4), ("bench/shared.s", 4),
]
IMAGES = [("examples/letters.slk1", 2), ("examples/c/squares.elf", 4)]
LIMIT = 20000
LINE = re.compile(rb"^interval \d+ (kept|rolled) \d+(?: bus (\d+) map (\d+) line (\d+) reply (\d+))?$", re.M)
HEADS = ("intervals", "rolled", "bus", "map", "line", "reply")


def output(words, data):
    return subprocess.run([PROGRAM, *words], input=data, capture_output=True, check=False).stdout


def programs(generated):
    """Each with its name, its words and its input."""
    for name, cores in IMAGES:
        yield name, ["run", "--cores", str(cores)], (TOP / name).read_bytes()
    for name, cores in TEXTS:
        yield name, ["run", "--cores", str(cores)], output(["asm"], (TOP / name).read_bytes())
    for seed in range(1, generated + 1):
        yield f"gen, {generated} seeds", ["gen", "--cores", "4", "--seed", str(seed)], b""


def counts(words, data, slack, interval):
    """What the notes of a run count."""
    mode = ["--mode", "speculative", "--slack", str(slack), "--interval", str(interval), "--limit", str(LIMIT), "--notes", "on"]
    found = collections.Counter()
    for kind, *numbers in LINE.findall(output([*words, *mode], data)):
        found["intervals"] += 1
        found["rolled"] += kind == b"rolled"
        found.update({head: int(number or 0) for head, number in zip(HEADS[2:], numbers)})
    return found


def show(name, slack, found):
    print(f"{name:26} {slack:6}" + "".join(f" {found[head]:9}" for head in HEADS), flush=True)


def load():
    return "load " + " ".join(f"{one:.1f}" for one in os.getloadavg())


def main():
    interval, generated, times = (int(word) for word in (*sys.argv[1:4], *("1000", "40", "2")[len(sys.argv) - 1:]))
    print(f"intervals of {interval} cycles, {times} runs each, {load()}")
    print(f"{'program':26} {'slack':>6}" + "".join(f" {head:>9}" for head in HEADS))
    total = collections.defaultdict(collections.Counter)
    for name, same in itertools.groupby(programs(generated), lambda program: program[0]):
        sums = collections.defaultdict(collections.Counter)
        for (_, words, data), slack, _ in itertools.product(same, SLACKS, range(times)):
            sums[slack] += counts(words, data, slack, interval)
        for slack in SLACKS:
            show(name, slack, sums[slack])
            total[slack] += sums[slack]
    for slack in SLACKS:
        show("all", slack, total[slack])
    print(load())


if __name__ == "__main__":
    main()
