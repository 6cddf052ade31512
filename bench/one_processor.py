#!/usr/bin/env python3
"""Drifts by threads on one processor: what idle turns cost, and what becomes of a run where no thread can be made.

    python3 bench/one_processor.py

It needs a C compiler, and runs the program as it was last built, pinned to one processor: four cores, in intervals of 10,000
cycles. Each line has the processor seconds of the run (the least of three) and its elapsed ones, the idle turns (calls of
sched_yield, which a library counts that is loaded before the C library), and the nanoseconds of an idle turn, if those make all
the difference to a run with slack 1000, which has few of them. Then the same where the library lets no thread be made, so that
legs run one after another and each spends its patience; and beside two busy loops on the same processor. It is a measurement
and no test.
"""

import os
import pathlib
import subprocess
import sys
import tempfile
import time

TOP = pathlib.Path(__file__).resolve().parent.parent
PROGRAM = str(TOP / "crates/slacksim/out/slacksim")
IMAGES, MODES = ("private", "shared"), ("bounded", "speculative")
CORES, INTERVAL = 4, 10000


def pinned():
    os.sched_setaffinity(0, {0})


def run(image, words, **more):
    """The processor seconds of a run on one processor, and its elapsed ones."""
    begun = time.monotonic()
    words = [PROGRAM, "run", "--cores", str(CORES), "--interval", str(INTERVAL), *words]
    with open(TOP / f"bench/{image}.slk1", "rb") as source:
        child = subprocess.Popen(words, stdin=source, stdout=subprocess.DEVNULL, env=os.environ | more, preexec_fn=pinned)
        _, _, usage = os.wait4(child.pid, 0)
        child.returncode = 0
    return usage.ru_utime + usage.ru_stime, time.monotonic() - begun


def least(image, words, **more):
    return min(run(image, words, **more) for _ in range(3))


def line(library, image, mode, slack, cycles, **more):
    words = ["--mode", mode, "--slack", str(slack), "--limit", str(cycles)]
    few = ["--mode", mode, "--slack", "1000", "--limit", str(cycles)]
    least_idle, _ = least(image, few)
    seconds, elapsed = least(image, words, LD_PRELOAD=library, **more)
    with tempfile.NamedTemporaryFile() as count:
        run(image, words, LD_PRELOAD=library, COUNT_IN=count.name, **more)
        idle = int.from_bytes(pathlib.Path(count.name).read_bytes(), sys.byteorder)
    each = f"{1e9 * (seconds - least_idle) / idle:.0f}" if idle > 10000 else "-"
    print(f"{image:8} {mode:12} {slack:6} {cycles:8} {seconds:8.3f} {elapsed:8.2f} {idle:10} {each:>8}")


def main():
    with tempfile.TemporaryDirectory() as folder:
        library = f"{folder}/idle_turns.so"
        source = str(pathlib.Path(__file__).with_name("idle_turns.c"))
        subprocess.run(["cc", "-O2", "-shared", "-fPIC", "-o", library, source, "-ldl"], check=True)
        for image in IMAGES:
            print(f"{image}: cycle by cycle {least(image, ['--limit', '100000'])[0]:.3f} processor seconds for 100000 cycles")
        heads = ("loop", "mode", "slack", "cycles", "cpu-s", "elapsed", "idle-turns", "ns/turn")
        print("{:8} {:12} {:>6} {:>8} {:>8} {:>8} {:>10} {:>8}".format(*heads))
        for image, mode, slack in ((i, m, s) for i in IMAGES for m in MODES for s in (1, 8, 64, 1000)):
            line(library, image, mode, slack, 100000)
        print("where no thread can be made")
        for image, mode in ((i, m) for i in IMAGES for m in MODES):
            line(library, image, mode, 8, INTERVAL, NO_THREADS="1")
        print("beside two busy loops")
        busy = [subprocess.Popen([sys.executable, "-c", "while True: pass"], preexec_fn=pinned) for _ in range(2)]
        try:
            for slack in (8, 64, 1000):
                line(library, "private", "bounded", slack, INTERVAL)
        finally:
            for loop in busy:
                loop.kill()


if __name__ == "__main__":
    main()
