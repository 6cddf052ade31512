#!/usr/bin/env python3
"""Memory and time at the largest machine, 16 cores and 16 MiB, and what a mark costs there.

    python3 bench/largest.py

It runs the program as it was last built, three times for each line, and prints the least elapsed and processor seconds and the
greatest peak of resident memory. The second table is of a program in registers, so nothing is rolled back: milliseconds of
processor time for an interval cycle by cycle, by threads (bounded mode), and by threads behind a mark (speculative mode); what
the last two differ by is the price of the mark, and of chance. It is a measurement and no test.
"""

import os
import pathlib
import struct
import subprocess
import tempfile
import time

TOP = pathlib.Path(__file__).resolve().parent.parent
PROGRAM = str(TOP / "crates/slacksim/out/slacksim")
MEMORY, CORES = 16777216, 16
TIMES = 3


def run(words, data):
    """Elapsed seconds, processor seconds, and the kilobytes of the peak, of which /usr/bin/time tells: what this process itself
    takes would count in its children's peak."""
    with tempfile.NamedTemporaryFile() as source, tempfile.NamedTemporaryFile() as peak:
        source.write(data)
        source.seek(0)
        begun = time.monotonic()
        timed = ["/usr/bin/time", "-q", "-f", "%M", "-o", peak.name, PROGRAM, *words]
        child = subprocess.Popen(timed, stdin=source, stdout=subprocess.DEVNULL)
        _, _, usage = os.wait4(child.pid, 0)
        child.returncode = 0
        return time.monotonic() - begun, usage.ru_utime + usage.ru_stime, int(peak.read())


def least(words, data):
    elapsed, processor, peak = zip(*(run(words, data) for _ in range(TIMES)))
    return min(elapsed), min(processor), max(peak)


def machine(command, memory=MEMORY):
    return [command, "--memory", str(memory), *(["--cores", str(CORES)] if command in ("run", "gen") else [])]


def calls():
    image = lambda name: (TOP / name).read_bytes()
    short = image("examples/exit.slk1")
    full = b"SLK1" + struct.pack("<III", 0, 0, MEMORY) + short[16:] + struct.pack("<I", 0x13) * ((MEMORY - len(short) + 16) // 4)
    long = ["--limit", "100000"]
    yield "exit.slk1", machine("run"), short
    yield "exit.slk1, speculative", [*machine("run"), "--mode", "speculative"], short
    yield "an image of 16 MiB", machine("run"), full
    yield "an image of 16 MiB, speculative", [*machine("run"), "--mode", "speculative"], full
    for name in ("private", "shared"):
        data = image(f"bench/{name}.slk1")
        yield f"{name}.slk1, 100,000 cycles", [*machine("run"), *long], data
        drifts = ["--interval", "10000", "--slack", "1000", "--mode", "speculative"]
        yield f"{name}.slk1, speculative", [*machine("run"), *long, *drifts], data
    yield "gen --seed 1", [*machine("gen"), *long], b""
    yield "exit.slk1, dump", [*machine("run"), "--format", "dump"], short
    yield "exit.slk1, check", [*machine("run"), "--check", "on"], short
    yield "list exit.slk1", machine("list"), short
    yield "list an image of 16 MiB", machine("list"), full
    yield "pack exit.slk1", machine("pack"), short
    yield "pack an image of 16 MiB", machine("pack"), full


def marks(memory, interval, count=100):
    """Milliseconds of processor time for an interval: cycle by cycle, bounded, speculative. The start of the run is taken off."""
    data = (TOP / "bench/loop.slk1").read_bytes()
    found = []
    for mode in ("lockstep", "bounded", "speculative"):
        words = [*machine("run", memory), "--interval", str(interval), "--slack", "1000", "--mode", mode, "--limit"]
        few, many = (least([*words, str(number * interval)], data)[1] for number in (1, 1 + count))
        found.append(1000 * (many - few) / count)
    return found


def load():
    return "load " + " ".join(f"{one:.1f}" for one in os.getloadavg())


def main():
    print(f"{CORES} cores, {MEMORY // 2**20} MiB, {load()}")
    print(f"{'call':32} {'seconds':>8} {'processor':>10} {'peak-MB':>8}")
    for name, words, data in calls():
        elapsed, processor, peak = least(words, data)
        print(f"{name:32} {elapsed:8.3f} {processor:10.3f} {peak / 1024:8.1f}", flush=True)
    print(f"{'memory':>10} {'interval':>9} {'lockstep':>9} {'bounded':>9} {'speculative':>12}   (processor ms an interval)")
    for memory in (1048576, MEMORY):
        for interval in (10, 1000):
            lockstep, bounded, speculative = marks(memory, interval)
            print(f"{memory:10} {interval:9} {lockstep:9.3f} {bounded:9.3f} {speculative:12.3f}", flush=True)
    print(load())


if __name__ == "__main__":
    main()
