#!/usr/bin/env python3
"""Runs each executable of examples/workloads on 1, 4 and 16 cores, cycle by cycle and in speculative mode.

    python3 outside/workloads.py [MODE WORDS..]

Every core exits with 0; the console has what the same C text printed on a host (reference.txt, made by reference.sh); and both
modes give the same report. The words are those of the second mode, `--mode speculative --slack 1000` where none are given.
"""

import sys

from program import EXAMPLES, Status, Wrong, call, script

FOLDER = EXAMPLES / "workloads"
CORES = (1, 4, 16)
SECOND = ("--mode", "speculative", "--slack", "1000")


def rows(name):
    """The words of each line of a file of the folder, but for notes."""
    return [line.split() for line in (FOLDER / name).read_text().splitlines() if line and not line.startswith("#")]


def printed():
    """What each workload prints, as a host had it."""
    return {name: text.encode() + b"\n" for name, text in rows("reference.txt")}


def report(data, cores, words=()):
    ended = call(["run", "--cores", str(cores), *words], data)
    if ended.status != Status.DONE or ended.err:
        raise Wrong(f"--cores {cores} {' '.join(words)}: {ended}")
    return ended.out


def console(text):
    """The bytes on the console, by the line that says how many they are."""
    count, _, rest = text[text.rindex(b"\nconsole ") + 9:].partition(b"\n")
    return rest[: int(count)]


def check(name, wanted, second=SECOND):
    """Runs a workload on each number of cores in both modes."""
    data = (FOLDER / f"{name}.elf").read_bytes()
    for cores in CORES:
        first = report(data, cores)
        if console(first) != wanted:
            raise Wrong(f"{name}, {cores} cores: the console has {console(first)!r}, and a host printed {wanted!r}")
        if report(data, cores, second) != first:
            raise Wrong(f"{name}, {cores} cores: another report with {' '.join(second)}")


def main():
    wanted = printed()
    for name, text in wanted.items():
        check(name, text, tuple(sys.argv[1:]) or SECOND)
    print(f"{len(wanted)} workloads on {', '.join(map(str, CORES))} cores in two modes")


if __name__ == "__main__":
    script(main)
