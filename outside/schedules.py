#!/usr/bin/env python3
"""Runs the threaded modes of the program, as it was last built, on hostile schedules.

    python3 outside/schedules.py [MINUTES] [SEED] [NEED..]

Twice as many busy loops as processors run beside it all the time, and as many runs at once as there are processors: of
examples and generated programs, in the modes speculative and bounded, with a slack from 1 to 1,000,000 and intervals from 1 to
100,000, on all processors, pinned to one, or (now and then) under valgrind, which runs one thread at a time. Where `taskset` or
`valgrind` isn't installed its runs are left out, which is said; it fails where one is named as NEED and never ran.

In speculative mode report and exit status must be those of a run cycle by cycle each time, and in bounded mode the status must
be the report's. In both the notes must add up: the cycles of the intervals come to the checkpoint that the report tells, each
interval is followed by as many records as it counts, one that was rolled back has some, and the ticks are those of the
intervals. With a slack of at most 2, from which no post comes late, none is recorded. It says how many runs it made, and fails
where a mode was never met, no interval was rolled back or nothing was recorded in bounded mode.
"""

import collections
import concurrent.futures
import contextlib
import itertools
import os
import random
import shutil
import subprocess
import sys
from typing import NamedTuple

import notes as noted
from program import PROGRAM, Wrong, argument, call, example, rounds, script

EXAMPLES = [("lock", 4), ("conditional", 2), ("sharing", 4), ("producer", 2), ("barrier", 3), ("stores", 2), ("stores", 8)]
GENERATED = [(1, 2), (2, 3), (3, 8), (4, 2)]
SLACKS = [1, 1, 2, 2, 3, 8, 8, 16, 64, 64, 1000, 1000, 65536, 1000000]
INTERVALS = [1, 1, 7, 10, 64, 100, 100, 500, 1000, 1000, 5000, 10000, 100000]
SECONDS = 900  # on a machine that is overloaded
VALGRIND = ("valgrind", "-q", "--tool=none")
# Of so many runs one is under valgrind.
VALGRIND_EACH = 40
MODES = ("speculative", "bounded")
TOOLS = ("taskset", "valgrind")
TO_SEE = (*MODES, "rolled", "records", "within the lookahead")


class Program(NamedTuple):
    """A small program of some cores."""

    words: tuple
    image: bytes
    cores: int


class Run(NamedTuple):
    program: Program
    way: str
    front: tuple
    setting: noted.Setting

    def words(self):
        """The words of the run cycle by cycle."""
        return (*self.program.words, "--interval", str(self.setting.interval), "--limit", str(self.setting.limit))

    def threaded(self):
        return (*self.words(), "--mode", self.setting.mode, "--slack", str(self.setting.slack), "--notes", "on")

    def __str__(self):
        return " ".join([*self.front, PROGRAM, *self.threaded()])


def programs():
    examples = [Program(("run", "--cores", str(cores)), example(f"{name}.s"), cores) for name, cores in EXAMPLES]
    generated = [Program(("gen", "--seed", str(seed), "--cores", str(cores)), b"", cores) for seed, cores in GENERATED]
    return examples + generated


def longest(slack, interval, cores, way):
    """How many cycles a run may have, so that it mostly ends within some seconds: each of its intervals starts threads, and each
    time that the slack is used up all threads wait for their turn among the busy loops."""
    intervals, turns = {"valgrind": (3, 200), "taskset": (30, 6000)}.get(way, (20, 300))
    return max(1, min(intervals * interval, turns // cores * slack, 100000))


def random_run(seed, number, chosen, tools):
    """The run of a number: it depends on the seed, the number and the tools alone."""
    rng = random.Random(f"{seed} {number}")
    slack, interval = rng.choice(SLACKS), rng.choice(INTERVALS)
    way, front = "plain", ()
    if "valgrind" in tools and number % VALGRIND_EACH == VALGRIND_EACH // 2:
        way, front = "valgrind", VALGRIND
    elif "taskset" in tools and rng.randrange(2):
        way, front = "taskset", ("taskset", "-c", str(rng.choice(sorted(os.sched_getaffinity(0)))))
    mode, program = rng.choice(["speculative", "speculative", "bounded"]), rng.choice(chosen)
    limit = longest(slack, interval, program.cores, way)
    return Run(program, way, front, noted.Setting(mode, program.cores, slack, interval, limit))


def ended_well(run, words, front=()):
    """The output of a run, whose exit status is that of its report."""
    ended = call(words, run.program.image, front=front, seconds=SECONDS)
    if ended.hung or ended.err or ended.status != noted.status_of(ended.out):
        raise Wrong(f"{run}: {ended}")
    return ended.out


class Exact:
    """The reports of runs cycle by cycle, each made once."""

    def __init__(self):
        self.known = {}

    def __call__(self, run):
        key = (run.words(), run.program.image)
        if key not in self.known:
            self.known[key] = ended_well(run, run.words())
        return self.known[key]


def notes_of(run, exact):
    """Carries a run out, and compares; its notes."""
    report, text = noted.divided(ended_well(run, run.threaded(), run.front))
    if run.setting.mode == "speculative" and report != exact(run):
        raise Wrong(f"{run}: another report than cycle by cycle: {report!r}")
    notes = noted.read(text)
    try:
        noted.check(notes, run.setting, noted.checkpoint(report, run.setting))
    except Wrong as wrong:
        raise Wrong(f"{run}: {wrong}") from wrong
    return run, notes


def results(seed, numbers, tools, at_once):
    """What comes of the runs of these numbers; so many run at once."""
    chosen, exact, numbers = programs(), Exact(), iter(numbers)
    with concurrent.futures.ThreadPoolExecutor(at_once) as pool:

        def started(count):
            runs = (random_run(seed, number, chosen, tools) for number in itertools.islice(numbers, count))
            return {pool.submit(notes_of, run, exact) for run in runs}

        waiting = started(at_once)
        while waiting:
            done, waiting = concurrent.futures.wait(waiting, return_when=concurrent.futures.FIRST_COMPLETED)
            waiting |= started(len(done))
            yield from (it.result() for it in done)


@contextlib.contextmanager
def busy_loops(count):
    loops = [subprocess.Popen([sys.executable, "-c", "while True: pass"]) for _ in range(count)]
    try:
        yield
    finally:
        for loop in loops:
            loop.kill()
            loop.wait()


def try_all(seed, numbers, tools, processors):
    """The runs of these numbers, among busy loops; counts of what was met."""
    seen = collections.Counter()
    with busy_loops(2 * processors):
        for run, notes in results(seed, numbers, tools, processors):
            mode = run.setting.mode
            seen.update([run.way, mode, "within the lookahead"] if run.setting.slack <= run.setting.lookahead else [run.way, mode])
            seen[f"{mode} intervals"] += len(notes.intervals)
            seen["rolled"] += notes.rolled()
            seen["records"] += notes.records() if mode == "bounded" else 0
    return seen


def require(seen, names):
    missed = [name for name in names if not seen[name]]
    if missed:
        raise Wrong(f"never met: {', '.join(missed)}")


def main():
    needed = sys.argv[3:]
    if not set(needed) <= set(TOOLS):
        raise Wrong(f"NEED is one of {', '.join(TOOLS)}")
    tools = [name for name in TOOLS if shutil.which(name)]
    for name in set(TOOLS) - set(tools):
        print(f"skipped: the runs under {name}, which isn't installed")
    seen = try_all(argument(2, 1), rounds(argument(1, 1.0)), tools, os.cpu_count())
    ways = f"{seen['plain']} on all processors, {seen['taskset']} on one, {seen['valgrind']} under valgrind"
    print(f"{seen['speculative'] + seen['bounded']} runs: {ways}")
    print(f"{seen['speculative']} in speculative mode: of {seen['speculative intervals']} intervals {seen['rolled']} were rolled back")
    print(f"{seen['bounded']} in bounded mode: of {seen['bounded intervals']} intervals {seen['records']} records")
    require(seen, (*TO_SEE, *needed))


if __name__ == "__main__":
    script(main)
