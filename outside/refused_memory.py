#!/usr/bin/env python3
"""Refuses each allocation of the program, as it was last built, in turn. It needs a C compiler.

    python3 outside/refused_memory.py

For each call below and each number of an allocation that it makes, the call is run with this allocation refused. Each answer
must be want of memory (status 7, nothing written, one line on standard error), the call's own, or, where the call's own answer
has a line on standard error, its own status with the line of want of memory in place of that. The same is done with two tests,
of a run under a gate and of a drift on one thread, which must pass or end for want of memory; `rt test` in the folders of their
crates builds them. It fails where a program isn't built or no allocation was counted, and says how many were tried.
"""

import pathlib
import re
import sys
import tempfile
from typing import NamedTuple

from program import NO_MEMORY, PROGRAM, Status, TOP, Wrong, call, example, library, script

# Tests that pass whichever allocation of the call that they make is refused.
TESTS = ["want_of_memory_under_a_gate", "a_race_that_is_repeated"]
WANT_IN_TEST = rb"error: (AllocError|AllocFailed \{ \.\. \}|OutOfMemory)\n.*result gives status 1\n"
FAILED_TEST = 101
EXIT_TEXT = b"addi a7, x0, 93\naddi a0, x0, 0\necall\n"


class Call(NamedTuple):
    """A call of the program, or of a program of tests."""

    words: tuple
    data: bytes = b""
    program: str = PROGRAM

    def __str__(self):
        return f"{' '.join(self.words)} < {len(self.data)} bytes"


def small_calls():
    """A call of each command, and one of each kind that is refused."""
    return [
        Call(("run",), example("exit.slk1")),
        Call(("asm",), EXIT_TEXT),
        Call(("asm",), b"addi a0, x0, 2048\n"),
        Call(("pack",), example("exit.elf")),
        Call(("list",), example("exit.elf")),
        Call(("run", "--cores", "17")),
        Call(("run",), b"SLK3"),
    ]


def larger_calls():
    stores, lock = example("stores.s"), example("lock.s")
    return [
        Call(("run", "--cores", "2"), example("letters.slk1")),
        Call(("run",), example("exit.elf")),
        Call(("run", "--cores", "2", "--mode", "speculative", "--limit", "100", "--interval", "25"), stores),
        Call(("run", "--cores", "4", "--mode", "speculative", "--limit", "300", "--interval", "100", "--slack", "64"), lock),
        Call(("run", "--cores", "2", "--mode", "script", "--steps", "t1x2,s1", "--notes", "on"), stores),
        Call(("run", "--cores", "4", "--format", "dump", "--notes", "on", "--mode", "quantum", "--limit", "300"), lock),
        Call(("gen", "--seed", "7", "--cores", "2")),
        Call(("asm",), (TOP / "examples/lock.s").read_bytes()),
    ]


def test_named(name):
    """A test, by the file that has its function: the program of its crate's tests runs it by the path of its modules."""
    for path in sorted(TOP.glob("crates/*/src/**/*.rt")):
        if f"fn {name}(" in path.read_text():
            crate, _, *modules = path.relative_to(TOP / "crates").with_suffix("").parts
            return Call(("::".join([*modules, name]),), b"", str(TOP / f"crates/{crate}/out/{crate}_tests"))
    raise Wrong(f"no test has the name {name}")


def tests():
    return [test_named(name) for name in TESTS]


def is_right(ended, own):
    if ended.said() in ((Status.MEMORY, b"", NO_MEMORY), own.said()):
        return True
    return bool(own.err) and ended.said() == (own.status, own.out, NO_MEMORY)


def is_right_test(ended, own):
    wanted = ended.status == FAILED_TEST and re.fullmatch(WANT_IN_TEST, ended.err, re.S)
    return ended.said() == own.said() or bool(wanted)


class Refusals:
    """Calls with allocations refused, by a library that is loaded before the C library."""

    def __init__(self, folder):
        self.library, self.counts = library("refused_memory.c", folder), pathlib.Path(folder) / "counts"

    def run(self, call_made, number):
        settings = {"LD_PRELOAD": self.library, "FAIL_AT": str(number), "COUNT_IN": str(self.counts)}
        return call(call_made.words, call_made.data, settings=settings, program=call_made.program)

    def count(self, call_made):
        """How many allocations a call makes."""
        self.counts.unlink(missing_ok=True)
        self.run(call_made, 0)
        count = int.from_bytes(self.counts.read_bytes(), sys.byteorder) if self.counts.exists() else 0
        if not count:
            raise Wrong(f"no allocation was counted: {call_made}")
        return count

    def refuse_each(self, call_made, is_right=is_right):
        """Runs a call with each of its allocations refused, and says how many they are."""
        own = call(call_made.words, call_made.data, program=call_made.program)
        count = self.count(call_made)
        for number in range(1, count + 1):
            ended = self.run(call_made, number)
            if not is_right(ended, own):
                raise Wrong(f"allocation {number} of {count}: {call_made}: {ended}")
        return count

    def refuse_each_of_test(self, test):
        """The same of a test, which passes where none is refused."""
        own = call(test.words, program=test.program)
        if own.status != 0:
            raise Wrong(f"{test}: {own}")
        return self.refuse_each(test, is_right_test)


def main():
    with tempfile.TemporaryDirectory() as folder:
        refusals, tried = Refusals(folder), 0
        kinds = [(refusals.refuse_each, small_calls() + larger_calls()), (refusals.refuse_each_of_test, tests())]
        for refuse_each, calls in kinds:
            for call_made in calls:
                count = refuse_each(call_made)
                print(f"{count} allocations: {call_made}", flush=True)
                tried += count
        print(f"{tried} allocations refused in turn")


if __name__ == "__main__":
    script(main)
