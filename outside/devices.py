#!/usr/bin/env python3
"""Runs the program, as it was last built, on streams that fail, and without the threads that it asks for.

    python3 outside/devices.py

A full disk, streams that are closed, a reader that left, a folder as input, a pipe with nothing in it, input without an end and
a system that has no memory must each be answered by the status and the line that the README says. Then the system refuses
threads: all, those from the third on, the second, each third. In speculative mode report and status must be those of a run cycle
by cycle all the same, and in bounded mode the notes must add up. The second part needs a C compiler, and fails where no thread
was refused.
"""

import os
import pathlib
import struct
import sys
import tempfile
from typing import NamedTuple

import notes as noted
from program import EXAMPLES, NO_MEMORY, READ_FAULT, Status, TOO_LONG, WRITE_FAULT, Wrong, call, example, library, script

# The report of examples/exit.s, which MACHINE.md's rules give: three instructions in three cycles, and the last of them exits.
EXIT = b"""\
cores 1
cycles 3
core 0 exit 0 at 2 retired 3 accesses 0 misses 0 retries 0 waits 0 snoops 0 writebacks 0
bus 0 asks 0 retries 0 free 0
console 0

"""
NO_IMAGE = b"slacksim: image: short 0 of 4\n"
WRONG_WORDS = b"slacksim: words: command\n"
# An image of no bytes: its address, its entry and its length are 0.
EMPTY_IMAGE = b"SLK1" + struct.pack("<III", 0, 0, 0)
# It runs a program with streams as the shell's words behind it say.
SHELL = 'exec "$@" '


class Case(NamedTuple):
    """A call with its streams, and how it must end."""

    name: str
    shell: str
    words: tuple
    status: Status
    out: bytes = b""
    err: bytes = b""


RUN, ASM, WRONG = ("run",), ("asm",), ("walk",)
CASES = [
    Case("as it is", SHELL, RUN, Status.DONE, EXIT),
    Case("a report on a full disk", SHELL + ">/dev/full", RUN, Status.WRITE, err=WRITE_FAULT),
    Case("an image on a full disk", SHELL + '<"$TEXT" >/dev/full', ASM, Status.WRITE, err=WRITE_FAULT),
    Case("a listing on a full disk", SHELL + ">/dev/full", ("list",), Status.WRITE, err=WRITE_FAULT),
    Case("a packed file on a full disk", SHELL + ">/dev/full", ("pack",), Status.WRITE, err=WRITE_FAULT),
    Case("a generated program's report on a full disk", SHELL + ">/dev/full", ("gen",), Status.WRITE, err=WRITE_FAULT),
    Case("notes on a full disk", SHELL + ">/dev/full", ("run", "--mode", "bounded", "--notes", "on"), Status.WRITE, err=WRITE_FAULT),
    Case("a full disk for standard error", SHELL + "2>/dev/full", WRONG, Status.WORDS),
    Case("full disks for both", SHELL + ">/dev/full 2>/dev/full", RUN, Status.WRITE),
    Case("standard output closed", SHELL + ">&-", RUN, Status.WRITE, err=WRITE_FAULT),
    Case("standard output open for reading alone", SHELL + "1</dev/null", RUN, Status.WRITE, err=WRITE_FAULT),
    Case("standard error closed", SHELL + "2>&-", RUN, Status.DONE, EXIT),
    Case("standard error closed, and wrong words", SHELL + "2>&-", WRONG, Status.WORDS),
    Case("standard input closed", SHELL + "<&-", RUN, Status.READ, err=READ_FAULT),
    Case("standard input closed, and wrong words", SHELL + "<&-", WRONG, Status.WORDS, err=WRONG_WORDS),
    Case("standard input open for writing alone", SHELL + "0>/dev/null", RUN, Status.READ, err=READ_FAULT),
    Case("all three closed", SHELL + "<&- >&- 2>&-", RUN, Status.READ),
    Case("all three closed, and no input is read", SHELL + "<&- >&- 2>&-", ("gen",), Status.WRITE),
    Case("a folder as input", SHELL + "</", RUN, Status.READ, err=READ_FAULT),
    Case("a folder as text", SHELL + "</", ASM, Status.READ, err=READ_FAULT),
    Case("an empty pipe", 'true | "$@"', RUN, Status.INPUT, err=NO_IMAGE),
    Case("an empty pipe as text", 'true | "$@"', ASM, Status.DONE, EMPTY_IMAGE),
    Case("input in pieces", '{ head -c 5; sleep 0.1; cat; } | "$@"', RUN, Status.DONE, EXIT),
    Case("input without an end", SHELL + "</dev/zero", RUN, Status.INPUT, err=TOO_LONG),
    Case("a text without an end", SHELL + "</dev/zero", ASM, Status.INPUT, err=TOO_LONG),
    # The zeros behind the image are passed over.
    Case("input in a long pipe", '{ cat; head -c 9000000 /dev/zero; } | "$@"', RUN, Status.DONE, EXIT),
    Case("input that is too long for a pipe", 'head -c 20000000 /dev/zero | "$@"', RUN, Status.INPUT, err=TOO_LONG),
    # Memory alone has 16 MB.
    Case("10 MB of addresses", "ulimit -v 10000; " + SHELL, (*RUN, "--memory", "16777216"), Status.MEMORY, err=NO_MEMORY),
    # The image has 80,000 bytes, more than a pipe holds.
    Case("a reader that leaves", 'yes nop | head -n 20000 | "$@" | head -c 1 >/dev/null; exit ${PIPESTATUS[2]}', ASM, Status.WRITE, err=WRITE_FAULT),
]


def check_case(case):
    ended = call(case.words, example("exit.slk1"), front=("bash", "-c", case.shell, "bash"), settings={"TEXT": str(EXAMPLES / "exit.s")})
    if ended.said() != (case.status, case.out, case.err):
        raise Wrong(f"{case.name}: {ended}")


def check_reader_that_left():
    """Nobody reads the pipe any more when the program begins."""
    reader, writer = os.pipe()
    os.close(reader)
    try:
        ended = call(RUN, example("exit.slk1"), stdout=writer)
    finally:
        os.close(writer)
    if ended.said() != (Status.WRITE, b"", WRITE_FAULT):
        raise Wrong(f"a reader that left: {ended}")


class Refusal(NamedTuple):
    """Which threads the system refuses: one, and from it on each that comes so many later (0: no other)."""

    name: str
    first: int
    step: int


REFUSALS = [Refusal("all", 1, 1), Refusal("from the third on", 3, 1), Refusal("the second", 2, 0), Refusal("each third", 3, 3)]
THREADED = [("lock.s", 4), ("stores.s", 3)]


class Threads:
    """Runs in which threads are refused, by a library that is loaded before the C library."""

    def __init__(self, folder):
        self.library, self.counts = library("refused_threads.c", folder), pathlib.Path(folder) / "counts"

    def run(self, words, image, refusal):
        """A run in which at least one thread was refused."""
        self.counts.unlink(missing_ok=True)
        rule = {"REFUSE_FROM": str(refusal.first), "REFUSE_STEP": str(refusal.step)}
        ended = call(words, image, settings={**rule, "LD_PRELOAD": self.library, "COUNT_IN": str(self.counts)})
        counts = self.counts.read_bytes() if self.counts.exists() else bytes(16)
        calls, refused = (int.from_bytes(counts[at : at + 8], sys.byteorder) for at in (0, 8))
        if not refused:
            raise Wrong(f"of {calls} threads none was refused ({refusal.name}): {' '.join(words)}: {ended}")
        return ended

    def check(self, image, setting, refusal):
        """A run of three intervals, or as many as the program needs."""
        words = ["run", "--cores", str(setting.cores), "--interval", str(setting.interval), "--limit", str(setting.limit)]
        threaded = [*words, "--mode", setting.mode, "--slack", str(setting.slack), "--notes", "on"]
        ended = self.run(threaded, image, refusal)
        if ended.err or ended.hung:
            raise Wrong(f"threads refused, {refusal.name}: {' '.join(threaded)}: {ended}")
        report, text = noted.divided(ended.out)
        exact = call(words, image)
        if setting.mode == "speculative" and (ended.status, report) != (exact.status, exact.out) or ended.status != noted.status_of(report):
            raise Wrong(f"threads refused, {refusal.name}: {' '.join(threaded)}: {ended}; cycle by cycle {exact}")
        noted.check(noted.read(text), setting, noted.checkpoint(report, setting))


def check_threads(threads, examples, slacks, intervals):
    """Each refusal, in both modes."""
    count = 0
    for name, cores in examples:
        image = example(name)
        for refusal in REFUSALS:
            for mode in ("speculative", "bounded"):
                for slack in slacks:
                    threads.check(image, noted.Setting(mode, cores, slack, 100, 100 * intervals), refusal)
                    count += 1
    return count


def main():
    for case in CASES:
        check_case(case)
    check_reader_that_left()
    print(f"{len(CASES) + 1} calls on streams that fail", flush=True)
    with tempfile.TemporaryDirectory() as folder:
        print(f"{check_threads(Threads(folder), THREADED, (1, 8, 1000), 3)} runs in which threads are refused")


if __name__ == "__main__":
    script(main)
