"""The program that the scripts of this folder run: where it is, how it is called, and how it may end."""

import enum
import os
import pathlib
import select
import shutil
import signal
import subprocess
import sys
import tempfile
import time
from typing import NamedTuple

TOP = pathlib.Path(__file__).resolve().parent.parent
PROGRAM = str(TOP / "crates/slacksim/out/slacksim")
EXAMPLES = TOP / "examples"
# After so many seconds a run counts as one that doesn't end, and is killed.
SECONDS = 60


class Status(enum.IntEnum):
    """The exit statuses, as the README has them."""

    DONE = 0
    OTHER_END = 1
    WORDS = 2
    INPUT = 3
    LIMIT = 4
    READ = 5
    WRITE = 6
    MEMORY = 7


# What ends with these has simulated to the end that it tells.
REPORTS = (Status.DONE, Status.OTHER_END, Status.LIMIT)
READ_FAULT = b"slacksim: read fault\n"
WRITE_FAULT = b"slacksim: write fault\n"
NO_MEMORY = b"slacksim: out of memory\n"
TOO_LONG = b"slacksim: input too long\n"


class Wrong(AssertionError):
    """The program isn't as it is said to be."""


class Ended(NamedTuple):
    """How a run ended: its status is below 0 where a signal ended it, and it hung where that signal was sent here."""

    status: int
    out: bytes
    err: bytes
    hung: bool
    kilobytes: int
    seconds: float

    def said(self):
        """What it came to, for comparisons."""
        return self.status, self.out, self.err

    def __str__(self):
        how = f"killed after {self.seconds:.0f} seconds" if self.hung else f"status {self.status}"
        return f"{how}, output {self.out[:400]!r}, standard error {self.err[:400]!r}"


def call(words, data=b"", *, front=(), settings=None, seconds=SECONDS, program=PROGRAM, stdout=None):
    """Runs the program with these words behind those of `front`, and with these settings in its environment too."""
    if not os.access(program, os.X_OK):
        raise Wrong(f"not built: {program}")
    with tempfile.TemporaryFile() as source, tempfile.TemporaryFile() as out, tempfile.TemporaryFile() as err:
        source.write(data)
        source.seek(0)
        begun = time.monotonic()
        streams = {"stdin": source, "stdout": out if stdout is None else stdout, "stderr": err}
        environment = {**os.environ, **(settings or {})}
        child = subprocess.Popen([*front, program, *words], env=environment, start_new_session=True, **streams)
        ended, kilobytes = wait(child, seconds)
        took = time.monotonic() - begun
        out.seek(0)
        err.seek(0)
        return Ended(child.returncode, out.read(), err.read(), not ended, kilobytes, took)


def wait(child, seconds):
    """Waits for a child, and kills it with all that it started after so many seconds: whether it ended by itself, and the
    kilobytes that it took at most."""
    handle, ended = os.pidfd_open(child.pid), False
    try:
        ended = bool(select.select([handle], [], [], seconds)[0])
    finally:
        os.close(handle)
        if not ended:
            os.killpg(child.pid, signal.SIGKILL)
        _, status, usage = os.wait4(child.pid, 0)
        child.returncode = os.waitstatus_to_exitcode(status)
    return ended, usage.ru_maxrss


def done(words, data=b""):
    """What a run that must succeed puts out."""
    ended = call(words, data)
    if ended.status != Status.DONE or ended.err:
        raise Wrong(f"{' '.join(words)}: {ended}")
    return ended.out


def example(name):
    """The image of an example: its file, or what its text is assembled to."""
    data = (EXAMPLES / name).read_bytes()
    return done(["asm"], data) if name.endswith(".s") else data


def has_compiler():
    return shutil.which("cc") is not None


def library(source, folder):
    """Compiles a C file beside this one to a library that may be loaded before the C library; its path."""
    made = str(pathlib.Path(folder) / source.replace(".c", ".so"))
    flags = ["-O1", "-Wall", "-shared", "-fPIC"]
    subprocess.run(["cc", *flags, "-o", made, pathlib.Path(__file__).with_name(source), "-ldl"], check=True)
    return made


def rounds(minutes):
    """Numbers from 0 on, until so many minutes are over."""
    end, number = time.monotonic() + 60 * minutes, 0
    while time.monotonic() < end:
        yield number
        number += 1


def argument(place, default):
    """The word of the command line at a place, as a number of the default's type."""
    return type(default)(sys.argv[place]) if len(sys.argv) > place else default


def script(main):
    """Runs a script: what is wrong is told on standard error, with status 1."""
    try:
        main()
    except Wrong as wrong:
        sys.exit(str(wrong))
