"""Tells on standard error how many points of a study are left."""

import sys
import time
from typing import Protocol


class Progress(Protocol):
    """What tells how far a study is."""

    def update(self, count: int) -> object:
        """So many more points ended."""

    def close(self) -> object:
        """No more points will end."""


def progress(total: int, done: int) -> Progress:
    """A bar, where tqdm is there, or else a plain counter."""
    try:
        from tqdm import tqdm
    except ImportError:
        return Counter(total, done)
    bar: Progress = tqdm(total=total, initial=done, unit="point", file=sys.stderr)
    return bar


class Counter:
    """A line with two numbers: on a terminal it is written anew in its place, and else once in five seconds."""

    def __init__(self, total: int, done: int) -> None:
        self.total, self.done, self.told = total, done, 0.0
        self.begin, self.end = ("\r", "") if sys.stderr.isatty() else ("", "\n")
        self.pause = 0.1 if self.begin else 5.0
        self.update(0)

    def update(self, count: int) -> None:
        self.done += count
        if time.monotonic() - self.told >= self.pause or self.done == self.total:
            print(f"{self.begin}{self.done} of {self.total} points, {self.total - self.done} left", end=self.end, file=sys.stderr, flush=True)
            self.told = time.monotonic()

    def close(self) -> None:
        print(end="\n" if self.begin else "", file=sys.stderr, flush=True)
