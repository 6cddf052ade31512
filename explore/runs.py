"""Runs points on this machine, several at once."""

import os
from collections.abc import Iterator
from concurrent.futures import FIRST_COMPLETED, ThreadPoolExecutor, wait

from explore.faults import Refused
from explore.points import Point
from explore.programs import Answer, Program

# Points with how they ended, as they come.
Batch = list[tuple[Point, Answer]]
Batches = Iterator[Batch]


def processors() -> int:
    """How many processors this process may use."""
    return len(os.sched_getaffinity(0))


def run_here(program: Program, points: list[Point], jobs: int) -> Batches:
    """Runs each point once; each batch has the points that ended since the last."""
    with ThreadPoolExecutor(jobs) as pool:
        left = {pool.submit(program.call, point.words(), point.image): point for point in points}
        try:
            while left:
                ended, _ = wait(left, return_when=FIRST_COMPLETED)
                if program.is_changed():
                    raise Refused(f"{program.path} was changed while it ran; what ended before is kept")
                yield [(left.pop(it), it.result()) for it in ended]
        finally:
            for it in left:
                it.cancel()
