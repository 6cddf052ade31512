"""Runs points on an existing Dask cluster.

The program and the images travel: every worker is given them once, also one that comes later. Dask runs the points of a
worker that is lost on another; what ran twice is one result, since a point is one future.
"""

import uuid
from typing import Any

from explore.faults import Refused, needed
from explore.points import Point
from explore.programs import Answer, Program
from explore.runs import Batch, Batches


def run_on_cluster(program: Program, points: list[Point], address: str) -> Batches:
    """Runs each point once; each batch has the points that ended since the last."""
    distributed = needed("distributed", "python3-distributed", "--scheduler")
    there = needed("explore.there", "python3-distributed", "--scheduler")
    needed("cloudpickle", "python3-cloudpickle", "--scheduler").register_pickle_by_value(there)
    try:
        client = distributed.Client(address)
    except (OSError, ValueError) as fault:
        raise Refused(f"no scheduler at {address}: {fault}") from fault
    files = there.Files(f"slacksim-{uuid.uuid4().hex}", program.data, {point.digest: point.image for point in points})
    with client:
        # Newer versions of Dask have the first name for it.
        register = getattr(client, "register_plugin", None) or client.register_worker_plugin
        register(files)
        try:
            left = {client.submit(there.run_there, files.name, point.words(), point.digest, pure=False): point for point in points}
            yield from _batches(distributed, left)
        finally:
            if client.status == "running":
                client.unregister_worker_plugin(files.name)


def _batches(distributed: Any, left: dict[Any, Point]) -> Batches:
    """The points by their futures, as these end."""
    for futures in distributed.as_completed(list(left)).batches():
        batch: Batch = []
        for future in futures:
            if future.status not in ("finished", "error"):
                raise Refused(f"the scheduler was lost, and {len(left)} points are left: run the study again")
            batch.append((left.pop(future), _answer(future)))
        yield batch


def _answer(future: Any) -> Answer:
    """How the point of a future ended; Dask gives up a point with which several workers were lost."""
    if future.status == "finished":
        return Answer(*future.result())
    fault = future.exception()
    return Answer(None, b"", f"given up by the cluster: {type(fault).__name__}: {fault}")
