"""What the workers of a cluster have and do. It travels by value, so that a worker needs nothing of this package."""

import pathlib
import subprocess
from typing import Any

from distributed import get_worker
from distributed.diagnostics.plugin import WorkerPlugin


class Files(WorkerPlugin):
    """The program and the images of a study: each worker that is there, or that comes, is given them once."""

    def __init__(self, name: str, program: bytes, images: dict[str, bytes]) -> None:
        self.name, self.program, self.images = name, program, images

    def setup(self, worker: Any) -> None:
        """Puts the program into the worker's own folder. Where that fails, each point that is run here says so."""
        self.path, self.fault = pathlib.Path(worker.local_directory, self.name), ""
        try:
            self.path.write_bytes(self.program)
            self.path.chmod(0o755)
        except OSError as fault:
            self.fault = str(fault.strerror)

    def teardown(self, worker: Any) -> None:
        self.path.unlink(missing_ok=True)


def run_there(name: str, words: list[str], image: str) -> tuple[int | None, bytes, str]:
    """Runs the program on an image: its status, what it wrote, and its fault or the worker's."""
    worker = get_worker()
    files: Any = worker.plugins[name]
    try:
        if files.fault:
            raise OSError(0, files.fault)
        ran = subprocess.run([files.path, *words], input=files.images[image], capture_output=True)
    except OSError as fault:
        return None, b"", f"not started by {worker.address}: {fault.strerror}"
    return ran.returncode, ran.stdout, ran.stderr.decode(errors="replace").strip()
