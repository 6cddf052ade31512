"""The program that is explored, and one call of it."""

import hashlib
import os
import subprocess
from dataclasses import dataclass
from pathlib import Path

from explore.faults import Refused

# Statuses of the program that are tested for: of its words, of its input, and the greatest of an end that is the point's
# own, and no matter of the host.
BAD_WORDS, BAD_INPUT, LIMIT_MET = 2, 3, 4


@dataclass(frozen=True)
class Answer:
    """How a call ended: the program's status, below 0 where a signal stopped it and none where it wasn't started, what
    it wrote, and its fault, or that of the host."""

    status: int | None
    out: bytes
    fault: str


class Program:
    """An executable file, with the digest of its bytes."""

    def __init__(self, path: Path) -> None:
        # A path without a folder would be looked for on the PATH.
        self.path = path.resolve()
        try:
            self.data = self.path.read_bytes()
        except OSError as fault:
            raise Refused(f"the program {path}: {fault.strerror}; ./slacksim builds it, and --program names another") from fault
        if not os.access(self.path, os.X_OK):
            raise Refused(f"the program {path} is no executable file")
        self.digest = hashlib.sha256(self.data).hexdigest()
        self.stamp = self._stamp()

    def is_changed(self) -> bool:
        """Whether the file may have been written since its digest was taken."""
        return self._stamp() != self.stamp

    def _stamp(self) -> tuple[int, int, int] | None:
        try:
            found = os.stat(self.path)
        except OSError:
            return None
        return found.st_ino, found.st_size, found.st_mtime_ns

    def call(self, words: list[str], data: bytes) -> Answer:
        """Calls the program with these words after its name and this input."""
        try:
            ran = subprocess.run([self.path, *words], input=data, capture_output=True)
        except OSError as fault:
            return Answer(None, b"", f"not started: {fault.strerror}")
        return Answer(ran.returncode, ran.stdout, ran.stderr.decode(errors="replace").strip())
