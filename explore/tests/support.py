"""What the tests share: a folder with the fake program in it, studies, and calls of the tool."""

import csv
import importlib.util
import os
import subprocess
import sys
import tempfile
import unittest
from pathlib import Path

TOP = Path(__file__).resolve().parent.parent.parent
FAKE = Path(__file__).with_name("fake.py")
TOOL = TOP / "explore/explore"
REAL = TOP / "crates/slacksim/out/slacksim"
# How long a call or a part of a cluster may take, on a machine that is busy with other work too.
SECONDS = 120
POINTS = "[options]\ncores = [1, 2]\nways = [1, 2, 4]\n"


def has(*modules: str) -> bool:
    return all(importlib.util.find_spec(module) for module in modules)


class StudyTest(unittest.TestCase):
    """A test in a folder of its own, with a study `s.toml` of the image `image`."""

    def setUp(self) -> None:
        folder = tempfile.TemporaryDirectory()
        self.addCleanup(folder.cleanup)
        self.folder = Path(folder.name)
        self.program = self.folder / "fake"
        self.program.write_text(f"#!{sys.executable} -IS\n{FAKE.read_text()}")
        self.program.chmod(0o755)
        self.log, self.out = self.folder / "log", self.folder / "out"
        # What the tool's environment has beside that of the tests.
        self.settings: dict[str, str] = {}

    def study(self, text: str, *image: str) -> Path:
        (self.folder / "image").write_text("\n".join(["FAKE", *image]))
        path = self.folder / "s.toml"
        path.write_text(text)
        return path

    def tool(self, *words: str | Path) -> subprocess.CompletedProcess[str]:
        environment = {**os.environ, **self.settings}
        return subprocess.run([sys.executable, TOOL, *words], capture_output=True, text=True, timeout=SECONDS, env=environment)

    def run_study(self, *more: str | Path, status: int | None = 0) -> str:
        """Runs the study, and gives what was said."""
        ran = self.tool("run", self.folder / "s.toml", "--out", self.out, "--program", self.program, *more)
        if status is not None:
            self.assertEqual(ran.returncode, status, ran.stderr)
        return ran.stderr

    def refusals(self, text: str, *image: str) -> list[str]:
        """What a study is refused for; nothing of it is run, and nothing is written."""
        self.study(text, *image, f"log {self.log}")
        said = self.run_study(status=2)
        self.assertFalse(self.out.exists())
        self.assertEqual(self.ran(), [])
        return [line.removeprefix(f"explore: {self.folder}/") for line in said.splitlines()]

    def rows(self) -> list[dict[str, str]]:
        with open(self.out / "results.csv", newline="") as file:
            return [{column: value for column, value in row.items() if value} for row in csv.DictReader(file)]

    def ran(self) -> list[str]:
        """The words of each run, without those of the form and without the short runs that check a point."""
        lines = self.log.read_text().splitlines() if self.log.exists() else []
        return [line.replace(" --format json --notes off", "") for line in lines if not line.endswith("--limit 1")]
