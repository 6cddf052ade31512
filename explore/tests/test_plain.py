"""What works with the standard library alone, and what names the package that it needs."""

import subprocess
import sys
from pathlib import Path

from explore.tests.support import POINTS, SECONDS, TOOL, StudyTest


class Plain(StudyTest):
    def tool(self, *words: str | Path) -> subprocess.CompletedProcess[str]:
        # -S leaves out all that was installed.
        return subprocess.run([sys.executable, "-S", TOOL, *words], capture_output=True, text=True, timeout=SECONDS)

    def test_a_study(self) -> None:
        self.study('image = "image"\n' + POINTS)
        self.assertTrue(self.run_study().endswith("6 of 6 points, 0 left\n"))
        self.assertEqual(len(self.rows()), 6)

    def test_a_cluster_needs_its_package(self) -> None:
        self.study('image = "image"\n' + POINTS)
        self.assertIn("--scheduler needs python3-distributed (apt-get install", self.run_study("--scheduler", "tcp://127.0.0.1:1", status=2))

    def test_a_picture_needs_its_package(self) -> None:
        self.study('image = "image"\n' + POINTS)
        self.run_study()
        ran = self.tool("plot", self.out, "--x", "ways", "--y", "cycles", "--lines", "cores", "-o", self.folder / "a.svg")
        self.assertEqual(ran.returncode, 2)
        self.assertIn("plot needs python3-matplotlib (apt-get install", ran.stderr)
        self.assertFalse((self.folder / "a.svg").exists())
