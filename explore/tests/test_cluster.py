"""Studies on a Dask cluster of this machine: a scheduler and workers that don't have this package."""

import json
import os
import signal
import subprocess
import sys
import time
import unittest
from collections.abc import Callable

from explore.tests.support import SECONDS, TOOL, StudyTest, has

STUDY = 'image = "image"\n[options]\ncores = [1, 2, 4]\nways = [1, 2, 4, 8]\n'
# A client looks so long for a scheduler that isn't there, or that was lost.
SHORT = {"DASK_DISTRIBUTED__COMM__TIMEOUTS__CONNECT": "3s"}


def wait_until(holds: Callable[[], bool], what: str) -> None:
    end = time.monotonic() + SECONDS
    while not holds():
        if time.monotonic() > end:
            raise AssertionError(f"{what} didn't come in {SECONDS} seconds")
        time.sleep(0.05)


@unittest.skipUnless(has("distributed"), "python3-distributed isn't there")
class ClusterTest(StudyTest):
    """A test with a scheduler of its own."""

    failures = "3"

    def setUp(self) -> None:
        super().setUp()
        self.address_file = self.folder / "scheduler.json"
        self.scheduler = self.start("scheduler", "--port", "0", "--host", "127.0.0.1", "--no-dashboard")
        wait_until(self.address_file.exists, "the scheduler")

    def start(self, kind: str, *words: str) -> subprocess.Popen[bytes]:
        """Starts a part of the cluster, which is killed at the test's end."""
        command = [sys.executable, "-m", f"distributed.cli.dask_{kind}", "--scheduler-file", str(self.address_file), *words]
        log = open(self.folder / f"{kind}.log", "ab")
        self.addCleanup(log.close)
        environment = {**os.environ, "DASK_DISTRIBUTED__SCHEDULER__ALLOWED_FAILURES": self.failures}
        part = subprocess.Popen(command, cwd=self.folder, stdout=log, stderr=log, env=environment)
        self.addCleanup(part.wait)
        self.addCleanup(part.kill)
        return part

    def worker(self) -> subprocess.Popen[bytes]:
        words = ["--host", "127.0.0.1", "--nthreads", "1", "--no-nanny", "--no-dashboard", "--local-directory", str(self.folder)]
        return self.start("worker", *words)

    def address(self) -> str:
        address: str = json.loads(self.address_file.read_text())["address"]
        return address

    def start_study(self) -> subprocess.Popen[str]:
        words = ["run", str(self.folder / "s.toml"), "--out", str(self.out), "--program", str(self.program), "--scheduler", self.address()]
        study = subprocess.Popen([sys.executable, TOOL, *words], stderr=subprocess.PIPE, text=True, env={**os.environ, **SHORT})
        self.addCleanup(study.communicate)
        self.addCleanup(study.kill)
        return study

    def local_table(self) -> bytes:
        """The table of the same study, run here."""
        out, self.out = self.out, self.folder / "here"
        self.run_study()
        table, self.out = (self.out / "results.csv").read_bytes(), out
        return table


class Cluster(ClusterTest):
    def test_the_same_table_as_here(self) -> None:
        self.study(STUDY, "trap ways=2 cores=2", "limit ways=4")
        self.worker(), self.worker()
        self.run_study("--scheduler", self.address())
        self.assertEqual((self.out / "results.csv").read_bytes(), self.local_table())

    def test_a_worker_that_is_killed(self) -> None:
        self.study(STUDY, f"log {self.log}", "delay 0.3")
        workers = [self.worker(), self.worker()]
        study = self.start_study()
        wait_until(lambda: len(self.ran()) >= 4, "the fourth run")
        workers[0].send_signal(signal.SIGKILL)
        _, said = study.communicate(timeout=SECONDS)
        self.assertEqual(study.returncode, 0, said)
        self.assertGreaterEqual(len(self.ran()), 12)
        self.assertEqual((self.out / "results.csv").read_bytes(), self.local_table())

    def test_all_workers_killed_and_another_that_comes(self) -> None:
        self.study(STUDY, f"log {self.log}", "delay 0.2")
        worker = self.worker()
        study = self.start_study()
        wait_until(lambda: len(self.ran()) >= 3, "the third run")
        worker.send_signal(signal.SIGKILL)
        self.worker()
        _, said = study.communicate(timeout=SECONDS)
        self.assertEqual(study.returncode, 0, said)
        self.assertEqual((self.out / "results.csv").read_bytes(), self.local_table())

    def test_a_scheduler_that_is_lost(self) -> None:
        self.study(STUDY, f"log {self.log}", "delay 0.2")
        self.worker()
        study = self.start_study()
        wait_until(lambda: len(self.ran()) >= 4, "the fourth run")
        self.scheduler.send_signal(signal.SIGKILL)
        _, said = study.communicate(timeout=SECONDS)
        self.assertEqual(study.returncode, 2, said)
        self.assertIn("the scheduler was lost", said)
        kept = len(self.rows())
        self.log.unlink()
        self.run_study()
        self.assertEqual(len(self.ran()), 12 - kept)

    def test_a_worker_that_cannot_start_the_program(self) -> None:
        self.study(STUDY)
        # The program begins by the name of an interpreter that isn't there when the points are run.
        interpreter = self.folder / "python"
        interpreter.symlink_to(sys.executable)
        self.program.write_text(self.program.read_text().replace(sys.executable, str(interpreter), 1))
        study = self.start_study()
        wait_until((self.out / "results.csv").exists, "the table")
        interpreter.unlink()
        self.worker()
        _, said = study.communicate(timeout=SECONDS)
        self.assertEqual(study.returncode, 1, said)
        self.assertIn("the host ended 12 of the points", said)
        self.assertRegex(self.rows()[0]["cause"], "^not started by tcp://127.0.0.1:.*: No such file or directory$")
        interpreter.symlink_to(sys.executable)
        self.run_study("--scheduler", self.address())
        self.assertEqual((self.out / "results.csv").read_bytes(), self.local_table())


class StrictCluster(ClusterTest):
    """A cluster that gives a point up with the first worker that is lost with it."""

    failures = "0"

    def test_points_that_are_given_up(self) -> None:
        self.study(STUDY, f"parent {self.folder / 'runs'} 3")
        self.worker(), self.worker()
        self.run_study("--scheduler", self.address(), status=1)
        given_up = [row["cause"] for row in self.rows() if "status" not in row]
        self.assertGreaterEqual(len(given_up), 1)
        self.assertRegex(given_up[0], "^given up by the cluster: KilledWorker: ")
        self.assertEqual(len(self.rows()), 12)
        self.run_study("--scheduler", self.address())
        self.assertEqual((self.out / "results.csv").read_bytes(), self.local_table())


@unittest.skipUnless(has("distributed"), "python3-distributed isn't there")
class NoCluster(StudyTest):
    def test_no_scheduler(self) -> None:
        self.study(STUDY)
        self.settings = SHORT
        self.assertIn("no scheduler at tcp://127.0.0.1:1", self.run_study("--scheduler", "tcp://127.0.0.1:1", status=2))
