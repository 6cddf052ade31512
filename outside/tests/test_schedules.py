"""Some runs by threads on a machine that is overloaded."""

import collections
import os
import shutil
import unittest

import schedules

PROCESSORS = os.cpu_count() or 1


class Schedules(unittest.TestCase):
    def test_on_all_processors(self) -> None:
        seen = schedules.try_all(1, range(24), [], PROCESSORS)
        schedules.require(seen, (*schedules.TO_SEE, "plain"))

    @unittest.skipUnless(shutil.which("taskset"), "it needs taskset")
    def test_on_one_processor(self) -> None:
        seen = schedules.try_all(2, range(24), ["taskset"], PROCESSORS)
        schedules.require(seen, ("plain", "taskset"))

    def test_what_was_never_met(self) -> None:
        with self.assertRaisesRegex(schedules.Wrong, "never met: rolled, valgrind$"):
            schedules.require(collections.Counter(["speculative"]), ("speculative", "rolled", "valgrind"))
