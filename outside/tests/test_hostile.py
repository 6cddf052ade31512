"""Some hostile words and inputs, and what counts as a fault of how a run ended."""

import collections
import random
import unittest

import hostile
from program import Ended, Status

REPORT = b"cores 1\ncycles 3\ncore 0 exit 0 at 2 retired 3\n"
RUN = ["run"]


def ended(status: int, out: bytes = b"", err: bytes = b"", hung: bool = False, kilobytes: int = 100) -> Ended:
    return Ended(status, out, err, hung, kilobytes, 0.0)


class Hostile(unittest.TestCase):
    def test_words_and_inputs(self) -> None:
        seen, _, _ = hostile.try_all(random.Random(1), range(200))
        hostile.require_all(seen)

    def test_how_a_run_may_end(self) -> None:
        for words, run in [
            (RUN, ended(Status.DONE, REPORT)),
            (["run", "--format", "dump"], ended(Status.LIMIT)),
            (["list"], ended(Status.DONE)),
            (RUN, ended(Status.WORDS, err=b"slacksim: words: empty\n")),
            (RUN, ended(Status.INPUT, err=b"slacksim: out of memory\n")),
        ]:
            with self.subTest(run):
                self.assertIsNone(hostile.fault(words, run))

    def test_faults(self) -> None:
        for run in [
            ended(-9, hung=True),
            ended(-11),
            ended(101, err=b"slacksim: words\n"),
            ended(Status.DONE, REPORT, b"slacksim: out of memory\n"),
            ended(Status.LIMIT, REPORT),
            ended(Status.OTHER_END, b""),
            ended(Status.WORDS),
            ended(Status.WORDS, err=b"slacksim: image: magic\n"),
            ended(Status.WORDS, err=b"slacksim: words: empty\nand more\n"),
            ended(Status.INPUT, REPORT, b"slacksim: image: magic\n"),
            ended(Status.DONE, REPORT, kilobytes=200_000),
        ]:
            with self.subTest(run):
                self.assertIsNotNone(hostile.fault(RUN, run))

    def test_a_mode_that_was_never_accepted(self) -> None:
        seen = collections.Counter()
        hostile.see(seen, ["run", "--mode", "bounded"], ended(Status.LIMIT))
        hostile.see(seen, ["run", "--mode", "script"], ended(Status.WORDS))
        self.assertEqual((seen["run bounded"], seen["run script"]), (1, 0))
        with self.assertRaises(hostile.Wrong):
            hostile.require_all(seen)
