"""Allocations and threads that are refused, and streams that fail."""

import tempfile
import unittest

import devices
import refused_memory
from program import NO_MEMORY, Ended, Status, Wrong, has_compiler

NEEDS_COMPILER = unittest.skipUnless(has_compiler(), "it needs a C compiler")


def ended(status: int, out: bytes = b"", err: bytes = b"") -> Ended:
    return Ended(status, out, err, False, 100, 0.0)


class Answers(unittest.TestCase):
    DONE, REFUSED = ended(Status.DONE, b"text"), ended(Status.WORDS, err=b"slacksim: words: empty\n")

    def test_right_ones(self) -> None:
        for answer, own in [
            (self.DONE, self.DONE),
            (ended(Status.MEMORY, err=NO_MEMORY), self.DONE),
            (self.REFUSED, self.REFUSED),
            (ended(Status.MEMORY, err=NO_MEMORY), self.REFUSED),
            (ended(Status.WORDS, err=NO_MEMORY), self.REFUSED),
        ]:
            with self.subTest(answer):
                self.assertTrue(refused_memory.is_right(answer, own))

    def test_wrong_ones(self) -> None:
        for answer, own in [
            (ended(Status.DONE, b"text", NO_MEMORY), self.DONE),
            (ended(Status.DONE, b"", NO_MEMORY), self.DONE),
            (ended(Status.DONE, b"tex"), self.DONE),
            (ended(Status.MEMORY, b"text", NO_MEMORY), self.DONE),
            (ended(Status.MEMORY), self.DONE),
            (ended(Status.DONE, err=NO_MEMORY), self.REFUSED),
            (ended(Status.INPUT, err=NO_MEMORY), self.REFUSED),
            (ended(-11), self.DONE),
        ]:
            with self.subTest(answer):
                self.assertFalse(refused_memory.is_right(answer, own))


class Tests(unittest.TestCase):
    def test_where_they_are(self) -> None:
        for test, name in zip(refused_memory.tests(), refused_memory.TESTS):
            self.assertTrue(test.words[0].endswith(f"::{name}"))
            self.assertTrue(test.program.endswith("_tests"))

    def test_one_that_is_not_there(self) -> None:
        with self.assertRaisesRegex(Wrong, "no test has the name no_such_test"):
            refused_memory.test_named("no_such_test")


@NEEDS_COMPILER
class Memory(unittest.TestCase):
    def setUp(self) -> None:
        folder = tempfile.TemporaryDirectory()
        self.addCleanup(folder.cleanup)
        self.refusals = refused_memory.Refusals(folder.name)

    def test_each_allocation_of_small_calls(self) -> None:
        for call_made in refused_memory.small_calls():
            with self.subTest(str(call_made)):
                self.refusals.refuse_each(call_made)

    def test_a_program_that_has_none(self) -> None:
        self.refusals.library = ""
        with self.assertRaisesRegex(Wrong, "no allocation was counted"):
            self.refusals.refuse_each(refused_memory.small_calls()[0])


class Streams(unittest.TestCase):
    def test_each_case(self) -> None:
        for case in devices.CASES:
            with self.subTest(case.name):
                devices.check_case(case)

    def test_a_reader_that_left(self) -> None:
        devices.check_reader_that_left()


@NEEDS_COMPILER
class Threads(unittest.TestCase):
    def setUp(self) -> None:
        folder = tempfile.TemporaryDirectory()
        self.addCleanup(folder.cleanup)
        self.threads = devices.Threads(folder.name)

    def test_each_refusal(self) -> None:
        devices.check_threads(self.threads, [("stores.s", 3)], (8,), 2)

    def test_none_was_refused(self) -> None:
        with self.assertRaisesRegex(Wrong, "none was refused"):
            self.threads.run(["gen", "--limit", "10"], b"", devices.REFUSALS[0])
