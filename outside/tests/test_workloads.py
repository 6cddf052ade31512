"""The workloads in C print what a host printed, and in speculative mode report what they report cycle by cycle."""

import unittest

import workloads
from program import EXAMPLES, call


class Workloads(unittest.TestCase):
    def test_reports(self) -> None:
        for name, wanted in workloads.printed().items():
            with self.subTest(name):
                workloads.check(name, wanted)

    def test_each_is_listed_kept_and_has_its_reference(self) -> None:
        listed = [name for name, *_ in workloads.rows("list.txt")]
        self.assertEqual(listed, list(workloads.printed()))
        self.assertEqual(sorted(listed), sorted(path.stem for path in workloads.FOLDER.glob("*.elf")))

    def test_a_console_that_is_another_one(self) -> None:
        with self.assertRaisesRegex(workloads.Wrong, "chase, 1 cores: the console has b'[0-9a-f]{8}.n', and a host printed b'none'$"):
            workloads.check("chase", b"none")

    def test_a_report_that_is_another_one(self) -> None:
        name, wanted = next(iter(workloads.printed().items()))
        with self.assertRaisesRegex(workloads.Wrong, f"{name}, 1 cores: another report with --memory-delay 11$"):
            workloads.check(name, wanted, ("--memory-delay", "11"))


class Squares(unittest.TestCase):
    """Core 0 finds the others in every exact mode, however long the ways are."""

    def test_any_number_of_cores(self) -> None:
        data = (EXAMPLES / "c/squares.elf").read_bytes()
        slow = ["--snoop", "63", "--memory-delay", "64", "--transfer", "64", "--occupancy", "64"]
        for cores in range(1, 17):
            for words in ([], slow, ["--sets", "1", "--ways", "1", "--buses", "4"]):
                with self.subTest(cores=cores, words=words):
                    ended = call(["run", "--cores", str(cores), *words], data)
                    self.assertEqual((ended.status, workloads.console(ended.out)), (0, b"338350\n"))
