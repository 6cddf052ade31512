"""What a few calls of the program print, worked by hand."""

import json
import unittest

from program import Status, call, example


class Rows(unittest.TestCase):
    def test_bytes_for_the_console_out_of_order(self) -> None:
        """Each core's third instruction, in its cycle 2, puts its letter. Core 1's is served first, then core 0's with a lesser
        id: so the console has B, then A, and its monitor records the two ids. The console's number comes after the bus's."""
        words = ["run", "--cores", "2", "--mode", "script", "--steps", "t1x3,s1,t0x3,s0", "--notes", "on"]
        ended = call(words, example("letters.slk1"))
        self.assertEqual(ended.status, Status.DONE)
        self.assertIn(b"console 2\nBA\n", ended.out)
        self.assertEqual([it for it in ended.out.splitlines() if it.startswith(b"bus channel")], [b"bus channel 1 high 2.1.0 low 2.0.0"])

    def test_lines_of_generated_programs(self) -> None:
        """Cycle by cycle each line is coherent, whatever program runs."""
        for form in ("text", "json", "dump"):
            with self.subTest(form):
                ended = call(["gen", "--seed", "3", "--cores", "2", "--check", "on", "--format", form])
                self.assertTrue(ended.out.endswith(b"\ncoherence 0\n"))

    def test_a_report_as_json_before_the_check(self) -> None:
        lines = call(["gen", "--seed", "3", "--cores", "2", "--check", "on", "--format", "json"]).out.splitlines()
        report = json.loads(next(line for line in lines if line.startswith(b"{")))
        self.assertEqual(len(report["cores"]), 2)


if __name__ == "__main__":
    unittest.main()
