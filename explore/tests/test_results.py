"""The table, against reports that were written by hand."""

import json
import tempfile
import unittest
from pathlib import Path
from typing import Any
from unittest.mock import patch

from explore.faults import Refused
from explore.points import Point
from explore.programs import Answer, Program
from explore.results import Table, read_table, row_of, write_whole

# A report of two cores and two buses: core 0 exited, core 1 was trapped.
REPORT: dict[str, Any] = {
    "buses": [{"asks": 8, "free": 17, "retries": 5}, {"asks": 2, "free": 9, "retries": 1}],
    "console": "41",
    "cores": [
        {"accesses": 1, "at": 14, "end": "exit", "misses": 2, "retired": 5, "retries": 3, "snoops": 1, "value": 0, "waits": 9, "writebacks": 0},
        {"accesses": 10, "at": 21, "end": "outside", "misses": 20, "retired": 50, "retries": 30, "snoops": 0, "value": 4096, "waits": 11, "writebacks": 4},
    ],
    "cycles": 22,
}
TEXT = """\
ways,status,cause,cycles,accesses,misses,retired,retries,snoops,waits,writebacks,bus_asks,bus_retries,\
core0_accesses,core0_at,core0_end,core0_misses,core0_retired,core0_retries,core0_snoops,core0_value,core0_waits,core0_writebacks,\
core1_accesses,core1_at,core1_end,core1_misses,core1_retired,core1_retries,core1_snoops,core1_value,core1_waits,core1_writebacks,\
bus0_asks,bus0_free,bus0_retries,bus1_asks,bus1_free,bus1_retries,image,program
4,1,core 1 outside 4096 at 21,22,11,22,55,33,1,20,4,10,6,\
1,14,exit,2,5,3,1,0,9,0,\
10,21,outside,20,50,30,0,4096,11,4,\
8,17,5,2,9,1,image-digest,program-digest
8,-11,stopped by signal 11,,,,,,,,,,,,,,,,,,,,,,,,,,,,,,,,,,,,,image-digest,program-digest
"""


class ProgramOfDigest(Program):
    def __init__(self) -> None:
        self.digest = "program-digest"


def row(ways: str, answer: Answer) -> dict[str, str]:
    return row_of(Point({"ways": ways}, {}, "run", b"", "image-digest"), ProgramOfDigest(), answer)


class Tables(unittest.TestCase):
    def setUp(self) -> None:
        folder = tempfile.TemporaryDirectory()
        self.addCleanup(folder.cleanup)
        self.folder = Path(folder.name)

    def test_the_table_of_reports(self) -> None:
        out = json.dumps(REPORT).encode() + b"\n"
        table = Table(["ways"], [row("4", Answer(1, out, "")), row("8", Answer(-11, b"", ""))])
        self.assertEqual(table.text(), TEXT)

    def test_a_table_is_read_as_it_was_written(self) -> None:
        (self.folder / "results.csv").write_text(TEXT)
        table = read_table(self.folder)
        self.assertEqual((table.options, table.text()), (["ways"], TEXT))

    def test_a_report_behind_a_first_line(self) -> None:
        out = b"gen 1 words 1005\n" + json.dumps(REPORT).encode() + b"\n"
        self.assertEqual(row("4", Answer(0, out, ""))["misses"], "22")

    def test_answers_without_a_report(self) -> None:
        self.assertEqual(row("4", Answer(None, b"", "not started: no such file"))["cause"], "not started: no such file")
        self.assertEqual(row("4", Answer(None, b"", "not started: no such file"))["status"], "")
        for out in (b"", b"[]\n", b'{"cycles": 3}\n', b"cores 1\n"):
            self.assertEqual((row("4", Answer(0, out, ""))["cause"], row("4", Answer(0, out, ""))["status"]), ("no report", "0"))

    def test_more_cores_in_a_later_row(self) -> None:
        one = {**REPORT, "cores": REPORT["cores"][:1], "buses": []}
        rows = [row("1", Answer(0, json.dumps(it).encode(), "")) for it in (one, REPORT)]
        self.assertEqual(Table(["ways"], rows).columns(), TEXT.splitlines()[0].split(","))
        self.assertEqual((rows[0]["misses"], rows[1]["misses"]), ("2", "22"))

    def test_a_file_is_whole_or_as_it_was(self) -> None:
        path = self.folder / "results.csv"
        path.write_text("before")
        with patch("os.replace", side_effect=KeyboardInterrupt), self.assertRaises(KeyboardInterrupt):
            write_whole(path, b"after")
        self.assertEqual(path.read_text(), "before")
        write_whole(path, b"after")
        self.assertEqual([(it.name, it.read_text()) for it in self.folder.iterdir()], [("results.csv", "after")])

    def test_a_file_that_cannot_be_written(self) -> None:
        with self.assertRaisesRegex(Refused, "none/results.csv: No such file"):
            write_whole(self.folder / "none/results.csv", b"after")

    def test_tables_that_are_none(self) -> None:
        for data in (b"", b"a,b\n1,2\n", b"ways,status,cause\n1,2,3\n", TEXT.encode() + b'"', b"\xff"):
            (self.folder / "results.csv").write_bytes(data)
            with self.assertRaisesRegex(Refused, "no table of a study"):
                read_table(self.folder)
        (self.folder / "results.csv").unlink()
        with self.assertRaisesRegex(Refused, "No such file"):
            read_table(self.folder)
