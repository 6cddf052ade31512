"""How a program is called, and what is said of runs and their notes."""

import pathlib
import sys
import time
import unittest

import notes as noted
from program import Status, Wrong, call

REPORT = b"cores 2\ncycles 30\ncore 0 exit 0 at 29 retired 1\ncore 1 exit 0 at 12 retired 1\nbus 0 asks 0 retries 0 free 0\nconsole 0\n\n"
NOTES = b"""\
interval 0 kept 20
interval 1 rolled 20 bus 1 map 0 line 1 reply 0
bus channel 0 high 21.1.0 low 20.0.0
line core 1 id 20.0.0 due 22 clock 25
ticks drift 80 replay 40
"""
SETTING = noted.Setting("speculative", 2, 8, 20, 1000)
BOUNDED = b"""\
interval 0 bounded 20 bus 0 map 0 line 0 reply 0
interval 1 bounded 20 bus 0 map 0 line 0 reply 1
reply core 0 id 30.0.0 due 33 clock 40
ticks drift 80 replay 0
"""


def is_running(process: int) -> bool:
    """Whether it isn't gone, nor waits for whoever started it to see that it is."""
    status = pathlib.Path(f"/proc/{process}/stat")
    return status.exists() and status.read_text().rpartition(")")[2].split()[0] not in "XZ"


def check(text: bytes, setting: noted.Setting = SETTING, end: int = 40) -> None:
    noted.check(noted.read(text), setting, end)


class Calls(unittest.TestCase):
    def test_what_a_run_comes_to(self) -> None:
        text = "import sys; sys.stdout.write(sys.stdin.read().upper()); sys.stderr.write('b'); sys.exit(4)"
        ended = call(["-c", text], b"a", program=sys.executable)
        self.assertEqual(ended.said(), (4, b"A", b"b"))
        self.assertFalse(ended.hung)
        self.assertGreater(ended.kilobytes, 100)

    def test_what_hangs_is_killed_with_all_that_it_started(self) -> None:
        ended = call(["-c", "sleep 100 & echo $!; wait"], program="/bin/sh", seconds=0.2)
        self.assertTrue(ended.hung)
        self.assertLess(ended.status, 0)
        end = time.monotonic() + 10
        while is_running(int(ended.out)):
            self.assertLess(time.monotonic(), end)

    def test_a_program_that_is_not_there(self) -> None:
        with self.assertRaisesRegex(Wrong, "not built: /none"):
            call([], program="/none")


class Reports(unittest.TestCase):
    def test_status(self) -> None:
        self.assertEqual(noted.status_of(REPORT), Status.DONE)
        self.assertEqual(noted.status_of(REPORT.replace(b"core 1 exit 0", b"core 1 exit 5")), Status.OTHER_END)
        self.assertEqual(noted.status_of(REPORT.replace(b"core 1 exit 0", b"core 1 trap break 00000000")), Status.OTHER_END)
        self.assertEqual(noted.status_of(REPORT.replace(b"core 1 exit 0", b"core 1 running")), Status.LIMIT)
        self.assertIsNone(noted.status_of(b""))

    def test_checkpoint(self) -> None:
        self.assertEqual(noted.checkpoint(REPORT, SETTING), 40)
        self.assertEqual(noted.checkpoint(REPORT, SETTING._replace(limit=30)), 30)
        self.assertEqual(noted.checkpoint(REPORT.replace(b"core 1 exit 0", b"core 1 running"), SETTING), 1000)


class Notes(unittest.TestCase):
    def test_divided(self) -> None:
        self.assertEqual(noted.divided(REPORT + NOTES), (REPORT, NOTES))
        with self.assertRaises(Wrong):
            noted.divided(REPORT)

    def test_right_ones(self) -> None:
        check(NOTES)
        check(BOUNDED, SETTING._replace(mode="bounded"))
        self.assertEqual((noted.read(NOTES).rolled(), noted.read(NOTES).records()), (1, 2))

    def test_wrong_ones(self) -> None:
        for old, new in [
            (b"kept 20", b"kept 19"),
            (b"kept 20", b"bounded 20 bus 0 map 0 line 0 reply 0"),
            (b"kept 20", b"kept 20\nbus channel 0 high 2.1.0 low 1.0.0"),
            (b"interval 1", b"interval 2"),
            (b"bus 1", b"bus 2"),
            (b"map 0", b"map 1"),
            (b"bus channel 0 high 21.1.0 low 20.0.0\n", b""),
            (b"high 21.1.0 low 20.0.0", b"high 20.0.0 low 20.0.0"),
            (b"high 21.1.0 low 20.0.0", b"high 20.0.0 low 21.1.0"),
            (b"high 21.1.0", b"high 40.1.0"),
            (b"high 21.1.0", b"high 21.2.0"),
            (b"due 22 clock 25", b"due 25 clock 25"),
            (b"due 22 clock 25", b"due 22 clock 41"),
            (b"line core 1 id", b"line core 2 id"),
            (b"drift 80", b"drift 79"),
            (b"replay 40", b"replay 80"),
            (b"ticks drift 80 replay 40\n", b""),
        ]:
            with self.subTest(new), self.assertRaises(Wrong):
                check(NOTES.replace(old, new))

    def test_an_interval_rolled_back_for_nothing(self) -> None:
        with self.assertRaises(Wrong):
            check(b"interval 0 rolled 20 bus 0 map 0 line 0 reply 0\nticks drift 40 replay 40\n", end=20)

    def test_another_end(self) -> None:
        with self.assertRaises(Wrong):
            check(NOTES, end=60)

    def test_a_late_post_within_the_lookahead(self) -> None:
        with self.assertRaises(Wrong):
            check(BOUNDED, SETTING._replace(mode="bounded", slack=2))
        check(BOUNDED, SETTING._replace(mode="bounded", slack=3))
