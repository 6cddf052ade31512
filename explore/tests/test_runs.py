"""Runs of studies: points that fail, tables that are there already, and tools that are killed."""

import contextlib
import fcntl
import io
import os

from explore.progress import Counter
from explore.tests.support import POINTS, TOP, StudyTest

IMAGE = 'image = "image"\n'


class Failing(StudyTest):
    def table(self, *image: str, status: int = 0) -> list[dict[str, str]]:
        self.study(IMAGE + POINTS, f"log {self.log}", *image)
        self.run_study(status=status)
        return self.rows()

    def causes(self, *image: str, status: int = 0) -> list[tuple[str, str]]:
        return [(row["status"], row.get("cause", "")) for row in self.table(*image, status=status)]

    def test_a_trap(self) -> None:
        wanted = [("0", "")] * 4 + [("1", "core 1 illegal 12 at 9"), ("0", "")]
        self.assertEqual(self.causes("trap ways=2 cores=2"), wanted)

    def test_another_code(self) -> None:
        self.assertEqual(self.causes("code ways=1")[0], ("1", "core 0 exit 46 at 9"))

    def test_a_limit(self) -> None:
        rows = self.table("limit cores=1")
        self.assertEqual([row["status"] for row in rows], ["4"] * 3 + ["0"] * 3)
        self.assertEqual((rows[0]["cause"], rows[0]["cycles"], rows[0]["accesses"]), ("core 0 running 0 at 9", "1110", "100"))

    def test_a_fault(self) -> None:
        rows = self.table("memory ways=4 cores=1", status=1)
        self.assertEqual((rows[2]["status"], rows[2]["cause"], rows[2].get("cycles")), ("7", "slacksim: out of memory", None))

    def test_a_signal(self) -> None:
        self.assertEqual(self.causes("kill ways=4 cores=1", status=1)[2], ("-9", "stopped by signal 9"))

    def test_what_the_host_ended_is_run_again(self) -> None:
        self.assertEqual(len(self.table("trap ways=1", "limit ways=2", "kill ways=4 cores=1", status=1)), 6)
        self.log.unlink()
        said = self.run_study(status=1)
        self.assertEqual(self.ran(), ["run --cores 1 --ways 4"])
        self.assertIn("the host ended 1 of the points", said)


class Again(StudyTest):
    def ran_again(self) -> list[str]:
        self.log.unlink(missing_ok=True)
        self.run_study("--jobs", "1")
        return self.ran()

    def test_nothing_is_run_twice(self) -> None:
        self.study(IMAGE + POINTS, f"log {self.log}", "trap ways=1", "limit ways=2")
        self.assertEqual(len(self.ran_again()), 6)
        table = (self.out / "results.csv").read_bytes()
        self.assertEqual(self.ran_again(), [])
        self.assertEqual((self.out / "results.csv").read_bytes(), table)

    def test_a_wider_study(self) -> None:
        self.study(IMAGE + POINTS, f"log {self.log}")
        self.ran_again()
        # The order of the options in the file doesn't tell points apart.
        (self.folder / "s.toml").write_text(IMAGE + "[options]\nways = [1, 8, 2]\ncores = [2, 1]\n")
        self.assertEqual(self.ran_again(), ["run --ways 8 --cores 2", "run --ways 8 --cores 1"])
        self.assertEqual([(row["ways"], row["cores"]) for row in self.rows()], [(w, c) for w in "182" for c in "21"])

    def test_another_image_or_program(self) -> None:
        self.study(IMAGE + POINTS, f"log {self.log}")
        self.ran_again()
        self.study(IMAGE + POINTS, f"log {self.log}", "delay 0")
        self.assertEqual(len(self.ran_again()), 6)
        self.program.write_text(self.program.read_text() + "# another\n")
        self.assertEqual(len(self.ran_again()), 6)
        self.assertEqual(len(self.rows()), 6)
        self.assertEqual(len({row["program"] for row in self.rows()}), 1)

    def test_rows_that_are_left_out_are_told(self) -> None:
        self.study(IMAGE + POINTS)
        self.run_study()
        self.study(IMAGE + POINTS.replace("4]", "8]"))
        self.assertIn("2 rows of the table", self.run_study())

    def test_a_program_that_changes_meanwhile(self) -> None:
        self.study(IMAGE + POINTS, f"change {self.program} ways=4 cores=1")
        self.assertIn("was changed while it ran", self.run_study("--jobs", "1", status=2))
        self.assertLess(len(self.rows()), 3)

    def test_the_launcher_is_no_program(self) -> None:
        self.study(IMAGE)
        self.program = TOP / "slacksim"
        self.assertIn("is the launcher", self.run_study(status=2))

    def test_a_table_of_something_else(self) -> None:
        self.study(IMAGE)
        self.out.mkdir()
        (self.out / "results.csv").write_text("a,b\n1,2\n")
        self.assertIn("results.csv: this is no table of a study", self.run_study(status=2))
        self.assertEqual((self.out / "results.csv").read_text(), "a,b\n1,2\n")

    def test_one_study_at_a_time(self) -> None:
        self.study(IMAGE)
        self.out.mkdir()
        place = os.open(self.out, os.O_RDONLY)
        fcntl.flock(place, fcntl.LOCK_EX)
        self.addCleanup(os.close, place)
        self.assertIn("another study is running into it", self.run_study(status=2))


class Killed(StudyTest):
    def test_at_each_point(self) -> None:
        self.study(IMAGE + POINTS)
        self.run_study()
        whole, self.out = self.rows(), self.folder / "killed"
        for number in range(1, 7):
            self.study(IMAGE + POINTS, f"log {self.log}", f"parent {self.folder / f'runs{number}'} {number}")
            self.run_study("--jobs", "1", status=-9)
            kept = self.rows()
            # What ended before the last run is in the table, and all of it is whole.
            self.assertGreaterEqual(len(kept), number - 2)
            self.assertLess(len(kept), number)
            self.log.unlink()
            self.run_study("--jobs", "1")
            self.assertEqual(len(self.ran()), 6 - len(kept))
            self.assertEqual([{**row, "image": ""} for row in self.rows()], [{**row, "image": ""} for row in whole])
            self.assertEqual(self.rows()[: len(kept)], kept)
            (self.out / "results.csv").unlink()

    def test_half_a_table_is_passed_over(self) -> None:
        self.study(IMAGE + POINTS)
        self.run_study()
        whole = (self.out / "results.csv").read_bytes()
        (self.out / "results.csv.part").write_bytes(whole[:100])
        self.run_study()
        self.assertEqual((self.out / "results.csv").read_bytes(), whole)
        self.assertEqual(sorted(it.name for it in self.out.iterdir()), ["results.csv", "study.toml"])


class Telling(StudyTest):
    def test_a_plain_counter(self) -> None:
        with contextlib.redirect_stderr(io.StringIO()) as said:
            counter = Counter(6, 2)
            counter.update(3)
            counter.update(1)
            counter.close()
        self.assertEqual(said.getvalue(), "2 of 6 points, 4 left\n6 of 6 points, 0 left\n")

    def test_what_is_left_is_told(self) -> None:
        self.study(IMAGE + POINTS)
        self.assertRegex(self.run_study(), r"6/6|6 of 6 points, 0 left")
