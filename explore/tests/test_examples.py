"""The simulator itself: its faults, and the studies of the examples, whose pages have their tables."""

import re
import unittest

from explore.tests.support import REAL, TOP, StudyTest

STUDIES = TOP / "examples/studies"


@unittest.skipUnless(REAL.exists(), "the simulator isn't built")
class Examples(StudyTest):
    def setUp(self) -> None:
        super().setUp()
        self.program = REAL

    def tables(self, page: str) -> list[dict[tuple[str, str], str]]:
        """The tables of a page: each cell by the values of its row and its column."""
        found = []
        for table in re.findall(r"(?m)^\| \w+ \\ \w+ \|.*\n(?:\|.*\n)+", (STUDIES / page).read_text()):
            head, _, *rows = [[cell.strip() for cell in line.strip("|").split("|")] for line in table.splitlines()]
            found.append({(row[0], column): cell for row in rows for column, cell in zip(head[1:], row[1:])})
        return found

    def is_as_the_page_says(self, study: str, table: dict[tuple[str, str], str], row: str, column: str) -> None:
        ran = self.tool("run", STUDIES / f"{study}.toml", "--out", self.out)
        self.assertEqual(ran.returncode, 0, ran.stderr)
        self.assertEqual({it["status"] for it in self.rows()}, {"0"})
        self.assertEqual({(it[row], it[column]): it["cycles"] for it in self.rows()}, table)

    def test_caches(self) -> None:
        (table,) = self.tables("caches.md")
        self.is_as_the_page_says("caches", table, "sets", "ways")

    def test_the_lock(self) -> None:
        table, _ = self.tables("scaling.md")
        self.is_as_the_page_says("scaling-lock", table, "buses", "cores")
        # One bus with 8 cores, as the page tells of it.
        row = next(it for it in self.rows() if (it["buses"], it["cores"]) == ("1", "8"))
        self.assertEqual((row["bus_retries"], row["bus_asks"]), ("2421", "4919"))

    def test_the_barrier(self) -> None:
        _, table = self.tables("scaling.md")
        self.is_as_the_page_says("scaling-barrier", table, "buses", "cores")

    def test_the_workloads(self) -> None:
        for table in self.tables("workloads.md"):
            for study in dict.fromkeys(row for row, _ in table):
                with self.subTest(study):
                    ran = self.tool("run", STUDIES / f"{study}.toml", "--out", self.folder / study)
                    self.assertEqual(ran.returncode, 0, ran.stderr)
                    self.out = self.folder / study
                    self.assertEqual({it["status"] for it in self.rows()}, {"0"})
                    wanted = {column: cell for (row, column), cell in table.items() if row == study}
                    self.assertEqual({it.get("sets") or it["cores"]: it["cycles"] for it in self.rows()}, wanted)

    def test_the_simulators_faults(self) -> None:
        image = f'image = "{TOP}/examples/letters.slk1"\n'
        faults = {
            "ways = 9": ": ways = 9: slacksim: words: bound ways given 9",
            "memory-delay = 2": ": memory-delay = 2: slacksim: words: bound memory_delay given 2",
            "limit = 0": ": limit = 0: slacksim: words: bound limit given 0",
            "seed = 1": ": seed = 1: slacksim: words: option at 5",
            'format = "text"': ": format = text: slacksim: words: twice at 5",
            'mode = "fast"': ": mode = fast: slacksim: words: value at 6",
            'steps = "t0,q"': ": steps = t0,q: slacksim: words: steps at 6 byte",
        }
        for line, fault in faults.items():
            with self.subTest(line):
                self.study(f"{image}[options]\n{line}\n")
                self.assertIn(f"s.toml:3{fault}", self.run_study(status=2))
        self.study(image + "[options]\nmemory = 4096\nbase = [0, 4096]\n")
        self.assertIn("s.toml:1: image = ", self.run_study(status=2))
        self.assertFalse(self.out.exists())

    def test_generated_programs(self) -> None:
        self.study("gen = true\n[options]\ncores = 2\nlimit = [1, 100000]\nseed = [3, 4]\n")
        self.run_study()
        self.assertEqual([row["status"] for row in self.rows()], ["4", "4", "0", "0"])
        self.assertEqual(self.rows()[0]["cause"], "core 0 running 0 at 1; core 1 running 0 at 1")

    def test_the_table_has_what_the_report_has(self) -> None:
        self.study('text = "stores.s"\n[options]\ncores = 2\n')
        (self.folder / "stores.s").write_bytes((TOP / "examples/stores.s").read_bytes())
        self.run_study()
        (row,) = self.rows()
        # The numbers are those of the page on the machine.
        self.assertEqual((row["cycles"], row["core0_at"], row["core1_at"]), ("22", "14", "21"))
        self.assertEqual((row["core1_misses"], row["core1_retries"], row["core1_waits"], row["core0_waits"]), ("6", "5", "11", "9"))
        self.assertEqual((row["misses"], row["waits"], row["bus_asks"], row["bus0_retries"], row["bus0_free"]), ("7", "20", "8", "5", "17"))
