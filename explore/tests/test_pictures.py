"""Pictures of tables, and the terms that they show."""

import unittest
import xml.etree.ElementTree as ElementTree
from pathlib import Path

from explore.faults import Refused
from explore.results import Row, Table, read_tables
from explore.terms import Line, lines_of, read_term
from explore.tests.support import StudyTest, has

# A table of two options, with the cycles, the misses and the accesses of each point.
NUMBERS = [("1", "1", 1000, 60, 100), ("1", "8", 900, 30, 100), ("1", "16", 800, 10, 100), ("2", "1", 500, 60, 200), ("2", "8", 300, 30, 200), ("2", "16", 200, 0, 200)]


def table() -> Table:
    rows: list[Row] = [
        {"cores": cores, "ways": ways, "status": "0", "cycles": str(cycles), "misses": str(misses), "accesses": str(accesses), "core0_end": "exit"}
        for cores, ways, cycles, misses, accesses in NUMBERS
    ]
    return Table(["cores", "ways"], rows)


class Terms(unittest.TestCase):
    def shown(self, x: str, y: str, lines: str | None, table: Table) -> list[Line]:
        return lines_of(table, table.rows, x, read_term(y, table), lines)

    def test_a_column(self) -> None:
        wanted = [Line("cores = 1", [(1, 1000), (8, 900), (16, 800)]), Line("cores = 2", [(1, 500), (8, 300), (16, 200)])]
        self.assertEqual(self.shown("ways", "cycles", "cores", table()), wanted)

    def test_a_ratio(self) -> None:
        wanted = [Line("ways = 1", [(1, 0.6), (2, 0.3)]), Line("ways = 8", [(1, 0.3), (2, 0.15)]), Line("ways = 16", [(1, 0.1), (2, 0)])]
        self.assertEqual(self.shown("cores", "misses/accesses", "ways", table()), wanted)

    def test_a_speed_up(self) -> None:
        wanted = [Line("ways = 1", [(1, 1), (2, 2)]), Line("ways = 8", [(1, 1), (2, 3)]), Line("ways = 16", [(1, 1), (2, 4)])]
        self.assertEqual(self.shown("cores", "cycles@cores=1/cycles", "ways", table()), wanted)
        self.assertEqual(self.shown("cores", "cycles/cycles@cores=1@ways=1", "ways", table())[1].points, [(1, 0.9), (2, 0.3)])

    def test_places_that_are_no_numbers(self) -> None:
        given = table()
        del given.rows[0]["ways"]
        self.assertEqual(self.shown("ways", "cycles", "cores", given)[0].points, [("8", 900), ("16", 800), ("default", 1000)])

    def test_terms_that_are_none(self) -> None:
        for text, fault in {
            "cycles/misses/ways": "a ratio of two",
            "colour": "colour: no column of the table; these are cores, ways, status",
            "cycles@cycles=3": "cycles: no option of the table; these are cores, ways",
            "cycles@": "a column is wanted",
            "": "a column is wanted",
        }.items():
            with self.subTest(text), self.assertRaisesRegex(Refused, fault):
                read_term(text, table())

    def test_values_that_are_not_there(self) -> None:
        with self.assertRaisesRegex(Refused, "cycles at cores = 4: the table has no such row for the point cores = 1, ways = 1"):
            self.shown("ways", "cycles@cores=4/cycles", "cores", table())
        with self.assertRaisesRegex(Refused, "misses is 0 in the point cores = 2, ways = 16"):
            self.shown("ways", "cycles/misses", "cores", table())
        with self.assertRaisesRegex(Refused, "core0_end is exit, and no number"):
            self.shown("ways", "core0_end", "cores", table())

    def test_two_points_at_one_place(self) -> None:
        with self.assertRaisesRegex(Refused, "two points have ways = 1: choose by --where one value of cores"):
            self.shown("ways", "cycles", None, table())


class Plots(StudyTest):
    def setUp(self) -> None:
        super().setUp()
        self.out.mkdir()
        (self.out / "results.csv").write_text(table().text())
        (self.out / "study.toml").write_text('text = "programs/walk.s"\n')

    def plot(self, *words: str | Path, name: str = "a.svg", status: int = 0) -> str:
        ran = self.tool("plot", self.out, *words, "-o", self.folder / name)
        self.assertEqual(ran.returncode, status, ran.stderr)
        return ran.stderr

    def texts(self, name: str = "a.svg") -> list[str]:
        return [it.text or "" for it in ElementTree.parse(self.folder / name).iter("{http://www.w3.org/2000/svg}text")]

    @unittest.skipUnless(has("matplotlib"), "python3-matplotlib isn't there")
    def test_a_picture_names_what_it_shows(self) -> None:
        self.plot("--x", "ways", "--y", "misses/accesses", "--lines", "cores", "--log-x")
        for text in ("walk.s", "ways (lines of a set)", "misses / accesses", "cores = 1", "cores = 2", "1", "8", "16"):
            self.assertIn(text, self.texts())

    @unittest.skipUnless(has("matplotlib"), "python3-matplotlib isn't there")
    def test_the_points_that_are_chosen(self) -> None:
        self.plot("--x", "ways", "--y", "cycles", "--where", "cores=2", "--log-y")
        self.assertIn("walk.s, cores = 2", self.texts())
        self.assertNotIn("cores = 2", self.texts())

    @unittest.skipUnless(has("matplotlib"), "python3-matplotlib isn't there")
    def test_the_same_table_gives_the_same_picture(self) -> None:
        for name in ("a.svg", "b.svg", "a.png"):
            self.plot("--x", "ways", "--y", "cycles", "--lines", "cores", name=name)
        self.assertEqual((self.folder / "a.svg").read_bytes(), (self.folder / "b.svg").read_bytes())
        self.assertEqual((self.folder / "a.png").read_bytes()[:8], b"\x89PNG\r\n\x1a\n")

    @unittest.skipUnless(has("matplotlib"), "python3-matplotlib isn't there")
    def test_points_that_did_not_end_are_left_out_and_told(self) -> None:
        text = (self.out / "results.csv").read_text()
        (self.out / "results.csv").write_text(text.replace("exit", "running", 1))
        self.assertIn("1 points aren't shown", self.plot("--x", "ways", "--y", "cycles", "--lines", "cores"))

    def second(self, name: str) -> Path:
        """Another folder, with a table of one option alone, whose points are faster."""
        folder = self.folder / name
        folder.mkdir(parents=True)
        rows: list[Row] = [{**row, "cycles": str(int(row["cycles"]) // 2)} for row in table().rows if row.pop("cores") == "1"]
        (folder / "results.csv").write_text(Table(["ways"], rows).text())
        (folder / "study.toml").write_text('text = "run.s"\n')
        return folder

    def test_tables_of_several_folders(self) -> None:
        joined = read_tables([self.out, self.second("other")])
        self.assertEqual(joined.options, ["folder", "cores", "ways"])
        chosen = [row for row in joined.rows if row.get("cores") != "2"]
        wanted = [Line("folder = other", [(1, 500), (8, 450), (16, 400)]), Line("folder = out", [(1, 1000), (8, 900), (16, 800)])]
        self.assertEqual(lines_of(joined, chosen, "ways", read_term("cycles", joined), "folder"), wanted)
        speed_up = lines_of(joined, chosen, "ways", read_term("cycles@ways=1/cycles", joined), "folder")
        self.assertEqual([line.points[2] for line in speed_up], [(16, 1.25), (16, 1.25)])

    @unittest.skipUnless(has("matplotlib"), "python3-matplotlib isn't there")
    def test_a_picture_of_several_folders(self) -> None:
        other = self.second("other")
        self.assertIn("two points have ways = 1 and folder = out", self.plot(other, "--x", "ways", "--y", "cycles", "--lines", "folder", status=2))
        self.plot(other, "--x", "ways", "--y", "cycles", "--lines", "cores", "--where", "folder=out")
        self.assertIn("walk.s, run.s, folder = out", self.texts())

    def test_folders_of_one_name(self) -> None:
        said = self.plot(self.second("more/out"), "--x", "ways", "--y", "cycles", status=2)
        self.assertIn("two of the folders have one name: out, out", said)

    def test_what_is_refused(self) -> None:
        self.assertIn("colour: no column", self.plot("--x", "colour", "--y", "cycles", status=2))
        self.assertIn("cycles: no option", self.plot("--x", "ways", "--y", "cycles", "--where", "cycles=3", status=2))
        self.assertIn("there is no point", self.plot("--x", "ways", "--y", "cycles", "--where", "cores=3", status=2))
        self.assertIn(".svg or .png", self.plot("--x", "ways", "--y", "cycles", name="a.pdf", status=2))
        self.assertFalse((self.folder / "a.svg").exists())
