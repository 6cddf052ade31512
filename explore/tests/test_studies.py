"""Studies that are right, and studies that are refused."""

import tomllib
import unittest

from explore.statements import lines_of
from explore.tests.support import POINTS, StudyTest

IMAGE = 'image = "image"\n'


class Right(StudyTest):
    def test_all_combinations_in_order(self) -> None:
        self.study(IMAGE + POINTS, f"log {self.log}")
        self.run_study("--jobs", "1")
        wanted = [f"run --cores {cores} --ways {ways}" for cores in (1, 2) for ways in (1, 2, 4)]
        self.assertEqual(self.ran(), wanted)
        self.assertEqual([(row["cores"], row["ways"]) for row in self.rows()], [(c, w) for c in "12" for w in "124"])

    def test_a_list_of_points(self) -> None:
        points = "[[points]]\ncores = 2\nways = 8\n[[points]]\nways = [1, 2]\nsnoop = 3\n[[points]]\nways = 8\ncores = 2\n"
        self.study(IMAGE + "[options]\ncores = 1\n" + points, f"log {self.log}")
        self.run_study("--jobs", "1")
        self.assertEqual(self.ran(), ["run --cores 2 --ways 8", "run --cores 1 --ways 1 --snoop 3", "run --cores 1 --ways 2 --snoop 3"])
        self.assertEqual([row.get("snoop") for row in self.rows()], [None, "3", "3"])

    def test_a_study_without_options_is_one_point(self) -> None:
        self.study(IMAGE, f"log {self.log}")
        self.run_study()
        self.assertEqual(self.ran(), ["run"])

    def test_a_text_is_assembled(self) -> None:
        self.study('text = "text"\n' + POINTS)
        (self.folder / "text").write_text(f"words\nlog {self.log}\n")
        self.run_study()
        self.assertEqual(len(self.ran()), 6)

    def test_seeds(self) -> None:
        self.study("gen = true\noptions.seed = [3, 4]\n")
        self.run_study()
        self.assertEqual([(row["seed"], row["status"], row["image"]) for row in self.rows()], [("3", "0", "gen"), ("4", "0", "gen")])

    def test_the_study_is_kept_as_run(self) -> None:
        path = self.study(IMAGE + POINTS + "# a comment\n")
        self.run_study()
        self.assertEqual((self.out / "study.toml").read_bytes(), path.read_bytes())


class Wrong(StudyTest):
    def test_no_toml(self) -> None:
        self.assertRegex(self.refusals(IMAGE + "[options]\ncores = [1,\n2\nways = 3\n")[0], r"^s.toml:5: ")
        self.assertRegex(self.refusals(IMAGE + "[options\n")[0], r"^s.toml:2: ")
        self.assertRegex(self.refusals("image = \"image\n")[0], r"^s.toml:1: ")

    def test_a_key_that_is_none(self) -> None:
        self.assertRegex(self.refusals(IMAGE + "\ncolour = 1\n")[0], r"^s.toml:3: colour: no key")

    def test_not_one_source(self) -> None:
        self.assertRegex(self.refusals(POINTS)[0], r"^s.toml:1: one of image, text, gen is wanted")
        self.assertRegex(self.refusals(IMAGE + "gen = true\n")[0], r"^s.toml:2: one of .* and image and gen is given")
        self.assertRegex(self.refusals("gen = 3\n")[0], r"^s.toml:1: gen: true is wanted")
        self.assertRegex(self.refusals("image = 3\n")[0], r"^s.toml:1: image: the path")

    def test_values_that_are_no_words(self) -> None:
        self.assertRegex(self.refusals(IMAGE + "[options]\ncores = 1\nways = []\n")[0], r"^s.toml:4: ways: the list is empty")
        self.assertRegex(self.refusals(IMAGE + "[options]\nways = [[1]]\n")[0], r"^s.toml:3: ways: a number or a text")
        self.assertRegex(self.refusals(IMAGE + "options = 3\n")[0], r"^s.toml:2: options: a table")
        self.assertRegex(self.refusals(IMAGE + "points = []\n")[0], r"^s.toml:2: points: a list of tables")

    def test_the_programs_faults_of_words(self) -> None:
        faults = {
            "colour = 3": "colour = 3: slacksim: words: option at 9 (in the point",
            "seed = 3": "seed = 3: slacksim: words: option at 9 (in the point",
            'snoop = "soon"': "snoop = soon: slacksim: words: number at 10 (in the point",
            "snoop = 1.5": "snoop = 1.5: slacksim: words: number at 10 (in the point",
            'format = "text"': "format = text: slacksim: words: twice at 9 (in the point",
            'notes = "on"': "notes = on: slacksim: words: twice at 9 (in the point",
            "snoop = 64": "snoop = 64: slacksim: words: bound snoop given 64 (in the point",
            "limit = 0": "limit = 0: slacksim: words: bound limit given 0 (in the point",
            "limit = true": "limit = True: slacksim: words: number at 2 (in the point",
            "memory-delay = 2": "memory-delay = 2: slacksim: words: bound memory_delay given 2 (in the point",
        }
        for line, fault in faults.items():
            with self.subTest(line):
                said = self.refusals(f"{IMAGE}[options]\ncores = 1\nways = [\n  1,\n  2,\n]\n# a comment\n\n{line}\n")
                self.assertEqual(len(said), 1)
                self.assertTrue(said[0].startswith(f"s.toml:10: {fault}"), said[0])

    def test_impossible_combinations_alone(self) -> None:
        said = self.refusals(IMAGE + "[options]\nsnoop = [2, 9]\nmemory-delay = [5, 10]\n")
        self.assertEqual(said, ["s.toml:4: memory-delay = 5: slacksim: words: bound memory_delay given 5 (in the point snoop = 9, memory-delay = 5)"])

    def test_a_bound_of_a_default(self) -> None:
        said = self.refusals(IMAGE + "[options]\nsnoop = 10\n")
        self.assertEqual(said, ["s.toml:3: snoop = 10: slacksim: words: bound memory_delay given 10"])

    def test_each_fault_once(self) -> None:
        said = self.refusals(IMAGE + "[options]\ncores = [1, 2, 9]\nways = [1, 9]\n[[points]]\nsnoop = 1\n[[points]]\nsnoop = 99\n")
        self.assertEqual([line.split(": slack")[0] for line in said], ["s.toml:4: ways = 9", "s.toml:3: cores = 9", "s.toml:8: snoop = 99"])

    def test_files_that_are_not_there_or_wrong(self) -> None:
        self.assertIn('s.toml:1: image = "none": No such file', self.refusals('image = "none"\n')[0])
        (self.folder / "magic").write_text("nothing")
        self.assertIn('s.toml:2: image = "magic": slacksim: image: magic', self.refusals('\nimage = "magic"\n')[0])
        (self.folder / "text").write_text("bad")
        self.assertIn('s.toml:1: text = "text": slacksim: text: line 1 mnemonic', self.refusals('text = "text"\n')[0])

    def test_a_program_that_is_not_there(self) -> None:
        self.study(IMAGE)
        self.program.unlink()
        self.assertIn("./slacksim builds it", self.run_study(status=2))


class Lines(unittest.TestCase):
    def test_where_keys_stand(self) -> None:
        text = 'a = """\nb = 1\n"""\n\n# c = 2\n[t]\n  d = [\n 1, # [x]\n 2]\n"e f".g = 3\n[[p]]\n[[p]]\nh = {i = 1}\n'
        tomllib.loads(text)
        wanted = {("a",): 1, ("t",): 6, ("t", "d"): 7, ("t", "e f"): 10, ("t", "e f", "g"): 10, ("p", 0): 11, ("p", 1): 12, ("p", 1, "h"): 13, ("p", 1, "h", "i"): 13}
        self.assertEqual(lines_of(text), wanted)

    def test_tables_in_lines(self) -> None:
        found = lines_of("x = 1\noptions = {ways = [1, 2]}\npoints = [{ways = 1},\n {ways = 2}]\n")
        self.assertEqual((found["options", "ways"], found["points", 1, "ways"]), (2, 3))
