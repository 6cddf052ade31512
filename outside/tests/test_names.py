"""The documents name nothing that isn't there, and the checker sees what is wrong."""

import pathlib
import subprocess
import tempfile
import unittest

import names

FILES = {
    "crates/low/src/lib.rt": "// only_said\npub fn of_low() {}\n",
    "crates/high/src/lib.rt": "pub fn of_high() {}\n",
    "crates/high/specs/Rules.antt": "-- only_told\nIsRuled : Type 0\n",
    "tool.py": 'words = ["--option"]\n',
}


class Documents(unittest.TestCase):
    def test_of_this_repository(self) -> None:
        repository = names.Repository()
        documents = repository.documents()
        self.assertIn("README.md", documents)
        self.assertIn("docs/MACHINE.md", documents)
        for path in documents:
            with self.subTest(path):
                self.assertEqual(list(names.missing(repository, (repository.top / path).read_text())), [])


class Checker(unittest.TestCase):
    def setUp(self) -> None:
        folder = tempfile.TemporaryDirectory()
        self.addCleanup(folder.cleanup)
        for path, text in FILES.items():
            file = pathlib.Path(folder.name) / path
            file.parent.mkdir(parents=True, exist_ok=True)
            file.write_text(text)
        subprocess.run(["git", "init", "-q"], cwd=folder.name, check=True)
        self.repository = names.Repository(folder.name)

    def missing(self, text: str) -> list[str]:
        return [name for _, name in names.missing(self.repository, text)]

    def test_what_is_there(self) -> None:
        for text in [
            "`of_low`, `IsRuled` and `low::of_low()`",
            "`specs/Rules.antt`, `Rules.antt`, `high/specs/Rules`, `crates/low`, `crates/*/src` and `./tool.py`",
            "`tool.py --option N < /dev/null`",
            "`of_high` of high, and `of_low` of `low`",
            "**low**: `of_low` is below `of_high` of high.",
            "**low**, **high**: `of_low` and `of_high`.\n\nBoth.\n\n**low**: `of_low`.",
            "    tool.py --option crates/low/src",
            "what is no_name at all",
        ]:
            with self.subTest(text):
                self.assertEqual(self.missing(text), [])

    def test_what_is_not(self) -> None:
        for text, wrong in [
            ("`no_name`", ["no_name"]),
            ("`only_said`", ["only_said"]),
            ("`only_told`", ["only_told"]),
            ("`specs/Rule.antt`", ["specs/Rule.antt"]),
            ("`Rule.antt` and `low/specs/Rules.antt`", ["Rule.antt", "low/specs/Rules.antt"]),
            ("`tool.py --options`", ["--options"]),
            ("`of_low` of high", ["of_low"]),
            ("`of_high`, `of_low` of `low`", ["of_high"]),
            ("**low**: `of_high`", ["of_high"]),
            ("**low**: it is\n- `of_high`", ["of_high"]),
            ("    no_name -> of_low", ["no_name"]),
            ("    bash crates/none/run.sh", ["crates/none/run.sh"]),
        ]:
            with self.subTest(text):
                self.assertEqual(self.missing(text), wrong)
