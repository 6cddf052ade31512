"""Runs the tests in Python and counts them, with those that passed before: python3 .ci/run_tests.py PASSED [FOLDER..]"""

import sys
import unittest
from pathlib import Path

TOP = Path(__file__).resolve().parent.parent
# Of each folder that has tests, where the names of its modules begin.
FOLDERS = {"explore": TOP, "outside": TOP / "outside"}


class Result(unittest.TextTestResult):
    """Counts the tests that passed, too."""

    passed = 0

    def addSuccess(self, test: unittest.TestCase) -> None:
        super().addSuccess(test)
        self.passed += 1


def main() -> int:
    before, folders = int(sys.argv[1]), sys.argv[2:] or list(FOLDERS)
    suites = [unittest.TestLoader().discover(str(TOP / it / "tests"), top_level_dir=str(FOLDERS[it])) for it in folders]
    result = unittest.TextTestRunner(sys.stdout, resultclass=Result).run(unittest.TestSuite(suites))
    assert isinstance(result, Result)
    for test, why in result.skipped:
        print(f"skipped: {test.id()}: {why}")
    failed = len(result.failures) + len(result.errors) + len(result.unexpectedSuccesses)
    print(f"{before + result.passed} passed, {failed} failed")
    return 1 if failed else 0


sys.exit(main())
