"""Some random programs, beside the model."""

import collections
import random
import unittest

import compare


class Compared(unittest.TestCase):
    def test_random_programs(self) -> None:
        seen, rng = collections.Counter(), random.Random(7)
        for _ in range(6):
            compare.compare(rng, seen)
        compare.require_all(seen)

    def test_what_never_came(self) -> None:
        seen = collections.Counter(compare.TO_SEE)
        compare.require_all(seen)
        seen["trap outside"] = 0
        with self.assertRaisesRegex(compare.Wrong, "never met: trap outside$"):
            compare.require_all(seen)
