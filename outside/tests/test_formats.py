"""Some packed files, beside a reader of their own."""

import random
import unittest

import formats


class Packed(unittest.TestCase):
    def test_random_files(self) -> None:
        rng = random.Random(1)
        for _ in range(60):
            file = formats.random_file(rng)
            self.assertFalse(formats.differs(file), file.hex())

    def test_examples(self) -> None:
        for path in formats.IMAGES:
            with self.subTest(path.name):
                self.assertFalse(formats.example_differs(path))
