"""Tests of which toolchain the gate asks for before it begins, and of how many checks it started at once with the older kit."""
import os
import subprocess
import unittest

from loading import text_of

HERE = os.path.dirname(os.path.abspath(__file__))


def at_once(*words):
    return int(subprocess.run([os.path.join(HERE, "checks_at_once"), *map(str, words)], stdout=subprocess.PIPE, check=True).stdout)


class Gate(unittest.TestCase):
    def test_checks_at_once(self):
        for cores, memory, checks in ((2, 24_000_000, 8), (2, 9_600_000, 8), (2, 9_599_999, 7), (2, 3_000_000, 2), (4, 24_000_000, 16),
                                      (32, 24_000_000, 20), (1, 1_000_000, 1), (1, 0, 1)):
            self.assertEqual(at_once(cores, memory), checks, (cores, memory))
        self.assertTrue(1 <= at_once() <= 4 * os.cpu_count())

    def test_toolchain(self):
        self.assertRegex(text_of("toolchain.txt"), r"\A[^\n]+\n\Z")
        self.assertIn('"$(rt version)" != "$(cat toolchain.txt)"', text_of(".ci", "run"))


if __name__ == "__main__":
    unittest.main()
