"""Tests of tools/table, and of examples/.

usage: python3 -m unittest discover tools     (from the root)

Where the environment names the reference program in REFERENCE, the examples' results are compared with what it prints.
"""
import os
import random
import struct
import subprocess
import sys
import unittest
from fractions import Fraction

from loading import ROOT, load, text_of

table = load("table")
EXAMPLES = {"small": (2, 1), "meter": (3, 4), "reel": (5, 3)}
SYSTEM = "010201\n0200003FF0000000000000\n0200014000000000000000\n0201004010000000000000\n0201014010000000000000\n"
RESULT = ("010201\n0200004010000000000000\n0200014010000000000000\n0201003FD0000000000000\n0201013FF0000000000000\n"
          "03000000\n03010001\n03010100\n04000000\n")
LARGEST = sys.float_info.max


def made(text, tiles, side):
    return table.system(table.rows(text, tiles * side), tiles, side)


def shown(text, form="--exact"):
    return "\n".join(table.show(text, table.FORMS[form])) + "\n"


class Making(unittest.TestCase):
    def test_the_documents_example(self):
        self.assertEqual(made("1 2\n4 4\n", 2, 1), SYSTEM)

    def test_blanks_commas_and_comments(self):
        self.assertEqual(made("# two rows\n\n 1.0,2 # first\n\t+4e0 ,\t.4e1\n", 2, 1), SYSTEM)

    def test_tiles_row_by_row(self):
        rows = "\n".join(" ".join(str(10 * r + c) for c in range(4)) for r in range(4))
        lines = made(rows, 2, 2).split("\n")
        self.assertEqual(lines[0], "010202")
        for line, head, numbers in ((1, "020000", (0, 1, 10, 11)), (2, "020001", (2, 3, 12, 13)),
                                    (3, "020100", (20, 21, 30, 31)), (4, "020101", (22, 23, 32, 33))):
            self.assertEqual(lines[line], head + "".join(table.bits(float(x)) for x in numbers))

    def test_rounded_to_nearest(self):
        for word, bits in (("0.1", "3FB999999999999A"), ("-0", "8000000000000000"),
                           ("9007199254740993", "4340000000000000"), ("9007199254740995", "4340000000000002"),
                           ("9007199254740993.0000000000000000000000001", "4340000000000001"),
                           ("2.4703282292062327e-324", "0000000000000000"), ("2.4703282292062328e-324", "0000000000000001"),
                           ("1e-999", "0000000000000000"), ("1.7976931348623158e308", "7FEFFFFFFFFFFFFF"),
                           ("-0x1.8p+1", "C008000000000000")):
            self.assertEqual(table.bits(table.number(word)), bits, word)

    def test_bad_tables(self):
        for text, words in (("1 2\n4\n", "line 2: a row has n = 2 numbers, this one has 1"),
                            ("1 2\n", "the matrix has n = 2 rows, the table has 1"),
                            ("1 2\n3 4\n5 6\n", "the table has 3"),
                            ("1 2\n3 x\n", "line 2: 'x' is not a number"),
                            ("1 2\n3 nan\n", "'nan' is not a number"),
                            ("1 2\n3 1_0\n", "'1_0' is not a number"),
                            ("1 2\n3 ٣\n", "is not a number"),
                            ("1 1e309\n3 4\n", "line 1: '1e309' is beyond the largest"),
                            ("1 0x1p+1024\n3 4\n", "beyond the largest"),
                            ("1,,2\n3 4\n", "line 1: a number is missing beside a comma"),
                            ("1,2,\n3 4\n", "line 1: a number is missing beside a comma")):
            with self.assertRaises(table.Bad) as caught:
                made(text, 2, 1)
            self.assertIn(words, str(caught.exception))

    def test_sizes(self):
        for word in ("0", "17", "-1", "two", ""):
            with self.assertRaises(table.Bad):
                table.size(word, "N", 16)


class Showing(unittest.TestCase):
    def test_the_documents_example(self):
        text = shown(RESULT)
        for line in ("# result: N = 2, t = 1, n = 2", "   4    4", "0.25    1", "# (1,0): 1", "# outcome: good"):
            self.assertIn(line + "\n", text)

    def test_back_to_the_same_bytes(self):
        rng = random.Random(1)
        odd = [0.0, -0.0, 5e-324, -LARGEST, LARGEST, 0.1, 1e22, 2.0 ** -1022, 1 / 3]
        for tiles, side in ((1, 1), (1, 3), (3, 2), (16, 1), (4, 4)):
            n = tiles * side
            draws = [[rng.choice(odd + [rng.uniform(-1, 1), draw(rng)]) for _ in range(n)] for _ in range(n)]
            text = table.system(draws, tiles, side)
            for form in table.FORMS:
                self.assertEqual(made(shown(text, form), tiles, side), text)

    def test_a_result_shows_its_tiles(self):
        for form in table.FORMS:
            self.assertEqual(made(shown(RESULT, form), 2, 1), RESULT[:len(SYSTEM)])

    def test_outcomes(self):
        for line, words in (("04010003", "overflow at task 3, T-4(0,1,1)"), ("04020001", "singular at row 1"),
                            ("0401FFFF", "overflow at task 65535, which does not exist")):
            self.assertIn(words, shown(RESULT[:-9] + line + "\n"))

    def test_refusals(self):
        for line, words in (("050C012C", "# refusal 12, line 300: the line is malformed"), ("05010001", "refusal 1, line 1: N or t"),
                            ("05020000", "refusal 2, place 0: something lent"), ("05070001", "refusal 7, task 1: the task isn't ready"),
                            ("05630000", "refusal 99, place 0: no refusal has this number")):
            self.assertIn(words, shown(line + "\n"))

    def test_bad_files(self):
        tile = "0200003FF0000000000000\n"
        for text, refusal, line in (("", 14, 1), ("010201", 12, 1), ("010201\r\n", 12, 1), ("junk\n", 12, 1), ("\n", 12, 1),
                                    ("011101\n", 1, 1), ("010100\n", 1, 1), ("030201\n", 13, 1), ("010201\n", 14, 2),
                                    ("010201\n" + tile.lower(), 12, 2), ("010201\n" + tile[:-2] + "\n", 12, 2),
                                    ("010201\n" + tile + tile, 13, 3), ("010101\n0200007FF0000000000000\n", 3, 2),
                                    (RESULT[:-9], 14, 9), (RESULT + "0", 14, 10), (RESULT.replace("03010001", "03010002"), 12, 7),
                                    (RESULT.replace("03010001", "04000000"), 13, 7), (RESULT[:-9] + "04000001\n", 12, 9),
                                    (RESULT[:-9] + "04030000\n", 12, 9), (RESULT[:-9] + "03000005\n", 12, 9)):
            with self.assertRaises(table.Refused) as caught:
                table.read(text)
            self.assertEqual((caught.exception.refusal, caught.exception.line), (refusal, line), text)


class CommandLine(unittest.TestCase):
    def run_table(self, words, text=""):
        return subprocess.run([sys.executable, os.path.join(ROOT, "tools", "table")] + words, input=text.encode(), capture_output=True)

    def test_make_and_show(self):
        self.assertEqual(self.run_table(["make", "2", "1"], "1 2\n4 4\n").stdout.decode(), SYSTEM)
        self.assertEqual(self.run_table(["show", "--hex"], RESULT).stdout.decode(), shown(RESULT, "--hex"))

    def test_bad_input_prints_one_message(self):
        for words, text in ((["make", "17", "1"], ""), (["make", "1", "1"], "x"), (["show"], "junk"), (["show", "no such file"], ""),
                            (["make", "1"], ""), (["show", "--octal"], ""), ([], "")):
            ended = self.run_table(words, text)
            self.assertEqual((ended.returncode, ended.stdout), (1, b""), words)
            self.assertNotIn(b"Traceback", ended.stderr)
            self.assertTrue(ended.stderr)


class Examples(unittest.TestCase):
    def test_system_is_made_from_the_table(self):
        for name, (tiles, side) in EXAMPLES.items():
            self.assertEqual(made(text_of("examples", name + ".table"), tiles, side), text_of("examples", name + ".system"), name)

    def test_result_is_a_good_one_of_the_same_sizes(self):
        for name, (tiles, side) in EXAMPLES.items():
            content = table.read(text_of("examples", name + ".result"))
            self.assertEqual((content.tiles, content.side, content.outcome), (tiles, side, (0, 0)), name)

    def test_page_has_the_small_examples_lines(self):
        fenced = text_of("examples", "README.md").split("```")[1:4:2]
        for text, suffix in zip(fenced, (".system", ".result")):
            lines = [line.split()[0] for line in text.strip().split("\n")]
            self.assertEqual("".join(line + "\n" for line in lines), text_of("examples", "small" + suffix))

    def test_rows_are_those_of_a_chain(self):
        for name in EXAMPLES:
            lines = (line.split("#")[0].split() for line in text_of("examples", name + ".table").split("\n"))
            rows = [[Fraction(word) for word in line] for line in lines if line]
            for r, numbers in enumerate(rows):
                self.assertTrue(0 <= sum(numbers) and 0 < numbers[r] <= 1, (name, r))
                self.assertTrue(all(x <= 0 for c, x in enumerate(numbers) if c != r), (name, r))

    @unittest.skipUnless("REFERENCE" in os.environ, "REFERENCE names no reference program")
    def test_result_is_the_reference_programs(self):
        for name in EXAMPLES:
            ended = subprocess.run([os.environ["REFERENCE"], "program"], input=text_of("examples", name + ".system").encode(),
                                   capture_output=True, check=True)
            self.assertEqual(ended.stdout.decode(), text_of("examples", name + ".result"), name)


def draw(rng):
    """A finite number of random bits."""
    return rng.choice((1, -1)) * struct.unpack(">d", struct.pack(">Q", rng.randrange(0x7FF0000000000000)))[0]


if __name__ == "__main__":
    unittest.main()
