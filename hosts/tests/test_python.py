"""Tests of hosts/python/solumivaf.py, and of the Python in hosts/README.md.

usage: python3 -B -m unittest discover hosts/tests     (from the root)

The library is the one that the module loads: in the folder SOLUMIVAF_LIB, else in target/staticlib.
"""
import ctypes
import math
import os
import random
import re
import struct
import subprocess
import sys
import tempfile
import threading
import time
import unittest

ROOT = os.path.dirname(os.path.dirname(os.path.dirname(os.path.abspath(__file__))))
MODULE = os.path.join(ROOT, "hosts", "python")
sys.path.insert(0, MODULE)

import solumivaf
from solumivaf import ArithmeticMode, Ending, Lent, Mark, Outcome, Refused, Run, Sizes

EXAMPLES = {"small": (2, 1), "meter": (3, 4), "reel": (5, 3)}


def file_of(*path):
    with open(os.path.join(ROOT, *path), "rb") as file:
        return file.read()


def right_side(name):
    """The decimals of an example's right side, without the comments."""
    words = re.sub(r"#.*|,", " ", file_of("examples", name + ".right").decode())
    return [float(word) for word in words.split()]


def lent_example(name, workers):
    tiles, side, matrix = solumivaf.read_system(file_of("examples", name + ".system"))
    lent = Lent(Sizes(tiles, side, workers), matrix)
    lent.open()
    return lent


def opened(tiles, side, workers, matrix):
    lent = Lent(Sizes(tiles, side, workers), matrix)
    lent.open()
    return lent


def finished(tiles, side, matrix, workers=1):
    lent = opened(tiles, side, workers, matrix)
    lent.run()
    return lent


def result_of(lent):
    return solumivaf.write_result(lent.sizes.tiles, lent.sizes.side, lent.matrix, lent.lists, lent.outcome())


def contents(lent):
    return [bytes(part) for part in (lent.matrix, lent.lists, lent.records, lent.workers)]


def try_some(lent, worker, start):
    """Whether the worker got a task, tried one after the other from `start` on."""
    count = len(lent.records)
    for step in range(count):
        try:
            lent.take(worker, (start + step) % count)
            return True
        except Refused as refused:
            assert refused.number == 7, str(refused)
    return False


def all_finished(lent):
    return all(record.mark >= Mark.DONE for record in lent.records)


class Examples(unittest.TestCase):
    def test_files(self):
        for name, (tiles, side) in EXAMPLES.items():
            system, result = (file_of("examples", name + kind) for kind in (".system", ".result"))
            self.assertEqual(solumivaf.read_sizes(system), (tiles, side))
            self.assertEqual(solumivaf.read_sizes(result), (tiles, side))
            self.assertEqual(solumivaf.write_system(*solumivaf.read_system(system)), system)
            self.assertEqual(solumivaf.write_result(*solumivaf.read_result(result)), result)
            self.assertEqual(len(system), solumivaf.system_length(tiles, side))
            self.assertEqual(len(result), solumivaf.result_length(tiles, side))

    def test_run(self):
        for name in EXAMPLES:
            for workers in (1, 3, 32):
                lent = lent_example(name, workers)
                self.assertEqual(lent.run(2), Run(False, 2))
                self.assertTrue(lent.run().finished)
                self.assertEqual(result_of(lent), file_of("examples", name + ".result"))

    def test_any_order(self):
        rng = random.Random(3)
        for name in EXAMPLES:
            lent = lent_example(name, 3)
            while not all_finished(lent):
                worker = rng.randrange(3)
                if lent.workers.busy[worker]:
                    lent.column(worker)
                else:
                    try_some(lent, worker, rng.randrange(len(lent.records)))
            self.assertEqual(result_of(lent), file_of("examples", name + ".result"))

    def test_answers(self):
        for name, row, answer in (("small", 0, 4), ("small", 1, 6), ("meter", 0, 7.4871), ("meter", 11, 47.9444), ("reel", 5, 38.7075)):
            lent = lent_example(name, 2)
            lent.run()
            self.assertAlmostEqual(lent.solve(right_side(name))[row], answer, places=4)
        self.assertEqual(finished(2, 1, [0.25, -0.125, -0.5, 1]).solve([0.25, 4]), [4, 6])

    def test_outcomes(self):
        self.assertEqual(opened(2, 1, 1, [1, 2, 3, 4]).outcome(), Outcome(Ending.UNFINISHED, 0))
        self.assertEqual(finished(2, 1, [1, 2, 3, 4]).outcome(), Outcome(Ending.GOOD, 0))
        self.assertEqual(finished(2, 1, [1, 1e308, -1, 1e308]).outcome(), Outcome(Ending.OVERFLOW, 3))
        self.assertEqual(finished(2, 1, [1, 1, 1, 1]).outcome(), Outcome(Ending.SINGULAR, 1))

    def test_lengths(self):
        self.assertEqual(solumivaf.records_length(16), solumivaf.MOST_TASKS)
        for tiles, side in EXAMPLES.values():
            lent = Lent(Sizes(tiles, side, 1), [0.0] * solumivaf.matrix_length(tiles, side))
            self.assertEqual((len(lent.lists), len(lent.records)), (tiles * tiles * side, sum(k * k for k in range(tiles + 1))))


class Refusals(unittest.TestCase):
    def refused(self, number, place, call, *words, lent=None):
        """The call is refused so, in a sentence, and changes nothing."""
        before = contents(lent) if lent else None
        with self.assertRaises(Refused) as caught:
            call(*words)
        self.assertEqual((caught.exception.number, caught.exception.place), (number, place))
        self.assertIn(solumivaf.REFUSALS[number][2], str(caught.exception))
        self.assertEqual(contents(lent) if lent else None, before)
        return str(caught.exception)

    def test_sizes(self):
        for sizes in ((0, 1, 1), (1, 0, 1), (1, 1, 0), (17, 1, 1), (1, 17, 1), (1, 1, 33), (2 ** 64 - 1,) * 3):
            lent = Lent(Sizes(*sizes), [1.0])
            for call, *words in ((lent.open,), (lent.take, 0, 0), (lent.column, 0), (lent.run,), (lent.outcome,), (lent.solve, [1.0])):
                self.refused(1, 0, call, *words, lent=lent)
        self.refused(1, 0, solumivaf.write_system, 17, 1, [1.0])
        self.refused(1, 0, solumivaf.write_result, 0, 1, [1.0], [0], Outcome(Ending.GOOD, 0))
        for text in (b"011101\n", b"010001\n", b"0101FF\n"):
            for read in (solumivaf.read_sizes, solumivaf.read_system, solumivaf.read_result):
                self.assertIn("refusal 1 at line 1: ", self.refused(1, 1, read, text))

    def test_lengths(self):
        for count in (0, 3, 5):
            lent = Lent(Sizes(2, 1, 1), [1.0] * count)
            self.refused(2, 0, lent.open, lent=lent)
        lent = opened(2, 1, 2, [1, 2, 3, 4])
        for count in (1, 3, 33, 2 ** 64 - 1):
            lent.workers.count = count
            self.refused(2, 0, lent.take, 0, 0, lent=lent)
        lent = finished(2, 1, [1, 2, 3, 4])
        self.refused(2, 0, lent.solve, [1.0], lent=lent)
        self.refused(2, 0, lent.solve, [1.0] * 3, lent=lent)
        lent.records = (solumivaf.Record * 4)()
        self.refused(2, 0, lent.outcome, lent=lent)
        lent = opened(2, 1, 2, [1, 2, 3, 4])
        lent.lists = (ctypes.c_uint8 * 3)()
        self.refused(2, 0, lent.run, lent=lent)
        self.refused(2, 0, solumivaf.write_system, 2, 1, [1.0] * 3)
        self.refused(2, 0, solumivaf.write_result, 2, 1, [1.0] * 4, [0] * 3, Outcome(Ending.GOOD, 0))

    def test_numbers(self):
        for number in (math.inf, -math.inf, math.nan):
            lent = Lent(Sizes(2, 1, 1), [1, 2, number, number])
            self.assertIn("at offset 2", self.refused(3, 2, lent.open, lent=lent))
            lent = finished(2, 1, [1, 2, 3, 4])
            self.refused(3, 1, lent.solve, [1, number], lent=lent)
        system = file_of("examples", "small.system").replace(b"BFE0", b"7FF0")
        self.assertIn("at line 4", self.refused(3, 4, solumivaf.read_system, system))

    def test_damage(self):
        lent = opened(2, 1, 2, [1, 2, 3, 4])
        lent.records[4].mark = 5
        for call, *words in ((lent.take, 0, 0), (lent.column, 0), (lent.run,), (lent.solve, [1.0, 2.0])):
            self.refused(4, 0, call, *words, lent=lent)
        for lent, most in ((opened(2, 1, 2, [1, 2, 3, 4]), 0), (finished(2, 1, [1, 2, 3, 4]), 1)):
            for task in range(5):
                kept = lent.records[task].ties
                for ties in (most + 1, 256, 65535):
                    lent.records[task].ties = ties
                    for call, *words in ((lent.take, 0, 0), (lent.column, 0), (lent.run,), (lent.solve, [1.0, 2.0])):
                        self.refused(4, 0, call, *words, lent=lent)
                lent.records[task].ties = kept
            lent.run()

    def test_damaged_history(self):
        """Worker, calls and the run's number, each at its bounds and one beyond, in records of unfinished tasks too."""
        begun = opened(2, 1, 3, [1, 2, 3, 4])
        begun.take(2, 0)
        for lent, number in ((opened(2, 1, 3, [1, 2, 3, 4]), 0), (begun, 1), (finished(2, 1, [1, 2, 3, 4], 3), 10)):
            calls = ((lent.take, 0, 0), (lent.column, 0), (lent.run,), (lent.run, 0), (lent.solve, [1.0, 2.0]))
            self.assertEqual(lent.workers.number, number)
            below = (number - 1,) if number else ()
            damages = [(lent.workers, "number", (number,), (number + 1, number + 256, number + 65536, 2 ** 32 - 1) + below)]
            for record in lent.records:
                damages.append((record, "worker", (0, 2), (3, 32, 255)))
                for name in ("took", "ended"):
                    damages.append((record, name, (0, number), (number + 1, number + 256, number + 65536, 2 ** 32 - 1)))
            for thing, name, good, bad in damages:
                kept = getattr(thing, name)
                for value in good:
                    setattr(thing, name, value)
                    before = contents(lent)
                    lent.run(0)
                    self.assertEqual(contents(lent), before)
                for value in bad:
                    setattr(thing, name, value)
                    for call, *words in calls:
                        self.refused(4, 0, call, *words, lent=lent)
                    lent.outcome()
                setattr(thing, name, kept)

    def test_workers_and_tasks(self):
        lent = opened(2, 1, 2, [1, 2, 3, 4])
        self.refused(5, 2, lent.take, 2, 0, lent=lent)
        self.refused(5, 2 ** 64 - 1, lent.column, 2 ** 64 - 1, lent=lent)
        self.refused(5, 1, lent.column, 1, lent=lent)
        self.refused(6, 0, lent.take, 0, 5, lent=lent)
        self.assertIn("at task 1", self.refused(7, 1, lent.take, 0, 1, lent=lent))
        lent.take(0, 0)
        self.refused(5, 0, lent.take, 0, 1, lent=lent)
        self.refused(8, 0, lent.solve, [1.0, 2.0], lent=lent)

    def test_solving(self):
        for number, place, matrix, right in ((9, 3, [1, 1e308, -1, 1e308], [1, 1]), (10, 1, [1, 1, 1, 1], [1, 1]),
                                             (11, 1, [1, 0, 0, 1e-308], [1, 1e10])):
            lent = finished(2, 1, matrix)
            self.refused(number, place, lent.solve, right, lent=lent)

    def test_files(self):
        for kind, read in ((".system", solumivaf.read_system), (".result", solumivaf.read_result)):
            lines = file_of("examples", "small" + kind).splitlines(True)
            self.refused(14, 1, read, b"")
            self.refused(14, len(lines), read, b"".join(lines[:-1]))
            self.refused(14, len(lines) + 1, read, b"".join(lines) + b"0")
            self.refused(12, 3, read, b"".join(lines[:2]) + lines[2].replace(b"0\n", b"a\n") + b"".join(lines[3:]))
            self.refused(12, len(lines), read, b"".join(lines)[:-1])
            self.refused(13, 2, read, lines[0] + lines[2] + lines[1] + b"".join(lines[3:]))
            self.refused(13, 1, read, b"021010\n" + b"".join(lines[1:]))

    def test_sizes_of_a_text(self):
        self.assertEqual(solumivaf.read_sizes(b"01100A\nand whatever follows"), (16, 10))
        for number, text in ((14, b""), (12, b"010101"), (12, b"01010\n"), (12, b"0101010\n"), (12, b"01 101\n"), (12, b"060101\n"),
                             (13, b"020101\n"), (13, b"050101\n"), (1, b"010100\n")):
            self.assertIn("at line 1", self.refused(number, 1, solumivaf.read_sizes, text))

    def test_short_text(self):
        matrix, text = solumivaf._numbers([1.0]), (ctypes.c_uint8 * 29)()
        told = solumivaf._library.solumivaf_write_system(1, 1, matrix, 1, text, 29)
        self.refused(15, 0, solumivaf._accept, told)

    def test_sentences(self):
        self.assertEqual(sorted(solumivaf.REFUSALS), list(range(1, 16)))
        self.assertEqual(str(Refused(10, 3)), "refusal 10 at row 3: the outcome is singular, so there is no solution. "
                         "Look for rows of the system that depend on each other.")
        for number in range(1, 16):
            self.assertRegex(str(Refused(number, 7)), r"^refusal %d( at [a-z, ]+ 7)?: [a-zN].*\.$" % number)


class Arguments(unittest.TestCase):
    def test_whole_numbers(self):
        lent = opened(2, 1, 2, [1, 2, 3, 4])
        before = contents(lent)
        for value, error in ((-1, ValueError), (2 ** 64, ValueError), (0.0, TypeError), ("0", TypeError)):
            for call in (lent.column, lent.run, lambda w: lent.take(w, 0), lambda p: lent.take(0, p), lambda n: Lent(Sizes(n, 1, 1), [])):
                self.assertRaises(error, call, value)
        self.assertEqual(contents(lent), before)

    def test_texts_and_entries(self):
        self.assertRaises(TypeError, solumivaf.read_sizes, "010101\n")
        self.assertRaises(TypeError, solumivaf.read_system, 7)
        self.assertEqual(solumivaf.read_sizes(bytearray(b"010203\n")), (2, 3))
        for lists, error in (([256], ValueError), ([-1], ValueError), (1, TypeError)):
            self.assertRaises(error, solumivaf.write_result, 1, 1, [1.0], lists, Outcome(Ending.GOOD, 0))

    def test_outcomes_to_write(self):
        for outcome in (Outcome(Ending.UNFINISHED, 0), (4, 0), (0, -1), (1, 65536)):
            self.assertRaises(ValueError, solumivaf.write_result, 1, 1, [1.0], [0], outcome)

    def test_fewer_slots(self):
        lent = opened(1, 1, 1, [1])
        with self.assertRaises(TypeError):
            lent.workers.busy = (ctypes.c_uint8 * 31)()

        class Short:
            count, busy, task, column = 1, (ctypes.c_uint8 * 1)(), (ctypes.c_uint16 * 1)(), (ctypes.c_uint8 * 1)()
            number, _number = 0, (ctypes.c_uint32 * 1)()

        lent.workers = Short
        self.assertRaises(ctypes.ArgumentError, lent.run)


class Ties(unittest.TestCase):
    def sums(self, lent):
        return [record.ties for record in lent.records]

    def test_by_hand(self):
        self.assertEqual(self.sums(finished(1, 2, [2, 2, -2, 1])), [1])
        self.assertEqual(self.sums(finished(2, 1, [2, 2, -2, 1])), [0, 0, 1, 0, 0])
        self.assertEqual(self.sums(finished(1, 2, [0.0, -0.0, -0.0, 0.0])), [0])
        ones = [float(row == column) for row in range(16) for column in range(16)] + [0.0] * 256 + [1.0] * 256 + [0.0] * 256
        self.assertEqual(self.sums(finished(2, 16, ones)), [0, 0, 256, 0, 0])

    def test_any_order(self):
        rng = random.Random(7)
        for tiles, side in ((1, 5), (2, 2), (3, 2), (4, 1)):
            matrix = [rng.choice((1.0, -1.0)) for _ in range(solumivaf.matrix_length(tiles, side))]
            due = self.sums(finished(tiles, side, matrix))
            self.assertTrue(any(due))
            lent = opened(tiles, side, 8, matrix)
            lent.run()
            self.assertEqual(self.sums(lent), due)
            lent = opened(tiles, side, 3, matrix)
            while not all_finished(lent):
                worker = rng.randrange(3)
                if lent.workers.busy[worker]:
                    lent.column(worker)
                else:
                    try_some(lent, worker, rng.randrange(len(lent.records)))
            self.assertEqual(self.sums(lent), due)

    def test_number(self):
        record = solumivaf.Record()
        for value in (0, 1, 255, 256, 0x1234, 65535):
            record.ties = value
            self.assertEqual((record.ties, bytes(record)), (value, struct.pack("<6xH8x", value)))
        for value, error in ((-1, ValueError), (65536, ValueError), (1.0, TypeError)):
            with self.assertRaises(error):
                record.ties = value
        self.assertEqual(record.ties, 65535)


class History(unittest.TestCase):
    def told(self, lent):
        return [(record.worker, record.took, record.ended) for record in lent.records]

    def told_in_order(self, lent, workers):
        """What holds in every run from an opening: each take and each end has a call of its own, the first task of a stage ends before the others of
        its stage are taken, and a T-4 before the T-1 of its tile."""
        calls = sorted(call for record in lent.records for call in (record.took, record.ended))
        self.assertEqual(len(set(calls)), 2 * len(lent.records))
        self.assertEqual((calls[0], calls[-1]), (1, lent.workers.number))
        for record in lent.records:
            self.assertLess(record.took, record.ended)
            self.assertLess(record.worker, workers)
            for other in lent.records:
                if record.kind == 1 and other.k == record.k and other.kind != 1:
                    self.assertLess(record.ended, other.took)
                if record.kind == 4 and other.kind == 1 and record.i == record.j == other.k:
                    self.assertLess(record.ended, other.took)

    def test_by_hand(self):
        self.assertEqual(self.told(finished(2, 1, [0.25, -0.125, -0.5, 1])), [(0, 1, 2), (0, 3, 4), (0, 5, 6), (0, 7, 8), (0, 9, 10)])
        self.assertEqual(self.told(finished(2, 1, [0.25, -0.125, -0.5, 1], 2)), [(0, 1, 2), (1, 3, 5), (0, 4, 6), (1, 7, 8), (0, 9, 10)])
        self.assertEqual(self.told(finished(1, 3, [1, 2, 3, 4, 5, 6, 7, 8, 10])), [(0, 1, 4)])
        self.assertEqual(self.told(finished(2, 1, [1, 1e308, -1, 1e308], 2))[3:], [(1, 7, 8), (0, 9, 10)])

    def test_call_by_call(self):
        lent = opened(1, 2, 3, [1, 2, 3, 4])
        self.assertEqual((self.told(lent), lent.workers.number), ([(0, 0, 0)], 0))
        for call, told, number in ((lambda: lent.take(2, 0), (0, 1, 0), 1), (lambda: lent.column(2), (0, 1, 0), 2),
                                   (lambda: lent.column(2), (2, 1, 3), 3), (lent.run, (2, 1, 3), 3)):
            call()
            self.assertEqual((self.told(lent), lent.workers.number), ([told], number))
            before = contents(lent)
            self.assertRaises(Refused, lent.column, 1)
            self.assertRaises(Refused, lent.take, 0, 0)
            self.assertEqual(contents(lent), before)

    def test_opening(self):
        lent, new = Lent(Sizes(2, 1, 2), [1, 2, 3, 4]), opened(2, 1, 2, [1, 2, 3, 4])
        ctypes.memset(lent.records, 255, ctypes.sizeof(lent.records))
        lent.workers.number = 2 ** 32 - 1
        before = contents(lent)
        lent.matrix[0] = math.nan
        self.assertRaises(Refused, lent.open)
        lent.matrix[0] = 1
        self.assertEqual(contents(lent), before)
        lent.open()
        self.assertEqual(contents(lent), contents(new))
        self.assertEqual((self.told(lent), lent.workers.number), ([(0, 0, 0)] * 5, 0))

    def test_any_order(self):
        """By single calls, whose numbers are kept here too, and by runs. In all but worker and calls the ends are the same."""
        rng = random.Random(9)
        for tiles, side in ((1, 5), (2, 2), (3, 2), (4, 1)):
            matrix = [rng.choice((1.0, -1.0)) for _ in range(solumivaf.matrix_length(tiles, side))]
            alone = finished(tiles, side, matrix)
            for workers in (1, 3, 32):
                lent, number, due = opened(tiles, side, workers, matrix), 0, {}
                while not all_finished(lent):
                    worker = rng.randrange(workers)
                    task = lent.workers.task[worker]
                    if lent.workers.busy[worker]:
                        lent.column(worker)
                        number += 1
                        if not lent.workers.busy[worker]:
                            due[task] = (worker, due[task], number)
                    elif try_some(lent, worker, rng.randrange(len(lent.records))):
                        number += 1
                        due[lent.workers.task[worker]] = number
                    self.assertEqual(lent.workers.number, number)
                self.assertEqual(self.told(lent), [due[task] for task in range(len(due))])
                for other in (lent, finished(tiles, side, matrix, workers)):
                    self.told_in_order(other, workers)
                    self.assertEqual((contents(other)[:2], other.workers.number), (contents(alone)[:2], alone.workers.number))
                    self.assertEqual([(record.mark, record.ties) for record in other.records],
                                     [(record.mark, record.ties) for record in alone.records])

    def test_numbers(self):
        record, workers = solumivaf.Record(), solumivaf.Workers()
        for value in (0, 1, 255, 256, 65536, 0x12345678, 2 ** 32 - 1):
            record.took, record.ended, workers.number = value, 2 ** 32 - 1 - value, value
            self.assertEqual((record.took, record.ended, workers.number), (value, 2 ** 32 - 1 - value, value))
            self.assertEqual(bytes(record), struct.pack("<8xII", value, 2 ** 32 - 1 - value))
        for thing, name in ((record, "took"), (record, "ended"), (workers, "number")):
            kept = getattr(thing, name)
            for value, error in ((-1, ValueError), (2 ** 32, ValueError), (1.0, TypeError)):
                with self.assertRaises(error):
                    setattr(thing, name, value)
            self.assertEqual(getattr(thing, name), kept)


class Busy(unittest.TestCase):
    def test_any_byte(self):
        rng = random.Random(255)
        for byte in range(1, 256):
            lent, twin = (opened(1, 2, 2, [1, 2, 3, 4]) for _ in range(2))
            beyond = bytes(rng.randrange(256) for _ in range(30))
            lent.workers.busy[2:] = list(beyond)
            lent.take(1, 0)
            self.assertEqual(lent.workers.busy[:2], [0, 1])
            lent.workers.busy[1] = byte
            before = contents(lent)
            for call, *words in ((lent.take, 1, 0), (lent.take, 0, 0), (lent.column, 0), (lent.solve, [1, 2])):
                self.assertRaises(Refused, call, *words)
            self.assertEqual(contents(lent), before)
            lent.column(1)
            self.assertEqual(lent.workers.busy[:], [0, byte] + list(beyond))
            lent.run(0)
            self.assertEqual(lent.workers.busy[:], [0, byte] + list(beyond))
            lent.run()
            self.assertEqual(lent.workers.busy[:], [0, 0] + list(beyond))
            twin.take(1, 0)
            twin.run()
            self.assertEqual(contents(lent)[:3], contents(twin)[:3])


class Threads(unittest.TestCase):
    def work(self, lent, lock, worker):
        while True:
            with lock:
                if lent.workers.busy[worker]:
                    lent.column(worker)
                elif not try_some(lent, worker, worker * 7 % len(lent.records)) and all_finished(lent):
                    return
                busy = lent.workers.busy[worker]
            time.sleep(0 if busy else 0.0005)

    def test_one_lock(self):
        for name in EXAMPLES:
            lent, lock = lent_example(name, 8), threading.Lock()
            threads = [threading.Thread(target=self.work, args=(lent, lock, worker)) for worker in range(8)]
            for thread in threads:
                thread.start()
            for thread in threads:
                thread.join()
            self.assertEqual(result_of(lent), file_of("examples", name + ".result"))
            History.told_in_order(self, lent, 8)


class Arithmetic(unittest.TestCase):
    """The mode is set by libm. Its environment has 32 bytes, of which the last four are MXCSR: bit 15 is flush to zero, bit 6 denormals are zero."""
    libm = ctypes.CDLL("libm.so.6")

    def in_mode(self, control, calls):
        """What each call raises in the mode of these bits of MXCSR."""
        kept, other = ctypes.create_string_buffer(32), ctypes.create_string_buffer(32)
        self.libm.fegetenv(kept)
        other[:] = kept.raw[:28] + struct.pack("<I", struct.unpack("<I", kept.raw[28:])[0] | control)
        raised = []
        self.libm.fesetenv(other)
        try:
            for call, *words in calls:
                try:
                    call(*words)
                    raised.append(None)
                except Exception as error:
                    raised.append(type(error))
        finally:
            self.libm.fesetenv(kept)
        return raised

    def test_modes(self):
        for control in (0x2000, 0x4000, 0x6000, 0x8000, 0x0040, 0x8040):
            lent, done = opened(2, 1, 1, [1, 2, 3, 4]), finished(2, 1, [1, 2, 3, 4])
            lent.take(0, 0)
            before = contents(lent) + contents(done)
            calls = [(lent.column, 0), (lent.run,), (lent.outcome,), (lent.open,), (done.solve, [1.0, 2.0])]
            self.assertEqual(self.in_mode(control, calls), [ArithmeticMode] * len(calls), hex(control))
            self.assertEqual(contents(lent) + contents(done), before)
            self.assertTrue(solumivaf.arithmetic_is_default())
            self.assertEqual(self.in_mode(0, calls), [None] * len(calls))

    def test_directions(self):
        for direction in (0x400, 0x800, 0xC00):
            self.libm.fesetround(direction)
            try:
                default = solumivaf.arithmetic_is_default()
            finally:
                self.libm.fesetround(0)
            self.assertFalse(default)

    def test_sentence(self):
        self.assertIn("set it back", str(ArithmeticMode()))

    def test_subnormal_multiplier(self):
        small = struct.unpack("<d", struct.pack("<Q", 0x0000123456789ABC))[0]
        lent = finished(1, 2, [2, 1, small, 1])
        self.assertEqual(struct.pack("<d", lent.matrix[2]), struct.pack("<Q", 0x0000091A2B3C4D5E))


class Loading(unittest.TestCase):
    def message(self, make):
        """The last line that an import prints where `make` has put what it likes into the library's folder."""
        with tempfile.TemporaryDirectory() as folder:
            make(os.path.join(folder, "libsolumivaf.so"))
            done = subprocess.run([sys.executable, "-B", "-c", "import solumivaf"], stderr=subprocess.PIPE, universal_newlines=True,
                                  env=dict(os.environ, SOLUMIVAF_LIB=folder, PYTHONPATH=MODULE))
        self.assertEqual(done.returncode, 1)
        return done.stderr.splitlines()[-1]

    def compiled(self, source):
        return lambda path: subprocess.run(["gcc", "-shared", "-fPIC", "-x", "c", "-", "-o", path], input=source.encode(), check=True)

    def test_messages(self):
        for make, words in ((lambda path: None, "libsolumivaf.so is missing: run hosts/build, or name its folder in SOLUMIVAF_LIB"),
                            (lambda path: open(path, "wb").close(), "cannot be loaded: run hosts/build"),
                            (self.compiled("int solumivaf_open;"), "is older than version 5, which this module is for: run hosts/build"),
                            (self.compiled("long solumivaf_version(void) { return 6; }"),
                             "has version 6, and this module is for version 5: run hosts/build")):
            message = self.message(make)
            self.assertTrue(message.startswith("ImportError: "), message)
            self.assertIn(words, message)

    def test_version_of_the_header(self):
        self.assertIn(b"#define SOLUMIVAF_VERSION %d\n" % solumivaf.VERSION, file_of("hosts", "solumivaf.h"))


class Declared(unittest.TestCase):
    """Every function has the parameters that the header declares, in their order: ctypes tests nothing of that."""

    KINDS = {"size_t": ctypes.c_size_t, "uint64_t": ctypes.c_uint64, "uint32_t": ctypes.c_uint32, "uint16_t": ctypes.c_uint16,
             "uint8_t": ctypes.c_uint8, "double *": ctypes.POINTER(ctypes.c_double), "uint8_t *": ctypes.POINTER(ctypes.c_uint8),
             "uint32_t *": ctypes.POINTER(ctypes.c_uint32),
             "solumivaf_record *": ctypes.POINTER(solumivaf.Record)}
    SLOTS = {"busy": ctypes.c_uint8, "task": ctypes.c_uint16, "column": ctypes.c_uint8}

    def kind(self, declared):
        const, kind, star, name = re.fullmatch(r"(const )?(\w+) (\*?)(\w+)", " ".join(declared.split())).groups()
        if name in self.SLOTS:
            return ctypes.POINTER(self.SLOTS[name] * solumivaf.SLOTS)
        if const and name == "text":
            return ctypes.c_char_p
        return self.KINDS[kind + (" *" if star else "")]

    def test_functions(self):
        told = {"solumivaf_told": solumivaf._Told, "solumivaf_read": solumivaf._Read}
        declared = {name: (told[answer], [self.kind(part) for part in listed.split(",")]) for answer, name, listed in
                    re.findall(r"(?m)^(solumivaf_told|solumivaf_read) (solumivaf_\w+)\(([^)]*)\);", file_of("hosts", "solumivaf.h").decode())}
        self.assertEqual(solumivaf._FUNCTIONS, declared)

    def test_record(self):
        listed = re.search(r"typedef struct \{([^}]*)\} solumivaf_record;", file_of("hosts", "solumivaf.h").decode()).group(1)
        declared = [(name, int(count or 1)) for name, count in re.findall(r"uint8_t (\w+)(?:\[(\d+)\])?;", listed)]
        self.assertEqual([(name.lstrip("_"), ctypes.sizeof(kind)) for name, kind in solumivaf.Record._fields_], declared)
        self.assertEqual((ctypes.sizeof(solumivaf.Record), ctypes.alignment(solumivaf.Record)), (16, 1))


class Readme(unittest.TestCase):
    def test_blocks(self):
        blocks = re.findall(r"^```python\n(.*?)^```$", file_of("hosts", "README.md").decode(), re.M | re.S)
        self.assertTrue(blocks)
        for block in blocks:
            done = subprocess.run([sys.executable, "-B", "-c", block], stdout=subprocess.PIPE, universal_newlines=True, cwd=ROOT,
                                  env=dict(os.environ, PYTHONPATH=MODULE))
            self.assertEqual((done.returncode, done.stdout), (0, "[4.0, 6.0]\n"))


if __name__ == "__main__":
    unittest.main()
