"""Tests of the Python module; the last line is 'N passed, 0 failed' if all passed."""
import itertools
import os
import pathlib
import subprocess
import sys
import tempfile
import unittest

sys.dont_write_bytecode = True
import lufodimi

# The specification's listing: draws 0 and 1, 2, 3 to 6, 7 to 9.
CELLS = [3, 4, 5, 6]
ARRAYS = [[0, 0, 0, 1]] * 2 + [[0, 0, 1, 1]] + [[0, 1, 1, 0]] * 4 + [[1, 0, 0, 1]] * 3
# A standing table of three shelf zones by four kinds over 10, a week's recall list over 4, and both pooled over 20.
STANDING = [45, 23, 0, 12, 31, 26, 4, 19, 0, 14, 52, 14]
LIST = [0, 0, 0, 0, 0, 0, 0, 3, 0, 2, 0, 0]
POOLED = [90, 46, 0, 24, 62, 52, 8, 53, 0, 38, 104, 28]
# A correction sheet of three shelf zones by four kinds, in quarters of a carton, and its rounding.
SHEET = [-6, 1, 0, -3, 2, -3, -2, 4, 0, -5, -10, 1]
BOOKED = [-2, 0, 0, 0, 1, -1, -1, 1, 0, -1, -2, 0]
# Two rows and three columns over 10, in whose plan every kind of entry sets a weight.
EVERY_KIND = [22, 1, 0, 14, 16, 6]

# Jessen's problem of 1970, three by three over 10, and all its controlled roundings.
JESSEN = [8, 5, 7, 7, 8, 5, 5, 7, 8]
SIX = [
    [0, 1, 1, 1, 0, 1, 1, 1, 0],
    [0, 1, 1, 1, 1, 0, 1, 0, 1],
    [1, 0, 1, 0, 1, 1, 1, 1, 0],
    [1, 0, 1, 1, 1, 0, 0, 1, 1],
    [1, 1, 0, 0, 1, 1, 1, 0, 1],
    [1, 1, 0, 1, 0, 1, 0, 1, 1],
]


def campaign(record=None):
    return lufodimi.Campaign(lufodimi.Plan(lufodimi.plan(2, 2, 10, CELLS)), record)


class Tests(unittest.TestCase):
    def refused(self, number, call, *words):
        with self.assertRaises(lufodimi.Refusal) as caught:
            call(*words)
        self.assertEqual(caught.exception.number, number)
        self.assertEqual(str(caught.exception), lufodimi.SENTENCES[number])

    def test_rounding(self):
        self.assertEqual(lufodimi.round_table(2, 2, 2, [1, 1, 1, 1]), [0, 1, 1, 0])
        self.assertEqual(lufodimi.round_table(1, 2, 4, (4, 6)), [1, 1])
        self.assertEqual(lufodimi.round_table(12, 12, 1, range(144)), list(range(144)))

    def test_roundings(self):
        self.assertEqual(list(lufodimi.roundings(3, 3, 10, JESSEN)), SIX)
        self.assertEqual(list(lufodimi.roundings(3, 3, 10, iter(JESSEN))), SIX)
        self.assertEqual(list(lufodimi.roundings(2, 2, 10, CELLS)), [[0, 0, 0, 1], [0, 0, 1, 1], [0, 1, 1, 0], [1, 0, 0, 1]])
        self.assertEqual(list(lufodimi.roundings(1, 1, 3, [2])), [[0], [1]])
        self.assertEqual(list(lufodimi.roundings(1, 1, 65_535, [65_534_999])), [[999], [1_000]])
        self.assertEqual(list(lufodimi.roundings(4, 4, 7, range(0, 112, 7))), [list(range(16))])
        thirty = list(lufodimi.roundings(4, 4, 10, [0, 6, 10, 4, 8, 4, 4, 4, 6, 2, 4, 8, 6, 8, 2, 4]))
        self.assertEqual((len(thirty), thirty), (30, sorted(thirty)))

    def test_roundings_are_those_found_by_trying(self):
        def entries(cells):
            rows = [sum(cells[start : start + 3]) for start in range(0, 6, 3)]
            return [*cells, *rows, *(sum(cells[start::3]) for start in range(3)), sum(cells)]

        for cells in ([3, 4, 5, 20, 6, 7], [22, 1, 0, 14, 16, 6], [5] * 6, [10, 20, 30, 40, 50, 60]):
            choices = itertools.product(*({cell // 10, -(-cell // 10)} for cell in cells))
            found = [list(counts) for counts in choices if all(abs(10 * n - e) < 10 for n, e in zip(entries(counts), entries(cells)))]
            self.assertEqual(list(lufodimi.roundings(2, 3, 10, cells)), sorted(found))

    def test_roundings_and_the_plan(self):
        walked = list(lufodimi.roundings(3, 4, 10, STANDING))
        self.assertEqual(walked[0], lufodimi.round_table(3, 4, 10, STANDING))
        for array in lufodimi.Plan(lufodimi.plan(3, 4, 10, STANDING)).arrays():
            self.assertIn(array.counts, walked)

    def test_roundings_after_one(self):
        for place, array in enumerate(SIX):
            self.assertEqual(list(lufodimi.roundings(3, 3, 10, JESSEN, array)), SIX[place + 1 :])
            self.assertEqual(list(lufodimi.roundings(3, 3, 10, JESSEN, after=iter(array))), SIX[place + 1 :])

    def test_roundings_come_one_by_one(self):
        walk = lufodimi.roundings(3, 3, 10, JESSEN)
        other = lufodimi.roundings(3, 3, 10, JESSEN)
        first = next(walk)
        self.assertEqual(next(other), SIX[0])
        first[0] = 7  # a list of its own
        self.assertEqual([*walk], SIX[1:])
        self.assertEqual([*walk], [])
        self.assertEqual([*other], SIX[1:])

    def test_refusals_of_roundings(self):
        call = lufodimi.roundings
        self.refused(1, call, 0, 5, 10, CELLS)
        self.refused(1, call, 13, 5, 0, [])
        self.refused(1, call, 2**32 - 1, 2**32 - 1, 10, CELLS)
        self.refused(1, call, 257, 1, 10, [1])
        self.refused(15, call, 5, 1, 10, [1] * 5)
        self.refused(15, call, 1, 5, 0, [])
        self.refused(15, call, 4, 5, 10, [10_001] * 20, [0])
        self.refused(15, call, 12, 12, 10, [1] * 144)
        self.refused(2, call, 2, 2, 0, CELLS)
        self.refused(2, call, 2, 2, 65_536, [], [0])
        self.refused(3, call, 2, 2, 10, CELLS + [7])
        self.refused(3, call, 2, 2, 10, [10_001], [0])
        self.refused(4, call, 2, 2, 10, [3, 4, 5, 10_001])
        self.refused(4, call, 2, 2, 10, [3, 4, 5, -1], [0])
        for after in ([0, 0, 0, 0], [0, 0, 0, 2], [0, 0, 0, 257], [0, 0, 0], [0, 0, 0, 1, 0], []):
            self.refused(16, call, 2, 2, 10, CELLS, after)
        # counts whose low 16 bits are those of the first array
        for first in (2**16, 2**32, -(2**16), 2**64):
            self.refused(16, call, 2, 2, 10, CELLS, [first, 0, 0, 1])
        for first in (-1, 2**16 - 1):
            self.refused(16, call, 1, 1, 65_535, [65_535_000], [first])

    def test_corrections(self):
        self.assertEqual(lufodimi.round_corrections(1, 1, 2, [-1]), [-1])
        self.assertEqual(lufodimi.round_corrections(1, 2, 4, (-4, -6)), [-1, -2])
        self.assertEqual(lufodimi.round_corrections(1, 2, 2, [-1, -1]), [-1, 0])
        self.assertEqual(lufodimi.round_corrections(2, 2, 10, [-3, 4, 5, -6]), [-1, 1, 1, -1])
        self.assertEqual(lufodimi.round_corrections(3, 4, 4, iter(SHEET)), BOOKED)
        self.assertEqual(lufodimi.round_corrections(12, 12, 1, range(-72, 72)), list(range(-72, 72)))
        self.assertEqual(lufodimi.round_corrections(1, 2, 65_535, [-65_535_000, 65_535_000]), [-1_000, 1_000])
        self.assertEqual(lufodimi.round_corrections(1, 2, 65_535, [-65_534_999, 65_534_999]), [-1_000, 1_000])

    def test_corrections_are_rounded_down_or_up(self):
        def entries(cells):
            rows = [sum(cells[start : start + 4]) for start in range(0, 12, 4)]
            return [*cells, *rows, *(sum(cells[start::4]) for start in range(4)), sum(cells)]

        for denominator in (1, 2, 3, 4, 7, 10):
            counts = lufodimi.round_corrections(3, 4, denominator, SHEET)
            for entry, count in zip(entries(SHEET), entries(counts)):
                self.assertIn(count, (entry // denominator, -(-entry // denominator)))

    def test_corrections_without_negative_cells(self):
        for rows, columns, denominator, cells in (
            (2, 2, 2, [1, 1, 1, 1]),
            (2, 2, 10, CELLS),
            (3, 4, 10, STANDING),
            (12, 12, 65_535, [place * 455_455 % 65_535_001 for place in range(144)]),
            (12, 12, 65_535, [65_535_000] * 144),
        ):
            words = rows, columns, denominator, cells
            self.assertEqual(lufodimi.round_corrections(*words), lufodimi.round_table(*words))

    def test_refusals_of_corrections(self):
        call = lufodimi.round_corrections
        self.refused(1, call, 0, 2, 10, SHEET)
        self.refused(1, call, 2, 13, 0, [])
        self.refused(1, call, 2**32 - 1, 2**32 - 1, 10, CELLS)
        self.refused(2, call, 2, 2, 0, CELLS)
        self.refused(2, call, 2, 2, 65_536, [])
        self.refused(3, call, 2, 2, 10, [])
        self.refused(3, call, 2, 2, 10, [-10_001, 4, 5, 6, 7])
        for cell in (-10_001, 10_001, -(2**31), 2**31 - 1):
            self.refused(4, call, 2, 2, 10, [-3, 4, cell, 6])
        self.refused(4, call, 1, 1, 65_535, [-65_535_001])
        self.refused(4, call, 1, 1, 65_535, [65_535_001])

    def test_negative_cells_in_other_calls(self):
        for cell in (-1, -65_535_000, -(2**31), 2**32 - 1, 2**32 - 65_535_000, 2**31):
            table = 65_535, [3, 4, 5, cell]
            self.refused(4, lufodimi.round_table, 2, 2, *table)
            self.refused(4, lufodimi.roundings, 2, 2, *table)
            self.refused(4, lufodimi.plan, 2, 2, *table)
            self.refused(4, lufodimi.reason, 2, 2, *table, 1)
            self.refused_pool(4, 2, 2, table, (10, CELLS))

    def test_pooling(self):
        self.assertEqual(lufodimi.pool(3, 4, 10, STANDING, 4, LIST), (20, POOLED))
        self.assertEqual(lufodimi.pool(3, 4, 4, iter(LIST), 10, tuple(STANDING)), (20, POOLED))
        self.assertEqual(lufodimi.pool(3, 4, 10, STANDING, 10, [0] * 12), (10, STANDING))
        self.assertEqual(lufodimi.pool(1, 1, 255, [1], 257, [2]), (65_535, [767]))
        self.assertEqual(lufodimi.pool(12, 12, 2, range(144), 3, range(144)), (6, [5 * cell for cell in range(144)]))

    def test_pooled_plan(self):
        plan = lufodimi.Plan(lufodimi.plan(3, 4, *lufodimi.pool(3, 4, 10, STANDING, 4, LIST)))
        self.assertEqual((plan.rows, plan.columns, plan.array_count, plan.denominator, plan.cells), (3, 4, 6, 20, POOLED))
        draws = [plan.draw(number) for number in range(20)]
        self.assertEqual([sum(counts) for counts in zip(*draws)], POOLED)

    def test_plan(self):
        stored = lufodimi.plan(2, 2, 10, CELLS)
        plan = lufodimi.Plan(stored)
        self.assertEqual(len(stored), 96)
        self.assertEqual((plan.rows, plan.columns, plan.array_count, plan.denominator, plan.cells), (2, 2, 4, 10, CELLS))
        self.assertEqual([plan.draw(number) for number in range(10)], ARRAYS)

    def test_arrays(self):
        plan = lufodimi.Plan(lufodimi.plan(2, 2, 10, CELLS))
        self.assertEqual(plan.arrays(), [(2, [0, 0, 0, 1]), (1, [0, 0, 1, 1]), (4, [0, 1, 1, 0]), (3, [1, 0, 0, 1])])
        first = plan.array(1)
        self.assertEqual((first.weight, first.counts), (2, [0, 0, 0, 1]))
        first.counts[0] = 7  # a list of its own
        self.assertEqual([plan.array(number) for number in range(1, 5)], plan.arrays())
        for number in (0, 5, 257, 65_537, 2**31, 2**32 - 1):
            self.refused(14, plan.array, number)

    def test_arrays_are_those_of_the_numbers_in_turn(self):
        plan = lufodimi.Plan(lufodimi.plan(2, 3, 1_000, [300_400, 70, 65_936, 1_500, 260, 999]))
        in_turn = [counts for weight, counts in plan.arrays() for _ in range(weight)]
        self.assertEqual((len(plan.arrays()), in_turn), (7, [plan.draw(number) for number in range(1_000)]))

    def test_reasons(self):
        reasons = [lufodimi.reason(2, 3, 10, EVERY_KIND, array) for array in range(1, 7)]
        self.assertEqual(
            reasons,
            [
                ("grand total", None, None, "down"),
                ("column total", None, 1, "down"),
                ("cell", 2, 3, "up"),
                ("row total", 1, None, "down"),
                ("cell", 1, 1, "down"),
                ("cell", 1, 1, "all whole"),
            ],
        )
        self.assertEqual(
            [str(reason) for reason in reasons],
            [
                "the grand total, rounded down",
                "the total of column 1, rounded down",
                "the cell in row 2 and column 3, rounded up",
                "the total of row 1, rounded down",
                "the cell in row 1 and column 1, rounded down",
                "all entries are whole",
            ],
        )
        second = lufodimi.reason(2, 2, 10, iter(CELLS), 2)
        self.assertEqual((second.kind, second.row, second.column, second.rounded), ("row total", 1, None, "down"))

    def test_refusals_of_a_reason(self):
        for array in (0, 5, 171, 2**31, 2**32 - 1):
            self.refused(14, lufodimi.reason, 2, 2, 10, CELLS, array)
        self.assertEqual(lufodimi.reason(1, 2, 7, [14, 7_000], 1), ("cell", 1, 1, "all whole"))
        self.refused(14, lufodimi.reason, 1, 2, 7, [14, 7_000], 2)
        self.refused(1, lufodimi.reason, 0, 2, 10, CELLS, 0)
        self.refused(2, lufodimi.reason, 2, 2, 65_536, CELLS, 0)
        self.refused(3, lufodimi.reason, 2, 2, 10, CELLS + [7], 0)
        self.refused(4, lufodimi.reason, 2, 2, 10, [3, 4, 5, 10_001], 0)

    def test_shortest_plan(self):
        self.assertEqual(lufodimi.plan(1, 1, 1, [1]), bytes.fromhex("0100010101000000 0100000018000000 010000001c000000 01000000 0100"))

    def test_plan_keeps_its_bytes(self):
        lent = bytearray(lufodimi.plan(2, 2, 10, CELLS))
        plan = lufodimi.Plan(lent)
        lent[0] = 9
        self.assertEqual(plan.draw(0), ARRAYS[0])

    def test_refusals_of_a_table(self):
        for call in (lufodimi.round_table, lufodimi.plan):
            self.refused(1, call, 0, 2, 10, CELLS)
            self.refused(1, call, 2, 13, 0, [])
            self.refused(1, call, 2**32 - 1, 2**32 - 1, 10, CELLS)
            self.refused(2, call, 2, 2, 0, CELLS)
            self.refused(2, call, 2, 2, 65_536, CELLS)
            self.refused(3, call, 2, 2, 10, [])
            self.refused(3, call, 2, 2, 10, CELLS + [7])
            self.refused(4, call, 2, 2, 10, [3, 4, 5, 10_001])
            self.refused(4, call, 2, 2, 10, [2**32 - 1, 4, 5, 6])

    def refused_pool(self, number, rows, columns, table, other):
        self.refused(number, lufodimi.pool, rows, columns, *table, *other)
        self.refused(number, lufodimi.pool, rows, columns, *other, *table)

    def test_refusals_of_pooling(self):
        good = (10, CELLS)
        self.refused_pool(1, 0, 2, good, good)
        self.refused_pool(1, 2, 13, good, (0, []))
        self.refused_pool(1, 2**32 - 1, 2**32 - 1, good, good)
        self.refused_pool(2, 2, 2, good, (0, CELLS))
        self.refused_pool(2, 2, 2, good, (65_536, []))
        self.refused_pool(3, 2, 2, good, (10, []))
        self.refused_pool(3, 2, 2, (10, [3, 4, 5, 10_001]), (10, CELLS + [7]))
        self.refused_pool(4, 2, 2, good, (7, [0, 0, 0, 7_001]))
        self.refused_pool(4, 2, 2, (9, [0] * 4), (65_535, [2**32 - 1, 4, 5, 6]))
        self.refused_pool(11, 1, 1, (2, [1]), (32_769, [1]))
        self.refused_pool(11, 1, 1, (65_534, [65_534_000]), (65_535, [65_535_000]))
        self.refused_pool(12, 1, 1, (10, [8_998]), (4, [401]))
        self.refused_pool(12, 2, 2, good, (4, [0, 0, 4_000, 0]))

    def test_refusals_of_a_plan(self):
        stored = lufodimi.plan(2, 2, 10, CELLS)
        self.refused(5, lufodimi.Plan, b"")
        self.refused(5, lufodimi.Plan, stored + b"\0")
        self.refused(5, lufodimi.Plan, stored[:-1])
        weight = bytearray(stored)
        weight[16] -= 1  # the first array's weight: the weights then add up to one less than the denominator
        self.refused(6, lufodimi.Plan, weight)
        # one cell 1 over 1, with the count 1 of weight 1 and again of weight 0: all is rounded and adds up
        twice = bytes.fromhex("0100010102000000 0100000020000000 0100000024000000 0000000026000000 01000000 0100 0100")
        self.refused(6, lufodimi.Plan, twice)

    def test_foreign_plans(self):
        begin = "0100020202000000 0200000020000000 0100000030000000 0100000038000000"
        # cells 1 0 0 1 over 2, arrays 0 0 0 0 and 1 0 0 1: no carton and two where one is planned
        self.refused(6, lufodimi.Plan, bytes.fromhex(begin + "01000000000000000000000001000000 0000000000000000 0100000000000100"))
        # cells 1 1 1 0, arrays 1 0 0 0 and 0 1 1 0: one carton and two where one and a half are planned
        plan = lufodimi.Plan(bytes.fromhex(begin + "01000000010000000100000000000000 0100000000000000 0000010001000000"))
        self.assertEqual((plan.denominator, plan.cells), (2, [1, 1, 1, 0]))
        self.assertEqual([plan.draw(0), plan.draw(1)], [[1, 0, 0, 0], [0, 1, 1, 0]])
        self.assertEqual(plan.arrays(), [(1, [1, 0, 0, 0]), (1, [0, 1, 1, 0])])
        self.assertEqual(plan.variances(), (3, -1, 1))

    def test_variances(self):
        variances = lufodimi.Plan(lufodimi.plan(2, 2, 10, CELLS)).variances()
        self.assertEqual(variances, (94, -24, 20))
        self.assertEqual((variances.variance_sum, variances.smallest_covariance, variances.largest_covariance), (94, -24, 20))
        self.assertEqual(lufodimi.Plan(lufodimi.plan(1, 1, 3, [2])).variances(), (2, 0, 0))
        self.assertEqual(lufodimi.Plan(lufodimi.plan(1, 2, 10, [3, 4])).variances(), (45, -12, -12))
        # above 32 bits: each cell has the variance 32,767 times 32,768
        largest = lufodimi.Plan(lufodimi.plan(12, 12, 65_535, [32_767] * 144)).variances()
        self.assertEqual(largest.variance_sum, 144 * 32_767 * 32_768)

    def test_variances_from_all_draws(self):
        for rows, columns, denominator, cells in ((3, 4, 10, STANDING), (3, 4, 20, POOLED), (2, 3, 1_000, [300_400, 70, 65_936, 1_500, 260, 999])):
            plan = lufodimi.Plan(lufodimi.plan(rows, columns, denominator, cells))
            by_cell = list(zip(*(plan.draw(number) for number in range(denominator))))

            def covariance(a, b):
                return denominator * sum(one * other for one, other in zip(by_cell[a], by_cell[b])) - cells[a] * cells[b]

            places = range(rows * columns)
            different = [covariance(a, b) for a in places for b in places if a != b]
            self.assertEqual(plan.variances(), (sum(covariance(a, a) for a in places), min(different), max(different)))
            self.assertEqual(plan.variances().variance_sum, sum(cell % denominator * (denominator - cell % denominator) for cell in cells))

    def test_refusals_of_a_number(self):
        plan = lufodimi.Plan(lufodimi.plan(2, 2, 10, CELLS))
        self.refused(8, plan.draw, 10)
        self.refused(8, plan.draw, 2**32 - 1)
        run = lufodimi.Campaign(plan)
        run.draw(3)
        before = run.record
        self.refused(8, run.draw, 10)
        self.refused(10, run.draw, 3)
        self.assertEqual(run.record, before)

    def test_campaign_over_rounds(self):
        run = campaign()
        self.assertEqual((run.rounds, run.free, run.tally), (0, list(range(10)), [0, 0, 0, 0]))
        for rounds in (1, 2, 3):
            self.assertEqual([run.draw(number) for number in range(9)], ARRAYS[:9])
            self.assertEqual((run.rounds, run.free), (rounds - 1, [9]))
            self.refused(10, run.draw, 0)
            self.assertEqual(run.draw(9), ARRAYS[9])
            self.assertEqual((run.rounds, run.free, run.tally), (rounds, list(range(10)), [rounds * cell for cell in CELLS]))

    def test_campaign_to_its_end(self):
        run = lufodimi.Campaign(lufodimi.Plan(lufodimi.plan(1, 2, 1, [1_000, 7])))
        for rounds in range(1_000):
            self.assertEqual(run.rounds, rounds)
            self.assertEqual(run.draw_random(), [1_000, 7])
        end = run.record
        self.assertEqual((run.rounds, run.free, run.tally), (lufodimi.MOST_ROUNDS, [0], [1_000_000, 7_000]))
        self.refused(13, run.draw_random)
        self.refused(13, run.draw, 0)
        self.refused(8, run.draw, 1)
        self.assertEqual(run.record, end)
        again = lufodimi.Campaign(run.plan, end)
        self.assertEqual((again.rounds, again.record), (1_000, end))
        self.refused(13, again.draw_random)

    def test_random_campaign(self):
        cells = [997 * cell % 4_001 for cell in range(12)]
        run = lufodimi.Campaign(lufodimi.Plan(lufodimi.plan(3, 4, 250, cells)))
        drawn = [0] * 12
        for left in range(250, 0, -1):
            free = run.free
            counts = run.draw_random()
            (number,) = set(free) - set(run.free) if left > 1 else free
            self.assertEqual((len(free), counts), (left, run.plan.draw(number)))
            drawn = [one + more for one, more in zip(drawn, counts)]
            self.assertEqual(run.tally, drawn)
        self.assertEqual((run.rounds, run.free, run.tally), (1, list(range(250)), cells))

    def test_every_free_number_can_be_drawn(self):
        first = set()
        for _ in range(1_000):
            run = campaign()
            run.draw_random()
            first |= set(range(10)) - set(run.free)
        self.assertEqual(first, set(range(10)))

    def test_resume(self):
        run = campaign()
        self.assertEqual(campaign(run.record).record, run.record)
        for number in (7, 0, 3):
            run.draw(number)
        again = campaign(run.record)
        self.assertEqual((again.free, again.tally, again.record), ([1, 2, 4, 5, 6, 8, 9], [1, 1, 1, 2], run.record))
        self.refused(10, again.draw, 7)
        while again.rounds < 1:
            again.draw_random()
        self.assertEqual(again.tally, CELLS)
        self.assertEqual(run.tally, [1, 1, 1, 2])
        again.draw(7)
        later = campaign(again.record)
        self.assertEqual((later.rounds, later.free, later.tally), (1, [0, 1, 2, 3, 4, 5, 6, 8, 9], [4, 4, 5, 7]))
        self.assertEqual(later.record, again.record)

    def test_stored_record(self):
        run = lufodimi.Campaign(lufodimi.Plan(lufodimi.plan(1, 1, 3, [2])))
        for number in (0, 1, 2, 2):
            run.draw(number)
        self.assertEqual(run.record, b"LUFR\2\0\1\0" + bytes([1, 0, 0, 0, 1, 0, 0, 0, 1, 0, 0, 0, 0b100, 3, 0, 0, 0, 0, 0, 0, 0]))

    def test_record_of_64_bits(self):
        plan = lufodimi.Plan(lufodimi.plan(1, 1, 65_535, [65_535_000]))
        lengths = (8_192).to_bytes(4, "little") + b"\1\0\0\0"
        # number 0 alone is free in the thousandth round
        kept = b"LUFR\2\0" + (999).to_bytes(2, "little") + (65_534).to_bytes(4, "little") + lengths + (2**65_535 - 2).to_bytes(8_192, "little")
        run = lufodimi.Campaign(plan, kept + (65_534_999_000).to_bytes(8, "little"))
        self.assertEqual((run.rounds, run.free, run.draw(0)), (999, [0], [1_000]))
        self.assertEqual((run.rounds, run.tally), (1_000, [65_535_000_000]))
        self.assertEqual(lufodimi.Campaign(plan, run.record).tally, [65_535_000_000])
        self.refused(9, lufodimi.Campaign, plan, kept + (65_534_999_000 % 2**32).to_bytes(8, "little"))

    def test_refusals_of_a_record(self):
        run = campaign()
        for number in (*range(10), 7):
            run.draw(number)
        for place in range(len(run.record)):
            other = bytearray(run.record)
            other[place] ^= 128
            if place < 6 or 12 <= place < 20:  # how it begins, and the lengths
                self.assertRaises(ValueError, campaign, other)
            else:
                self.refused(9, campaign, other)
        for length in range(len(run.record)):
            self.assertRaises(ValueError, campaign, run.record[:length])
        self.assertRaises(ValueError, campaign, run.record + b"\0")
        for form in (0, 1, 3):
            self.assertRaises(ValueError, campaign, run.record[:4] + bytes([form]) + run.record[5:])
        self.refused(9, campaign, lufodimi.Campaign(lufodimi.Plan(lufodimi.plan(1, 1, 10, [3]))).record)

    def stored(self, form, rounds, taken, bits, tally):
        head = b"LUFR" + bytes([form, 0]) + rounds.to_bytes(2, "little") + bytes([taken, 0, 0, 0, 2, 0, 0, 0, 4, 0, 0, 0])
        return head + bits.to_bytes(2, "little") + b"".join(number.to_bytes(4 * form, "little") for number in tally)

    def test_refusals_of_rounds(self):
        thousand = [1_000 * cell for cell in CELLS]
        self.assertEqual(campaign(self.stored(2, 1_000, 0, 0, thousand)).rounds, 1_000)
        self.refused(9, campaign, self.stored(2, 1_001, 0, 0, [1_001 * cell for cell in CELLS]))
        self.refused(9, campaign, self.stored(2, 1_000, 1, 1, [3_000, 4_000, 5_000, 6_001]))  # a number is taken after the last round
        for rounds, tally in ((0, CELLS), (1, CELLS), (1, [6, 8, 10, 12])):
            self.refused(9, campaign, self.stored(2, rounds, 10, 0x3FF, tally))  # no number is free

    def test_old_records(self):
        for number in (0, 7):
            run = campaign(self.stored(1, 0, 1, 1 << number, ARRAYS[number]))
            self.assertEqual((run.rounds, run.free), (0, [other for other in range(10) if other != number]))
            self.assertEqual((run.tally, run.record), (ARRAYS[number], self.stored(2, 0, 1, 1 << number, ARRAYS[number])))
            self.refused(10, run.draw, number)
        run = campaign(self.stored(1, 0, 10, 0x3FF, CELLS))
        self.assertEqual((run.rounds, run.free, run.tally), (1, list(range(10)), CELLS))
        self.assertEqual(run.record, self.stored(2, 1, 0, 0, CELLS))
        self.assertEqual(run.draw(0), ARRAYS[0])
        for taken, bits, tally in (
            (10, 0x3FF, [3, 4, 5, 7]),
            (10, 0x3FF, [6, 8, 10, 12]),
            (10, 0x7FF, CELLS),
            (11, 0x7FF, CELLS),
            (10, 0x5FF, CELLS),
            (9, 0x3FF, CELLS),
        ):
            self.refused(9, campaign, self.stored(1, 0, taken, bits, tally))
        old = self.stored(1, 0, 1, 1, [0, 0, 0, 1])
        self.assertEqual(campaign(old).rounds, 0)
        for length in range(len(old)):
            self.assertRaises(ValueError, campaign, old[:length])
        self.assertRaises(ValueError, campaign, old + b"\0")
        self.assertRaises(ValueError, campaign, self.stored(1, 1, 1, 1, [3, 4, 5, 7]))  # form 1 has no rounds

    def test_integers_out_of_range(self):
        plan = lufodimi.Plan(lufodimi.plan(2, 2, 10, CELLS))
        run = lufodimi.Campaign(plan)
        for word in (-1, 2**32, 2**32 + 2, 2**64 + 2, -(2**63)):
            for call in (lufodimi.round_table, lufodimi.plan):
                self.assertRaises(OverflowError, call, word, 2, 10, CELLS)
                self.assertRaises(OverflowError, call, 2, word, 10, CELLS)
                self.assertRaises(OverflowError, call, 2, 2, word, CELLS)
            self.assertRaises(OverflowError, lufodimi.pool, word, 2, 10, CELLS, 10, CELLS)
            self.assertRaises(OverflowError, lufodimi.pool, 2, word, 10, CELLS, 10, CELLS)
            self.assertRaises(OverflowError, lufodimi.pool, 2, 2, word, CELLS, 10, CELLS)
            self.assertRaises(OverflowError, lufodimi.pool, 2, 2, 10, CELLS, word, CELLS)
            self.assertRaises(OverflowError, lufodimi.reason, word, 2, 10, CELLS, 1)
            self.assertRaises(OverflowError, lufodimi.reason, 2, 2, 10, CELLS, word)
            self.assertRaises(OverflowError, plan.array, word)
            self.assertRaises(OverflowError, plan.draw, word)
            self.assertRaises(OverflowError, run.draw, word)
        self.assertEqual(run.free, list(range(10)))

    def test_cells_out_of_range(self):
        for cell in (2**32, 2**32 + 2, 2**64 + 2, -(2**31) - 1, -(2**63)):
            cells = [3, 4, cell, 6]
            self.assertRaises(OverflowError, lufodimi.round_table, 2, 2, 10, cells)
            self.assertRaises(OverflowError, lufodimi.plan, 2, 2, 10, cells)
            self.assertRaises(OverflowError, lufodimi.pool, 2, 2, 10, cells, 10, CELLS)
            self.assertRaises(OverflowError, lufodimi.pool, 2, 2, 10, CELLS, 10, cells)
            self.assertRaises(OverflowError, lufodimi.reason, 2, 2, 10, cells, 1)

    def test_corrections_out_of_range(self):
        for word in (-1, 2**32, 2**64 + 2):
            self.assertRaises(OverflowError, lufodimi.round_corrections, word, 2, 10, CELLS)
            self.assertRaises(OverflowError, lufodimi.round_corrections, 2, word, 10, CELLS)
            self.assertRaises(OverflowError, lufodimi.round_corrections, 2, 2, word, CELLS)
        for cell in (2**31, 2**32 - 1, 2**32 + 2, 2**64 + 2, -(2**31) - 1, -(2**32), -(2**63)):
            self.assertRaises(OverflowError, lufodimi.round_corrections, 2, 2, 10, [3, 4, cell, 6])
        with self.assertRaises(OverflowError) as caught:
            lufodimi.round_corrections(1, 1, 10, [2**31])
        self.assertEqual(str(caught.exception), "2147483648 is not from -2,147,483,648 to 2,147,483,647")
        with self.assertRaises(OverflowError) as caught:
            lufodimi.round_table(-1, 1, 10, [1])
        self.assertEqual(str(caught.exception), "-1 is not from 0 to 4,294,967,295")

    def test_other_types(self):
        self.assertRaises(TypeError, lufodimi.plan, 2, 2, 10.0, CELLS)
        self.assertRaises(TypeError, lufodimi.plan, 2, 2, 10, [3, 4, 5, "6"])
        self.assertRaises(TypeError, lufodimi.round_corrections, 2, 2, 10, [3, 4, -5.0, 6])
        self.assertRaises(TypeError, lufodimi.pool, 2, 2, 10, CELLS, 10.0, CELLS)
        self.assertRaises(TypeError, lufodimi.reason, 2, 2, 10, CELLS, 1.0)
        self.assertRaises(TypeError, lufodimi.Plan(lufodimi.plan(2, 2, 10, CELLS)).array, 1.0)
        self.assertRaises(TypeError, lufodimi.Plan, 96)
        self.assertRaises(TypeError, lufodimi.Plan, None)
        self.assertRaises(TypeError, campaign, 23)

    def month(self, *words):
        """What python/month.py ends with, and prints."""
        example = pathlib.Path(lufodimi.__file__).with_name("month.py")
        words = [sys.executable, "-B", str(example), *map(str, words)]
        ended = subprocess.run(words, stdout=subprocess.PIPE, stderr=subprocess.PIPE, universal_newlines=True)
        return ended.returncode, ended.stdout.splitlines(), ended.stderr

    def counts_of(self, lines):
        self.assertEqual(lines[0].split(), ["open", "tablets", "ampoules", "insulin", "infusions"])
        self.assertEqual([line.split()[0] for line in lines[1:4]], ["front", "middle", "cold"])
        return [int(word) for line in lines[1:4] for word in line.split()[1:]]

    def test_month_example(self):
        with tempfile.TemporaryDirectory() as room:
            folder, drawn, numbers = pathlib.Path(room, "robot"), [0] * 12, set()
            status, lines, errors = self.month("begin", folder)
            self.assertEqual((status, errors, lines[1].split()), (0, "", ["front", "4.5", "2.3", "0", "1.2"]))
            self.assertTrue(lines[4].startswith("together 24 a draw; a round has 10 draws; "), lines[4])
            for month in range(1, 11):
                status, lines, errors = self.month("again" if month > 1 else "draw", folder)
                self.assertEqual((status, errors, len(lines)), (0, "", 5))
                counts = self.counts_of(lines)
                drawn = [sum(pair) for pair in zip(drawn, counts)]
                last = (folder / "draws").read_text().splitlines()[-1]
                self.assertIn(": round 1, number ", last)
                ends = "rounds completed 0, left in this round %d of 10" % (10 - month) if month < 10 else "rounds completed 1, left in this round 10 of 10"
                self.assertEqual(lines[4], f"{last}; {ends}")
                number = int(last.split()[-1])
                numbers.add(number)
                plan = lufodimi.Plan((folder / "plan").read_bytes())
                self.assertEqual(plan.draw(number), counts)
                self.assertEqual(self.counts_of(self.month("show", folder, number)[1]), counts)
                self.assertEqual(lufodimi.Campaign(plan, (folder / "record").read_bytes()).tally, drawn)
            self.assertEqual((drawn, numbers), (STANDING, set(range(10))))
            self.assertEqual(sorted(file.name for file in folder.iterdir()), ["draws", "names", "plan", "record"])

    def test_month_example_draws_nothing(self):
        with tempfile.TemporaryDirectory() as room:
            folder = pathlib.Path(room, "robot")
            self.assertIn("each month: draws", self.month("--help")[1][3])
            for words in ((), ("draw",), ("draw", folder, "again"), (folder,)):
                self.assertIn("each month: draws", self.month(*words)[2])
            self.assertIn("there is no folder", self.month("draw", folder)[2])
            self.assertEqual(list(pathlib.Path(room).iterdir()), [])
            self.month("begin", folder)
            self.assertIn("exists", self.month("begin", folder)[2])
            self.assertEqual(self.month("draw", folder)[0], 0)
            record = (folder / "record").read_bytes()
            self.assertIn("this month is drawn", self.month("draw", folder)[2])
            other = lufodimi.plan(2, 2, 10, CELLS)
            for name, stored in (("record", b"LUFR"), ("record", record[:-1] + b"\1"), ("plan", other), ("plan", b""), ("names", b"cold, front\n")):
                before = (folder / name).read_bytes()
                (folder / name).write_bytes(stored)
                status, lines, errors = self.month("again", folder)
                self.assertEqual((status, lines), (1, []))
                self.assertTrue(errors.startswith("nothing is done: "), errors)
                (folder / name).write_bytes(before)
            self.assertEqual(len((folder / "draws").read_text().splitlines()), 1)

    def test_month_example_restores_the_record(self):
        with tempfile.TemporaryDirectory() as room:
            folder = pathlib.Path(room, "robot")
            self.month("begin", folder)
            for _ in range(12):
                self.month("again", folder)
            record = (folder / "record").read_bytes()
            (folder / "record").unlink()
            self.assertIn("nothing is done: ", self.month("again", folder)[2])
            self.assertEqual(self.month("restore", folder)[1], ["rounds completed 1, left in this round 8 of 10"])
            self.assertEqual((folder / "record").read_bytes(), record)
            lines = (folder / "draws").read_text().splitlines(keepends=True)
            (folder / "draws").write_text("".join(lines[1:]))
            self.assertIn("the list of draws is not whole before: ", self.month("restore", folder)[2])
            self.assertEqual((folder / "record").read_bytes(), record)

    def test_missing_library(self):
        folder = pathlib.Path(lufodimi.__file__).parent
        ended = subprocess.run(
            [sys.executable, "-B", "-c", "import lufodimi"],
            cwd=folder,
            env={**os.environ, "LUFODIMI_LIBRARY": "/nowhere/liblufodimi.so"},
            stderr=subprocess.PIPE,
            universal_newlines=True,
        )
        last = ended.stderr.splitlines()[-1]
        self.assertTrue(last.startswith("ImportError: lufodimi's shared object cannot be loaded (/nowhere/liblufodimi.so: "), last)
        self.assertIn("; scripts/library makes it,", last)


if __name__ == "__main__":
    result = unittest.TextTestRunner(stream=sys.stdout).run(unittest.defaultTestLoader.loadTestsFromTestCase(Tests))
    failed = len(result.failures) + len(result.errors)
    print(f"{result.testsRun - failed} passed, {failed} failed")
    sys.exit(failed != 0)
