"""The charge of jobs, against the rules in plain Python."""

import unittest
from array import array

import rules
from cases import TOP, Draw, refused

from cavzemil import charge

SHEET = 65536 * 65536
PRICES = [10_000, 10_000, 8_000, 20_000, 20_000, 20_000, 6_000, 5_000]


class Charges(unittest.TestCase):
    """Cents and refusals are those of the rules."""

    def check_charge(self, prices, run):
        refusal, cents = rules.charge(prices, run)
        for lent in run, array("Q", run), tuple(run):
            found, answer = refused(charge, prices, lent)
            self.assertEqual((found, answer or 0), (refusal, cents))

    def test_drawn(self):
        draw = Draw(1)
        for _ in range(300):
            prices = [draw.of([0, 1, 1_000_000, draw.below(1_000_001)]) for _ in range(8)]
            self.check_charge(prices, [draw.below(SHEET // 8) for _ in range(8 * (1 + draw.below(9)))])

    def test_limits(self):
        full = [SHEET, 0, 0, 0, 0, 0, 0, 0]
        jobs = [[], [0] * 7, [0] * 8, [0] * 9, [0] * 8000, [0] * 8001, [0] * 8008, full, full * 1000, [*full[:7], 1]]
        jobs += [[2**64 - 1] * 8, [SHEET + 1, *[0] * 7], [0] * 8 + full, [2**63, 2**63, *[0] * 6]]
        for job in jobs:
            for price in 0, 1, 1_000_000, 1_000_001, TOP:
                for place in 0, 7:
                    prices = list(PRICES)
                    prices[place] = price
                    self.check_charge(prices, job)

    def test_windows(self):
        """Windows may be handed in one by one."""
        windows = [tuple(range(8)), [9] * 8, array("Q", [1] * 8)]
        flat = [tally for window in windows for tally in window]
        self.assertEqual(charge(PRICES, windows), charge(PRICES, flat))

    def test_no_prices(self):
        for prices in [0] * 7, [0] * 9, [], [-1] + [0] * 7, [0] * 7 + [2**32]:
            with self.assertRaises(ValueError):
                charge(prices, [0] * 8)
        with self.assertRaisesRegex(TypeError, "^the price of white must be a whole number, not float$"):
            charge([0] * 7 + [0.5], [0] * 8)

    def test_no_tallies(self):
        for tallies in [-1] * 8, [2**64] * 8:
            with self.assertRaisesRegex(ValueError, "^a tally is -?[0-9]+, and must be 0 to 18446744073709551615$"):
                charge(PRICES, tallies)
        for tallies in [0.5] * 8, ["1"] * 8, "1" * 8, array("q", [0] * 8), array("I", [0] * 8), bytes(64), None, 8:
            with self.assertRaises(TypeError):
                charge(PRICES, tallies)
