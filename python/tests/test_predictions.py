"""Both predictions, against the rules in plain Python, bit for bit."""

import math
import struct
import unittest
from array import array

import rules
from cases import SEPARATIONS, Draw, refused, screen_of

from cavzemil import Xyz, refusals

SCREEN = rules.screen_of(4, 7, 70, 2, 5)
WRONG = -0.5, 200.5, math.nan, math.inf, -math.inf, math.nextafter(200, 300)


def bits(values):
    """Values as their bits, so that -0 and +0 differ."""
    return struct.pack(f"{len(values)}d", *values)


def predicted(record, name, inks, run):
    """X, Y and Z by rule 9.3."""
    counts = rules.counts(record, name, inks)
    return [rules.mean(counts, run[i::3], record.n) for i in range(3)]


def drawn_values(draw, many):
    """So many values of primaries, 0 to 200, the ends and -0 among them."""
    return [draw.of([0.0, -0.0, 200.0, draw.below(2**32) / 2**32 * 200]) for _ in range(many)]


class Predictions(unittest.TestCase):
    """X, Y and Z are those of the rules, whatever the primaries are lent as."""

    def test_drawn(self):
        draw = Draw(1)
        for separation, name in SEPARATIONS * 50:
            record, inks, run = draw.screen(), tuple(draw.bytes(3)), drawn_values(draw, 24)
            answer = screen_of(record).predict(separation, inks, run)
            self.assertEqual(bits(answer), bits(predicted(record, name, inks, run)))

    def test_drawn_cellular(self):
        draw = Draw(2)
        for separation, name in SEPARATIONS * 25:
            record, inks, run = draw.screen(), tuple(draw.bytes(3)), drawn_values(draw, 765)
            answer = screen_of(record).predict_cellular(separation, inks, run)
            self.assertEqual(bits(answer), bits(rules.cellular(record, name, inks, run)[2]))

    def test_what_is_lent(self):
        screen = screen_of(SCREEN)
        for call, many in (screen.predict, 24), (screen.predict_cellular, 765):
            run = [float(value % 200) for value in range(many)]
            rows = [Xyz(*run[i : i + 3]) for i in range(0, many, 3)]
            due = call(0, (9, 99, 199), run)
            buffers = array("d", run), memoryview(bits(run)).cast("d")
            for lent in *buffers, tuple(run), rows, tuple(map(list, rows)), map(int, run):
                self.assertEqual(call(0, (9, 99, 199), lent), due)

    def test_read_only(self):
        """What is read stays as it was."""
        run = array("d", range(24))
        screen_of(SCREEN).predict(0, (0, 0, 0), run)
        self.assertEqual(run, array("d", range(24)))


class Refused(unittest.TestCase):
    """Refusals 100, 6, 14 and 11, in this order."""

    def check_values(self, call, many, kind, carried):
        """The first of several wrong values is told; it is carried by a number from 0 on."""
        for wrong in WRONG:
            for place in 0, 5, many - 1:
                run = [1.0] * many
                run[place] = run[-1] = wrong
                with self.assertRaises(kind) as caught:
                    call(0, (0, 0, 0), run)
                self.assertEqual(carried(caught.exception), place // 3)

    def test_values(self):
        screen = screen_of(SCREEN)
        self.check_values(screen.predict, 24, refusals.Primary, lambda refusal: refusal.colorant.value)
        self.check_values(screen.predict_cellular, 765, refusals.PrimarySet, lambda refusal: refusal.set - 1)

    def test_lengths(self):
        screen = screen_of(SCREEN)
        calls = (screen.predict, 24, refusals.InputLength), (screen.predict_cellular, 765, refusals.PrimariesLength)
        for call, right, kind in calls:
            for many in 0, 1, right - 1, right + 1:
                with self.assertRaises(kind) as caught:
                    call(0, (0, 0, 0), [-1.0] * many)
                self.assertEqual((caught.exception.expected, caught.exception.found), (right, many))
                self.assertEqual(refused(call, 2, (0, 0, 0), [-1.0] * many)[0], 100)

    def test_no_values(self):
        screen = screen_of(SCREEN)
        for call in screen.predict, screen.predict_cellular:
            for wrong in ["1"] * 24, "1" * 24, [None], [1j], 5, None, bytes(192), array("f", [1] * 24), array("Q", [1] * 24):
                with self.assertRaises(TypeError):
                    call(0, (0, 0, 0), wrong)
            with self.assertRaises(OverflowError):
                call(0, (0, 0, 0), [10**400] * 24)
