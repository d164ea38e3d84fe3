"""Making, replacing, filing and moving screens, their phases and their bricks, against the rules in plain Python."""

import copy
import dataclasses
import pickle
import unittest
from array import array

import rules
from cases import TOP, Draw, refused, screen_of

from cavzemil import Brick, Record, Screen

# numbers on both sides of each limit
LIMITS = {
    "a": (0, 1, 4, 6, 7, 8, 64, TOP), "b": (0, 4, 5, 7, 8, 63, 64, 65, TOP), "n": (0, 1, 2, 39, 40, 41, 70, 4096, 4097, TOP),
    "k": (0, 1, 2, 16, 17, 70, TOP), "g": (0, 40, 69, 70, 4096, TOP),
}
SCREEN = rules.screen_of(4, 7, 70, 2, 40)


class Screens(unittest.TestCase):
    """Screens that come from the library are those of the rules."""

    def check_made(self, five):
        refusal, record = rules.made(*five)
        found, screen = refused(Screen, *five)
        self.assertEqual(found, refusal, five)
        if not refusal:
            self.assertEqual(screen.record, record)
            self.assertEqual(screen.brick, Brick(*record[5:]))

    def test_limits(self):
        for name, values in LIMITS.items():
            for value in values:
                self.check_made(SCREEN._replace(**{name: value})[:5])

    def test_several_wrong(self):
        for five in (0, 0, 0, 0, 0), (4, 7, 0, 0, 0), (4, 7, 5, 6, 5), (TOP,) * 5:
            self.check_made(five)

    def test_drawn(self):
        draw = Draw(1)
        for _ in range(300):
            self.check_made(draw.screen(4096)[:5])

    def test_replaced(self):
        calls = {"g": Screen.with_offset, "k": Screen.with_subscreens, "n": Screen.with_cells}
        for name, call in calls.items():
            for value in LIMITS[name]:
                refusal, record = rules.replaced(SCREEN, name, value)
                screen = screen_of(SCREEN)
                found, answer = refused(call, screen, value)
                self.assertEqual(found, refusal, (name, value))
                self.assertEqual((answer or screen).record, record)
                self.assertEqual(screen.record, SCREEN)

    def test_filed(self):
        for name in Record._fields:
            for value in {*LIMITS.get(name, (0, 1, 2, 14, 35, 49, 70, TOP)), SCREEN._asdict()[name]}:
                record = SCREEN._replace(**{name: value})
                found, screen = refused(Screen.from_record, record)
                self.assertEqual(found, rules.refusal(record), record)
                if screen:
                    self.assertEqual(screen.record, record)

    def test_phases(self):
        draw = Draw(2)
        for _ in range(300):
            record = draw.screen(4096)
            x, y = draw.below(65536), draw.below(65536)
            self.assertEqual(screen_of(record).phase_at(x, y), rules.phase(record, x, y))

    def test_phases_at_the_edge(self):
        screen = screen_of(SCREEN)
        for x, y in (65535, 65535), (65536, 0), (0, 65536), (TOP, 0), (0, TOP):
            found, phase = refused(screen.phase_at, x, y)
            self.assertEqual(found, 5 if max(x, y) > 65535 else 0)
            if found == 0:
                self.assertEqual(phase, rules.phase(SCREEN, x, y))

    def test_bricks(self):
        draw = Draw(3)
        for _ in range(50):
            record = draw.screen(4096)
            phases = rules.brick_phases(record)
            self.assertEqual(list(screen_of(record).brick_phases()), phases)
            longer = array("H", [9999] * (record.n + 2))
            screen_of(record).fill_brick(longer)
            self.assertEqual(list(longer), [*phases, 9999, 9999])

    def test_brick_too_short(self):
        for places in 0, 1, 69:
            short = array("H", [9999] * places)
            self.assertEqual(refused(screen_of(SCREEN).fill_brick, short)[0], 8)
            self.assertEqual(list(short), [9999] * places)


class Moved(unittest.TestCase):
    """A screen seen from a corner (rules 19.1 to 19.4)."""

    CORNERS = 0, 1, 69, 70, 65535, 65536, 2**32 - 1, 2**32, 2**63, 2**64 - 1

    def test_corners(self):
        draw = Draw(4)
        for x in self.CORNERS:
            for y in self.CORNERS:
                for record in SCREEN, draw.screen(4096):
                    _, moved = rules.moved(record, x, y)
                    self.assertEqual(screen_of(record).moved(x, y).record, moved)

    def test_phases_from_there(self):
        screen, corner = screen_of(SCREEN), (2**64 - 1, 2**40 + 3)
        for u, v in (0, 0), (1, 0), (0, 1), (65535, 65535):
            due = rules.phase(SCREEN, corner[0] + u, corner[1] + v)
            self.assertEqual(screen.moved(*corner).phase_at(u, v), due)

    def test_out_of_range(self):
        for x, y in (2**64, 0), (0, 2**64), (-1, 0), (0, -1):
            with self.assertRaisesRegex(ValueError, r"^[xy] is -?\d+, and must be 0 to 18446744073709551615$"):
                screen_of(SCREEN).moved(x, y)


class Values(unittest.TestCase):
    """A screen is a plain value."""

    def test_frozen(self):
        with self.assertRaises(dataclasses.FrozenInstanceError):
            screen_of(SCREEN).g = 1

    def test_equal_where_made_otherwise(self):
        screen = Screen(4, 7, 70, 2, 40)
        others = [
            Screen.from_record(screen.record), Screen(4, 7, 70, 2, 0).with_offset(40), copy.deepcopy(screen),
            pickle.loads(pickle.dumps(screen)), dataclasses.replace(Screen(4, 7, 105, 2, 40), n=70),
        ]
        for other in others:
            self.assertEqual((other, hash(other), repr(other)), (screen, hash(screen), repr(screen)))
        self.assertNotEqual(screen, screen.with_offset(0))


class Numbers(unittest.TestCase):
    """No number is cut off on its way to the library."""

    def test_beyond_32_bits(self):
        screen = screen_of(SCREEN)
        for wrong in -1, 2**32, 2**32 + 40, 2**64:
            five = [Screen(4, 7, 70, 2, 40).record[:i] + (wrong,) + (4, 7, 70, 2, 40)[i + 1 :] for i in range(5)]
            calls = [(Screen, *numbers) for numbers in five]
            calls += [(call, wrong) for call in (screen.with_offset, screen.with_subscreens, screen.with_cells)]
            calls += [(screen.phase_at, wrong, 0), (screen.phase_at, 0, wrong), (screen.counts, wrong, (0, 0, 0))]
            calls += [(screen.cell_at, 0, wrong, 0, (0, 0, 0)), (screen.cell_at, 0, 0, wrong, (0, 0, 0))]
            calls += [(Screen.from_record, SCREEN._replace(**{name: wrong})) for name in SCREEN._fields]
            for call, *arguments in calls:
                with self.assertRaisesRegex(ValueError, "must be 0 to 4294967295$"):
                    call(*arguments)

    def test_no_numbers(self):
        screen = screen_of(SCREEN)
        for wrong in 1.0, "1", None, b"1":
            for call, *arguments in (Screen, 4, 7, 70, 2, wrong), (screen.phase_at, wrong, 0), (screen.moved, 0, wrong):
                with self.assertRaisesRegex(TypeError, "must be a whole number, not"):
                    call(*arguments)

    def test_what_stands_for_a_number(self):
        class Four:
            def __index__(self):
                return 4

        screen = Screen(Four(), 7, 70, True, False)
        self.assertEqual(screen, Screen(4, 7, 70, 1, 0))
        self.assertEqual([type(number) for number in screen.record], [int] * 8)
