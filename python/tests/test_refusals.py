"""Refusals as exceptions: their numbers, sentences and messages."""

import copy
import inspect
import pickle
import re
import unittest
from array import array

from cases import ROOT

from cavzemil import Colorant, Refusal, Screen, Separation, Slope, Window, charge, pack, refusals

LENGTHS = refusals.InputLength, refusals.OutputLength, refusals.BrickLength, refusals.PrimariesLength
DETAILS = {
    **{kind: (3, 4) for kind in LENGTHS}, refusals.TalliesLength: (7,), refusals.Primary: (Colorant.MAGENTA,),
    refusals.PrimarySet: (65,),
}


def kinds():
    """The classes of refusals that have a number."""
    found = [kind for _, kind in inspect.getmembers(refusals, inspect.isclass) if issubclass(kind, Refusal)]
    return [kind for kind in found if hasattr(kind, "number")]


def listed():
    """Each number of tests/refusals.txt with its sentence."""
    lines = (ROOT / "tests" / "refusals.txt").read_text(encoding="utf-8").splitlines()
    return {int(number): sentence for number, _, sentence in (line.split("\t") for line in lines)}


class Kinds(unittest.TestCase):
    """Every refusal of the list has a class, and none has another sentence."""

    def test_listed(self):
        due = listed()
        self.assertEqual({0, *(kind.number for kind in kinds())}, set(due))
        for kind in kinds():
            self.assertEqual(kind.sentence, due[kind.number])

    def test_messages(self):
        for kind in kinds():
            refusal = kind(*DETAILS.get(kind, ()))
            more = ": .+" if kind in DETAILS else ""
            self.assertRegex(str(refusal), f"^{re.escape(kind.sentence)}{more} \\(refusal {kind.number}\\)$")
            self.assertIsInstance(refusal, ValueError)
        self.assertEqual(str(refusals.InputLength(expected=3, found=4)), str(refusals.InputLength(3, 4)))

    def test_copied(self):
        """A refusal passes between processes."""
        for kind in kinds():
            refusal = kind(*DETAILS.get(kind, ()))
            for other in pickle.loads(pickle.dumps(refusal)), copy.copy(refusal):
                self.assertEqual((type(other), str(other), vars(other)), (kind, str(refusal), vars(refusal)))

    def test_none_by_itself(self):
        """A class without a number only catches refusals."""
        for kind, *details in (Refusal,), (Refusal, "text"), (refusals._Length, 3, 4):
            with self.assertRaisesRegex(TypeError, f"^{kind.__name__} is no refusal by itself"):
                kind(*details)

    def test_no_refusal(self):
        """A number that no call can answer is no refusal, but a wrong library."""
        for number in 6, 7, 10, 11, 14, 16, 99:
            with self.assertRaisesRegex(RuntimeError, f"^the library answered {number}, which is no refusal of this call$"):
                refusals.check(number)


class Told(unittest.TestCase):
    """What calls say of a refusal beyond its sentence."""

    SCREEN = Screen(4, 7, 70, 2, 5)

    def check_told(self, more, call, *arguments, **named):
        with self.assertRaises(Refusal) as caught:
            call(*arguments, **named)
        refusal = caught.exception
        self.assertEqual(str(refusal), f"{refusal.sentence}{more} (refusal {refusal.number})")

    def test_lengths(self):
        window, brick = Window(0, 0, 1, 1), self.SCREEN.brick_phases()
        self.check_told(": 3 expected, 4 found", self.SCREEN.render, 0, window, bytes(4))
        self.check_told(": 1 expected, 2 found", self.SCREEN.render, 0, window, bytes(3), out=bytearray(2))
        self.check_told(": 3 expected, 0 found", self.SCREEN.render_brick, 0, window, b"", brick)
        self.check_told(": 70 expected, 69 found", self.SCREEN.render_brick, 0, window, bytes(3), brick[:69])
        self.check_told(": 70 expected, 69 found", self.SCREEN.fill_brick, array("H", bytes(138)))
        self.check_told(": 2 expected, 1 found", pack, 2, 1, b"\0")
        self.check_told(": 8 expected, 9 found", pack, 2, 1, b"\0\0", out=bytearray(9))
        self.check_told(": 24 expected, 25 found", self.SCREEN.predict, 0, (0, 0, 0), [0] * 25)
        self.check_told(": 765 expected, 764 found", self.SCREEN.predict_cellular, 0, (0, 0, 0), [0] * 764)
        self.check_told(": a multiple of 8 expected, 7 found", charge, [0] * 8, [0] * 7)

    def test_values(self):
        self.check_told(": magenta", self.SCREEN.predict, 0, (0, 0, 0), [0] * 3 + [201] + [0] * 20)
        run = [0] * 192 + [-1] + [0] * 572
        self.check_told(": set 65 (cyan, black)", self.SCREEN.predict_cellular, 0, (0, 0, 0), run)

    def test_nothing_more(self):
        wrong = array("H", bytes(140))
        self.check_told("", self.SCREEN.render_brick, 0, Window(0, 0, 1, 1), bytes(3), wrong)
        self.check_told("", self.SCREEN.phase_at, 65536, 0)
        self.check_told("", self.SCREEN.counts, 2, (0, 0, 0))


class Texts(unittest.TestCase):
    """Slopes and separations as text, and the names of colorants."""

    def test_slopes(self):
        self.assertEqual(Slope.parse("63/64"), Slope(63, 64))
        self.assertEqual(str(Slope(63, 64)), "63/64")
        self.assertEqual((str(Slope(True, 2)), repr(Slope(True, 2))), ("1/2", "Slope(a=1, b=2)"))
        for text in "4/8", "0/7", "7/4", "4/65":
            with self.assertRaises(refusals.Slope):
                Slope.parse(text)
        for text in "", "4", "4/", "/7", "4/7/", " 4/7", "4/7\n", "+4/7", "-4/7", "4:7", "4/\u0667", "a/b":
            with self.assertRaisesRegex(ValueError, "^a slope is written as"):
                Slope.parse(text)
        with self.assertRaisesRegex(ValueError, "^a is 4294967300, and must be 0 to 4294967295$"):
            Slope.parse("4294967300/7")

    def test_separations(self):
        self.assertEqual([Separation.parse(str(separation)) for separation in Separation], list(Separation))
        for name in "", "Demichel", "demichel ", "DEMICHEL", "0":
            with self.assertRaises(ValueError):
                Separation.parse(name)

    def test_colorants(self):
        names = "cyan", "magenta", "yellow", "blue", "green", "red", "black", "white"
        self.assertEqual(tuple(map(str, Colorant)), names)
        self.assertEqual(f"{Colorant.RED:>5}|{Colorant.RED:5}|{Colorant.RED:.1s}|{Colorant.RED}", "  red|red  |r|red")
        self.assertEqual(f"{Colorant.RED:d}|{Colorant.RED:03d}|{Colorant.RED:b}|{Separation.KUEPPERS:x}", "5|005|101|1")
        with self.assertRaises(ValueError):
            format(Colorant.RED, "q")
        for number in range(256):
            self.assertEqual(sum(2**colorant for colorant in Colorant.of_set(number)), number)
        for number in -1, 256:
            with self.assertRaises(ValueError):
                Colorant.of_set(number)
