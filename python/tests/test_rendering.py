"""Counts, lone cells and windows, against the rules in plain Python."""

import unittest
from array import array

import rules
from cases import SEPARATIONS, TOP, Draw, most_memory, refused, screen_of

from cavzemil import Colorant, Inks, Screen, Separation, Window, bands

SCREEN = rules.screen_of(4, 7, 70, 2, 5)
GUARD = b"\xa5" * 8


def cell(record, name, x, y, inks):
    """The colorant of a place by the rules."""
    return rules.colorants(record, name, inks)[rules.phase(record, x, y)]


def cells(record, name, window, input):
    """The cells of a window by the rules."""
    x, y, columns, rows = window
    places = [(x + i, y + j) for j in range(rows) for i in range(columns)]
    return bytes(cell(record, name, *place, input[3 * i : 3 * i + 3]) for i, place in enumerate(places))


def size_refusal(window, read, written):
    """The refusal of a window and of how many bytes are read and written, by the rules."""
    x, y, columns, rows = window
    if x + columns > 65536 or y + rows > 65536:
        return 5
    if read != 3 * columns * rows:
        return 6
    return 7 if written != columns * rows else 0


class Patches(unittest.TestCase):
    """Counts and lone cells."""

    def test_counts(self):
        draw = Draw(1)
        for separation, name in SEPARATIONS * 150:
            record, inks = draw.screen(4096), tuple(draw.bytes(3))
            self.assertEqual(screen_of(record).counts(separation, inks), tuple(rules.counts(record, name, inks)))

    def test_cells(self):
        draw = Draw(2)
        for separation, name in SEPARATIONS * 50:
            record, inks = draw.screen(), Inks(*draw.bytes(3))
            x, y = draw.below(65536), draw.below(65536)
            answer = screen_of(record).cell_at(separation, x, y, inks)
            self.assertIs(answer, Colorant(cell(record, name, x, y, inks)))

    def test_refused(self):
        screen = screen_of(SCREEN)
        self.assertEqual(refused(screen.counts, 2, (0, 0, 0))[0], 100)
        self.assertEqual(refused(screen.cell_at, TOP, 65536, 0, (0, 0, 0))[0], 100)
        for x, y in (65536, 0), (0, 65536), (TOP, TOP):
            self.assertEqual(refused(screen.cell_at, 0, x, y, (0, 0, 0))[0], 5)

    def test_no_ink_values(self):
        screen = screen_of(SCREEN)
        for inks in (256, 0, 0), (0, -1, 0), (0, 0, 2**32), (0, 0), (0, 0, 0, 0), b"\0\0":
            for call, *arguments in (screen.counts, 0, inks), (screen.cell_at, 0, 0, 0, inks):
                with self.assertRaises(ValueError):
                    call(*arguments)
        with self.assertRaisesRegex(TypeError, "^m must be a whole number, not float$"):
            screen.counts(0, (0, 0.5, 0))


class Windows(unittest.TestCase):
    """Both renderers."""

    def check_window(self, record, separation, name, window, input):
        """A window that is served, by both renderers, to new memory and to memory with a guard around it."""
        screen, due = screen_of(record), cells(record, name, window, input)
        tallies = tuple(due.count(j) for j in range(8))
        calls = (screen.render, input), (screen.render_brick, input, screen.brick_phases())
        for call, *lent in calls:
            self.assertEqual(call(separation, window, *lent), (bytearray(due), tallies))
            memory = bytearray(GUARD + bytes(len(due)) + GUARD)
            out = memoryview(memory)[8:-8]
            answer = call(separation, window, *lent, out=out)
            self.assertIs(answer.cells, out)
            self.assertEqual((bytes(memory), answer.tallies), (GUARD + due + GUARD, tallies))

    def test_drawn(self):
        draw = Draw(3)
        for separation, name in SEPARATIONS * 25:
            columns, rows = draw.below(9), draw.below(6)
            window = Window(draw.below(65536 - columns), draw.below(65536 - rows), columns, rows)
            self.check_window(draw.screen(), separation, name, window, draw.bytes(3 * columns * rows))

    def test_last_cell(self):
        self.check_window(SCREEN, 0, "demichel", Window(65535, 65535, 1, 1), b"\x80\x80\0")

    def test_nothing_to_render(self):
        for window in Window(0, 0, 0, 0), Window(65536, 65536, 0, 0), Window(0, 0, 65536, 0), Window(0, 0, 0, 65536):
            self.check_window(SCREEN, 1, "kueppers", window, b"")

    def test_sizes(self):
        """Every order of refusals 5, 6 and 7; what is lent stays as it was."""
        screen, brick = screen_of(SCREEN), screen_of(SCREEN).brick_phases()
        windows = [
            Window(0, 0, 2, 1), Window(65534, 0, 2, 1), Window(65535, 0, 2, 1), Window(0, 65535, 1, 2),
            Window(TOP, 0, 1, 1), Window(0, 0, TOP, TOP), Window(0, TOP, 0, 0), Window(0, 0, 65537, 0),
        ]
        for window in windows:
            for read in 0, 5, 6, 7:
                for written in 0, 1, 2, 3:
                    due = size_refusal(window, read, written)
                    out = bytearray(b"\xa5" * written)
                    for call, *lent in (screen.render,), (screen.render_brick, brick):
                        found, _ = refused(call, 0, window, bytes(read), *lent, out=out)
                        self.assertEqual(found, due, (window, read, written))
                        if due:
                            self.assertEqual(out, b"\xa5" * written)

    def test_nothing_large_is_made(self):
        """A call that is refused for its sizes makes no memory for cells, though the window asks for much."""
        screen, brick = screen_of(SCREEN), screen_of(SCREEN).brick_phases()
        for window, due in (Window(0, 0, TOP, TOP), 5), (Window(0, 0, 65536, 65536), 6):
            for call, *lent in (screen.render,), (screen.render_brick, brick):
                self.assertEqual(refused(call, 0, window, bytes(3), *lent)[0], due)
                self.assertLess(most_memory(call, 0, window, bytes(3), *lent), 100_000)

    def test_bricks(self):
        screen = screen_of(SCREEN)
        brick = screen.brick_phases()
        wrong = array("H", brick)
        wrong[69] ^= 1
        for buffer, due in (brick, 0), (brick + array("H", [9]), 0), (brick[:69], 8), (wrong, 8), (array("H"), 8):
            out = bytearray(b"\xa5\xa5")
            kept = array("H", buffer)
            found, _ = refused(screen.render_brick, 0, Window(0, 0, 2, 1), bytes(6), buffer, out=out)
            self.assertEqual((found, buffer), (due, kept))
            self.assertEqual(out == b"\xa5\xa5", due == 8)

    def test_separation(self):
        """100 comes before all else."""
        screen = screen_of(SCREEN)
        for call, *lent in (screen.render,), (screen.render_brick, array("H")):
            self.assertEqual(refused(call, 2, Window(0, 0, TOP, TOP), b"", *lent)[0], 100)

    def test_numbers_of_a_window(self):
        screen = screen_of(SCREEN)
        for window in (-1, 0, 0, 0), (0, 2**32, 0, 0), (0, 0, 2**32, 0), (0, 0, 0, -1), (0, 0, 0):
            with self.assertRaises(ValueError):
                screen.render(0, window, b"")


class Bands(unittest.TestCase):
    """A picture rendered in bands is the picture."""

    SCREEN = Screen(4, 7, 105, 2, 0)
    WINDOW = Window(5, 65530, 11, 6)
    INPUT = Draw(4).bytes(3 * 11 * 6)

    def test_bands(self):
        whole = self.SCREEN.render(Separation.KUEPPERS, self.WINDOW, self.INPUT)
        for rows in 0, 1, 2, 4, 6, 7, TOP:
            cells, tallies = bytearray(), [0] * 8
            for band, part in bands(self.WINDOW, rows, self.INPUT):
                rendered = self.SCREEN.render(Separation.KUEPPERS, band, part)
                cells += rendered.cells
                tallies = [sum(pair) for pair in zip(tallies, rendered.tallies)]
            self.assertEqual((cells, tuple(tallies)), whole)

    def test_heights(self):
        for rows, due in (0, [1] * 6), (1, [1] * 6), (4, [4, 2]), (6, [6]), (TOP, [6]):
            self.assertEqual([band.rows for band in self.WINDOW.bands(rows)], due)
        self.assertEqual(list(Window(0, 0, 5, 0).bands(1)), [])

    def test_named(self):
        """The number of rows has the name that it has in Rust."""
        found = bands(window=self.WINDOW, rows_a_band=4, input=self.INPUT)
        self.assertEqual([band for band, _ in found], list(self.WINDOW.bands(rows_a_band=4)))
        with self.assertRaisesRegex(ValueError, "^rows_a_band is -1, and must be"):
            self.WINDOW.bands(-1)

    def test_refused(self):
        """As a renderer refuses the whole picture."""
        for window in self.WINDOW, Window(65535, 0, 2, 1), Window(0, 0, 65537, 0), Window(0, 0, TOP, TOP), Window():
            for input in self.INPUT, self.INPUT[1:], b"":
                due = refused(self.SCREEN.render, 0, window, input)[0]
                self.assertEqual(refused(bands, window, 2, input)[0], due)

    def test_numbers(self):
        for window, rows in (Window(0, 0, 1, 1), -1), (Window(0, 0, 1, -1), 1), (Window(0, 0, 1, 1), 2**32):
            for call, *lent in (Window.bands, window, rows), (bands, window, rows, bytes(3)):
                with self.assertRaises(ValueError):
                    call(*lent)
