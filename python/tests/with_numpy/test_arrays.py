"""NumPy's arrays, lent and made. Run with a Python that has NumPy."""

import re
import subprocess
import sys
import unittest
from itertools import permutations

import numpy
from cases import ROOT, Draw, most_memory, refused

from cavzemil import Colorant, Screen, Window, bands, charge, pack, planes, unpack

SCREEN = Screen(4, 7, 70, 2, 5)
WINDOW = Window(3, 5, 11, 4)
INPUT = numpy.frombuffer(Draw(1).bytes(3 * 11 * 4), numpy.uint8).reshape(4, 11, 3)
CELLS = numpy.frombuffer(SCREEN.render(0, WINDOW, INPUT.tobytes()).cells, numpy.uint8).reshape(4, 11)
PLANES = numpy.frombuffer(pack(11, 4, CELLS.tobytes()), numpy.uint8).reshape(8, 4, 2)
BRICK = numpy.array(SCREEN.brick_phases())


def calls():
    """Every call that reads an array of bytes and writes one: what it reads, and what it writes."""
    return [
        (lambda given, out=None: SCREEN.render(0, WINDOW, given, out=out).cells, INPUT, CELLS),
        (lambda given, out=None: SCREEN.render_brick(0, WINDOW, given, BRICK, out=out).cells, INPUT, CELLS),
        (lambda given, out=None: pack(11, 4, given, out=out), CELLS, PLANES),
        (lambda given, out=None: unpack(11, 4, given, out=out), PLANES, CELLS),
    ]


class Given(unittest.TestCase):
    """What is made of an array is an array, and of anything else it is not."""

    def check_array(self, found, due):
        self.assertIs(type(found), numpy.ndarray)
        self.assertEqual((found.dtype, found.shape), (numpy.uint8, due.shape))
        numpy.testing.assert_array_equal(found, due)

    def test_made(self):
        for call, given, due in calls():
            self.check_array(call(given), due)
            self.check_array(call(given.reshape(-1)), due)
            self.assertIs(type(call(given.tobytes())), bytearray)
            self.assertIs(type(call(memoryview(given))), bytearray)

    def test_lent(self):
        for call, given, due in calls():
            for shape in due.shape, due.size:
                out = numpy.zeros(shape, numpy.uint8)
                self.assertIs(call(given, out=out), out)
                self.assertEqual(out.tobytes(), due.tobytes())
            out = bytearray(due.size)
            self.assertIs(call(given, out=out), out)

    def test_empty(self):
        none = numpy.zeros((0, 11, 3), numpy.uint8)
        rendered = SCREEN.render(0, Window(0, 0, 11, 0), none)
        self.assertEqual((rendered.cells.shape, rendered.tallies), ((0, 11), (0,) * 8))
        self.assertEqual(pack(11, 0, rendered.cells).shape, (8, 0, 2))
        self.assertEqual(unpack(11, 0, numpy.zeros((8, 0, 2), numpy.uint8)).shape, (0, 11))
        self.assertEqual([plane.shape for _, plane in planes(11, 0, pack(11, 0, none))], [(0, 2)] * 8)
        self.assertEqual([len(plane) for _, plane in planes(11, 0, memoryview(pack(11, 0, none)))], [0] * 8)

    def test_nothing_large_is_made(self):
        for window, due in (Window(0, 0, 2**32 - 1, 2**32 - 1), 5), (Window(0, 0, 65536, 65536), 6):
            self.assertEqual(refused(SCREEN.render, 0, window, INPUT)[0], due)
            self.assertLess(most_memory(SCREEN.render, 0, window, INPUT), 100_000)

    def test_parts(self):
        """Planes and bands are views of the array."""
        plates = PLANES.copy()
        for colorant, plane in planes(11, 4, plates):
            self.check_array(plane, PLANES[colorant])
            self.assertTrue(numpy.shares_memory(plane, plates))
        found = list(bands(WINDOW, 3, INPUT))
        self.assertEqual([part.shape for _, part in found], [(3, 11, 3), (1, 11, 3)])
        numpy.testing.assert_array_equal(numpy.concatenate([part for _, part in found]), INPUT)
        for band, part in found:
            self.check_array(SCREEN.render(0, band, part).cells, CELLS[band.y - 5 :][: band.rows])

    def test_planes_of_bits(self):
        """NumPy unpacks the planes to the same cells."""
        bits = numpy.unpackbits(PLANES, axis=2, count=11)
        numpy.testing.assert_array_equal((bits * numpy.arange(8).reshape(8, 1, 1)).sum(axis=0), CELLS)
        self.assertEqual(list(map(int, bits.sum(axis=(1, 2)))), [int((CELLS == j).sum()) for j in Colorant])


class Numbers(unittest.TestCase):
    """NumPy's numbers, and arrays of other numbers than bytes."""

    def test_scalars(self):
        screen = Screen(*numpy.array([4, 7, 70, 2, 5], numpy.int16))
        self.assertEqual(screen, SCREEN)
        self.assertEqual(screen.phase_at(numpy.uint8(3), numpy.int64(2)), SCREEN.phase_at(3, 2))
        self.assertEqual(screen.counts(numpy.int32(1), INPUT[0, 0]), SCREEN.counts(1, tuple(map(int, INPUT[0, 0]))))
        for wrong in numpy.int64(-1), numpy.int64(2**32):
            with self.assertRaises(ValueError):
                SCREEN.phase_at(wrong, 0)
        with self.assertRaises(TypeError):
            SCREEN.phase_at(numpy.float64(1), 0)

    def test_primaries(self):
        for call, many in (SCREEN.predict, 8), (SCREEN.predict_cellular, 255):
            values = numpy.linspace(0, 200, 3 * many).reshape(many, 3)
            due = call(0, (9, 99, 199), values.reshape(-1).tolist())
            for lent in values, values.reshape(-1), list(values), [list(row) for row in values]:
                self.assertEqual(call(0, (9, 99, 199), lent), due)
            for wrong in values.astype(numpy.float32), values.astype(int), values.astype(">f8"):
                with self.assertRaisesRegex(TypeError, "^primaries must hold 64-bit floating-point numbers"):
                    call(0, (9, 99, 199), wrong)

    def test_tallies(self):
        tallies = numpy.arange(16, dtype=numpy.uint64).reshape(2, 8)
        prices = numpy.full(8, 1_000_000, numpy.uint32)
        self.assertEqual(charge(prices, tallies), 120)
        self.assertEqual(charge(prices, list(tallies)), 120)
        for wrong in tallies.astype(numpy.int64), tallies.astype(numpy.uint32), tallies.astype(float):
            with self.assertRaisesRegex(TypeError, "^tallies must hold unsigned 64-bit numbers"):
                charge(prices, wrong)

    def test_bricks(self):
        brick = numpy.zeros(72, numpy.uint16)
        SCREEN.fill_brick(brick)
        numpy.testing.assert_array_equal(brick, [*BRICK, 0, 0])
        for wrong in BRICK.astype(numpy.int16), BRICK.astype(">u2"), BRICK.astype(int):
            with self.assertRaisesRegex(TypeError, "^brick must hold unsigned 16-bit numbers"):
                SCREEN.render_brick(0, WINDOW, INPUT, wrong)


class Shapes(unittest.TestCase):
    """An array of another picture is not taken for this one, though it has as many numbers."""

    def check_told(self, call, name, wrong, right):
        words = f"{name} has the shape {wrong.shape}, and the call needs {right.shape}"
        with self.assertRaisesRegex(ValueError, f"^{re.escape(words)}$"):
            call(wrong)

    def test_exchanged(self):
        """Axes in any other order, as of a picture with columns and rows exchanged, or of a planar one."""
        names = {INPUT.shape: "input", CELLS.shape: "cells", PLANES.shape: "planes"}
        for call, given, due in calls():
            for axes in list(permutations(range(given.ndim)))[1:]:
                self.check_told(call, names[given.shape], given.transpose(axes).copy(), given)
            for axes in list(permutations(range(due.ndim)))[1:]:
                self.check_told(lambda out: call(given, out=out), "out", due.transpose(axes).copy(), due)

    def test_exchanged_parts(self):
        self.check_told(lambda given: bands(WINDOW, 2, given), "input", INPUT.transpose(1, 0, 2).copy(), INPUT)
        self.check_told(lambda given: planes(11, 4, given), "plates", PLANES.transpose(0, 2, 1).copy(), PLANES)


class Wrong(unittest.TestCase):
    """Arrays that are refused before the call, with nothing written."""

    def test_items(self):
        for call, given, _ in calls():
            for kind in numpy.int8, numpy.bool_, numpy.uint16, numpy.float64, object:
                with self.assertRaisesRegex(TypeError, "must hold unsigned bytes"):
                    call(given.astype(kind))

    def test_gaps(self):
        for call, given, due in calls():
            for wrong in numpy.asfortranarray(given), given[::-1], numpy.repeat(given, 2, axis=0)[::2]:
                with self.assertRaisesRegex(ValueError, r"order \(numpy.ascontiguousarray makes such a copy\)$"):
                    call(wrong)
                call(numpy.ascontiguousarray(wrong))
            out = numpy.full((*due.shape, 2), 165, numpy.uint8)
            with self.assertRaisesRegex(ValueError, "^out must be contiguous, in C's order$"):
                call(given, out=out[..., 0])
            self.assertTrue((out == 165).all())

    def test_read_only(self):
        for call, given, due in calls():
            out = numpy.full(due.shape, 165, numpy.uint8)
            out.setflags(write=False)
            with self.assertRaisesRegex(TypeError, "^out is written, and must not be read-only$"):
                call(given, out=out)
            self.assertTrue((out == 165).all())

    def test_overlaps(self):
        for call, given, due in calls():
            memory = numpy.zeros(given.size + due.size, numpy.uint8)
            memory[: given.size] = given.reshape(-1)
            kept = memory.copy()
            for at in 0, 1, given.size - 1:
                with self.assertRaisesRegex(ValueError, "^out must not overlap"):
                    call(memory[: given.size], out=memory[at : at + due.size])
                numpy.testing.assert_array_equal(memory, kept)
            call(memory[: given.size], out=memory[given.size :])
            self.assertEqual(memory[given.size :].tobytes(), due.tobytes())

    def test_unaligned(self):
        brick = numpy.frombuffer(bytearray(141), numpy.uint16, offset=1)
        with self.assertRaisesRegex(ValueError, "^out must lie at a multiple of 2 bytes$"):
            SCREEN.fill_brick(brick)
        self.assertFalse(brick.any())


class NotImported(unittest.TestCase):
    """The package does not import NumPy by itself."""

    def test_alone(self):
        program = (
            "import sys, cavzemil; screen = cavzemil.Screen(4, 7, 70, 2, 5); "
            "cells = screen.render(0, cavzemil.Window(0, 0, 1, 1), bytes(3)).cells; cavzemil.pack(1, 1, cells); "
            "sys.exit('numpy' in sys.modules)"
        )
        words = [sys.executable, "-W", "error", "-B", "-c", program]
        subprocess.run(words, env={"PYTHONPATH": str(ROOT / "python")}, check=True)
