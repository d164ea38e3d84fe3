"""Packing, unpacking and going through plates, against the rules."""

import unittest

from cases import TOP, Draw, most_memory, refused

from cavzemil import Colorant, cells_len, input_len, pack, plane_len, planes, planes_len, unpack

GUARD = b"\xa5" * 8


def packed(columns, rows, cells):
    """The planes of cells by rules 8.1 to 8.5, bit by bit."""
    wide = (columns + 7) // 8
    found = bytearray(8 * rows * wide)
    for i, colorant in enumerate(cells):
        x, y = i % columns, i // columns
        found[(colorant * rows + y) * wide + x // 8] |= 128 >> x % 8
    return found


def drawn_plates():
    """Columns, rows and cells of drawn plates, narrow ones and empty ones among them."""
    draw = Draw(1)
    for columns in (0, 1, 7, 8, 9, 16, 17, 65):
        for rows in (0, 1, 2, 5):
            yield columns, rows, bytes(draw.below(8) for _ in range(columns * rows))


class Plates(unittest.TestCase):
    """What is packed, and back."""

    def test_both_ways(self):
        for columns, rows, cells in drawn_plates():
            due = packed(columns, rows, cells)
            self.assertEqual(pack(columns, rows, cells), due)
            self.assertEqual(unpack(columns, rows, due), cells)
            self.assertEqual((cells_len(columns, rows), planes_len(columns, rows)), (len(cells), len(due)))

    def test_lent(self):
        for columns, rows, cells in drawn_plates():
            due = packed(columns, rows, cells)
            for call, given, answer in (pack, cells, due), (unpack, due, cells):
                memory = bytearray(GUARD + bytes(len(answer)) + GUARD)
                out = memoryview(memory)[8:-8]
                self.assertIs(call(columns, rows, given, out=out), out)
                self.assertEqual(memory, GUARD + answer + GUARD)

    def test_sizes(self):
        """Every order of refusals 5, 6 and 7; what is lent stays as it was."""
        for call, right, room in (pack, 2, 8), (unpack, 8, 2):
            for columns, rows in (2, 1), (65537, 0), (0, 65537), (TOP, TOP):
                for read in 0, right - 1, right, right + 1:
                    for written in 0, room - 1, room, room + 1:
                        self.check_sizes(call, (columns, rows), read == right, written == room, read, written)

    def check_sizes(self, call, size, read_fits, written_fits, read, written):
        due = 5 if max(size) > 65536 else 6 if not read_fits else 7 if not written_fits else 0
        given = bytearray(read)
        if call is unpack:
            given[:1] = b"\xc0"[:read]  # both pixels are cyan
        out = bytearray(b"\xa5" * written)
        found, _ = refused(call, *size, given, out=out)
        self.assertEqual(found, due, (call, size, read, written))
        self.assertEqual(out == b"\xa5" * written, due != 0)

    def test_nothing_large_is_made(self):
        for call in pack, unpack:
            for size, due in ((TOP, TOP), 5), ((65536, 65536), 6):
                self.assertEqual(refused(call, *size, bytes(3))[0], due)
                self.assertLess(most_memory(call, *size, bytes(3)), 100_000)

    def test_nine(self):
        """A cell above 7; a pixel in no plane or in several; padding that is set."""
        wrong = [(pack, b"\0\x08"), (pack, b"\xff\0")]
        wrong += [(unpack, bytes([128, 128, 0, 0, 0, 0, 0, 64])), (unpack, bytes([128] + [0] * 7))]
        wrong += [(unpack, bytes([128 + 32, 0, 0, 0, 0, 0, 0, 64]))]
        for call, given in wrong:
            out = bytearray(b"\xa5" * (8 if call is pack else 2))
            kept = bytes(out)
            self.assertEqual(refused(call, 2, 1, given, out=out)[0], 9)
            self.assertEqual(out, kept)

    def test_numbers(self):
        for call in pack, unpack, planes:
            for size in (-1, 0), (0, 2**32), (0, -(2**32)), (2**64, 0):
                with self.assertRaisesRegex(ValueError, "must be 0 to 4294967295"):
                    call(*size, b"")


class Lengths(unittest.TestCase):
    """How long runs are, and that a size beyond the sheet has no length."""

    def test_on_the_sheet(self):
        for columns in 0, 1, 7, 8, 9, 65535, 65536:
            for rows in 0, 1, 65536:
                row = -(-columns // 8)
                due = columns * rows, 3 * columns * rows, row * rows, 8 * row * rows
                calls = cells_len, input_len, plane_len, planes_len
                self.assertEqual(tuple(call(columns, rows) for call in calls), due)

    def test_beyond(self):
        for call in cells_len, input_len, plane_len, planes_len:
            for size in (65537, 0), (0, 65537), (TOP, TOP):
                self.assertEqual(refused(call, *size)[0], 5)
            for size in (-1, 0), (0, 2**32):
                with self.assertRaisesRegex(ValueError, "must be 0 to 4294967295"):
                    call(*size)


class Planes(unittest.TestCase):
    """Packed planes by colorant."""

    def test_views(self):
        for columns, rows, cells in drawn_plates():
            whole = pack(columns, rows, cells)
            found = list(planes(columns, rows, whole))
            self.assertEqual([colorant for colorant, _ in found], list(Colorant))
            self.assertEqual(b"".join(plane for _, plane in found), whole)
            self.assertEqual({len(plane) for _, plane in found}, {plane_len(columns, rows)})

    def test_no_copy(self):
        whole = pack(1, 1, b"\0")
        views = dict(planes(1, 1, whole))
        whole[3] = 255
        self.assertEqual(bytes(views[Colorant.BLUE]), b"\xff")

    def test_refused(self):
        for size, given, due in ((2, 1), bytes(7), 6), ((2, 1), b"", 6), ((65537, 0), b"", 5), ((0, TOP), b"1", 5):
            self.assertEqual(refused(planes, *size, given)[0], due)

    def test_not_judged_by_their_bits(self):
        """Only sizes are judged: planes that unpacking would refuse are gone through."""
        self.assertEqual(len(list(planes(8, 1, bytes(8)))), 8)
