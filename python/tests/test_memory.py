"""Memory that is lent: what is taken, and what is refused before the call, with nothing written."""

import ctypes
import gc
import mmap
import re
import tempfile
import unittest
from array import array

from cases import refused

from cavzemil import Screen, Window, bands, charge, pack, planes, unpack
from cavzemil._buffers import BYTES, PHASES, _Buffer, lent

SCREEN = Screen(4, 7, 70, 2, 5)
WINDOW = Window(0, 0, 2, 1)
INPUT = bytes([128, 128, 0, 51, 102, 204])
CELLS = bytes(SCREEN.render(0, WINDOW, INPUT).cells)
PLANES = bytes(pack(2, 1, CELLS))
BRICK = SCREEN.brick_phases()
# the shapes of a picture of two columns and one row
SHAPES = {INPUT: (1, 2, 3), CELLS: (1, 2), PLANES: (8, 1, 1)}


def joined(parts):
    """The bytes of planes or bands."""
    return b"".join(part for _, part in parts)


def cutting():
    """Both calls that answer parts of a buffer, with one that they serve."""
    return [(lambda given: planes(2, 1, given), PLANES), (lambda given: bands(WINDOW, 1, given), INPUT)]


def reading():
    """Every call that reads bytes, with a buffer that it serves."""
    return [
        (lambda given: SCREEN.render(0, WINDOW, given).cells, INPUT, CELLS),
        (lambda given: SCREEN.render_brick(0, WINDOW, given, BRICK).cells, INPUT, CELLS),
        (lambda given: pack(2, 1, given), CELLS, PLANES),
        (lambda given: unpack(2, 1, given), PLANES, CELLS),
        *((lambda given, call=call: joined(call(given)), given, given) for call, given in cutting()),
    ]


def writing():
    """Every call that writes bytes, with what it writes."""
    return [
        (lambda out: SCREEN.render(0, WINDOW, INPUT, out=out), CELLS),
        (lambda out: SCREEN.render_brick(0, WINDOW, INPUT, BRICK, out=out), CELLS),
        (lambda out: pack(2, 1, CELLS, out=out), PLANES),
        (lambda out: unpack(2, 1, PLANES, out=out), CELLS),
    ]


class Taken(unittest.TestCase):
    """Whatever has the buffer protocol and holds the right numbers."""

    def test_read(self):
        for call, given, due in reading():
            holders = bytes(given), bytearray(given), memoryview(given), array("B", given), memoryview(given).toreadonly()
            shaped = memoryview(given).cast("B", (1, 2, 1, len(given) // 2))
            for holder in *holders, shaped, (ctypes.c_ubyte * len(given))(*given):
                self.assertEqual(call(holder), due)

    def test_written(self):
        for call, due in writing():
            for out in bytearray(len(due)), array("B", bytes(len(due))), (ctypes.c_uint8 * len(due))():
                call(out)
                self.assertEqual(bytes(out), due)
            shaped = memoryview(bytearray(len(due))).cast("B", (1, 2, 1, len(due) // 2))
            call(shaped)
            self.assertEqual(bytes(shaped), due)

    def test_parts_are_read(self):
        """Parts of ctypes's memory can be indexed, though Python does not read its format."""
        for call, given in cutting():
            parts = [part for _, part in call((ctypes.c_uint8 * len(given))(*given))]
            self.assertEqual([part[i] for part in parts for i in range(len(part))], list(given))

    def test_mapped_files(self):
        with tempfile.TemporaryFile() as file:
            file.write(INPUT)
            file.flush()
            with mmap.mmap(file.fileno(), len(INPUT), access=mmap.ACCESS_READ) as mapped:
                self.assertEqual(SCREEN.render(0, WINDOW, mapped).cells, CELLS)
            with mmap.mmap(-1, len(CELLS)) as mapped:
                SCREEN.render(0, WINDOW, INPUT, out=mapped)
                self.assertEqual(mapped[:], CELLS)

    def test_empty(self):
        for given in b"", bytearray(), memoryview(b""), array("B"):
            for call in pack, unpack:
                self.assertEqual(bytes(call(0, 5, given)), b"")
            self.assertEqual(bytes(SCREEN.render(0, Window(), given).cells), b"")
        for out in bytearray(), array("B"):
            self.assertIs(pack(0, 0, b"", out=out), out)

    def test_bricks(self):
        for brick in BRICK, memoryview(BRICK), (ctypes.c_uint16 * 70)(*BRICK), memoryview(bytes(BRICK)).cast("H"):
            self.assertEqual(SCREEN.render_brick(0, WINDOW, INPUT, brick).cells, CELLS)
        out = (ctypes.c_uint16 * 70)()
        SCREEN.fill_brick(out)
        self.assertEqual(list(out), list(BRICK))

    def test_tallies(self):
        for letter in "QL":
            self.assertEqual(charge([1_000_000] * 8, array(letter, range(8))), 28)
        self.assertEqual(charge([1_000_000] * 8, (ctypes.c_uint64 * 8)(*range(8))), 28)

    def test_no_copy(self):
        """The address is that of the object's own memory."""
        holder = bytearray(b"abc")
        with lent("input", holder, BYTES) as run:
            due = ctypes.addressof((ctypes.c_char * 3).from_buffer(holder))
            self.assertEqual((run.address, run.length, ctypes.string_at(run.address, 3)), (due, 3, b"abc"))


class Wrong(unittest.TestCase):
    """What is told before the call."""

    def test_no_buffer(self):
        for call, given, _ in reading():
            for wrong in "text", None, 5, [0] * len(given), object():
                with self.assertRaisesRegex(TypeError, "must be a buffer"):
                    call(wrong)
        for call, _ in writing():
            for wrong in "text", 5, [0, 0]:
                with self.assertRaisesRegex(TypeError, "^out must be a buffer"):
                    call(wrong)

    def test_items(self):
        for call, given, _ in reading():
            for wrong in memoryview(given).cast("b"), memoryview(given).cast("c"), *(array(c, [0] * 6) for c in "HhIfd"):
                with self.assertRaisesRegex(TypeError, r"must hold unsigned bytes \(format 'B'\), not format '.' of"):
                    call(wrong)
        for call, due in writing():
            with self.assertRaisesRegex(TypeError, "^out must hold unsigned bytes"):
                call(array("b", bytes(len(due))))

    def test_items_of_bricks(self):
        for brick in bytes(140), array("h", BRICK), array("I", BRICK), memoryview(bytes(140)):
            with self.assertRaisesRegex(TypeError, "^brick must hold unsigned 16-bit numbers"):
                SCREEN.render_brick(0, WINDOW, INPUT, brick)
        swapped = (ctypes.c_uint16.__ctype_be__ * 70)(*BRICK)
        with self.assertRaisesRegex(TypeError, "^brick must hold unsigned 16-bit numbers .*, not format '>H' of 2 bytes$"):
            SCREEN.render_brick(0, WINDOW, INPUT, swapped)

    def test_items_of_another_size(self):
        """A letter does not say how many bytes a number has: `L` has four on some machines, and eight on others."""
        memory = (ctypes.c_uint32 * 8)()
        view = _Buffer(buf=ctypes.addressof(memory), len=32, itemsize=4, readonly=1, ndim=1, format=b"<L")
        view_of = ctypes.pythonapi.PyMemoryView_FromBuffer
        view_of.argtypes, view_of.restype = [ctypes.POINTER(_Buffer)], ctypes.py_object
        with self.assertRaisesRegex(TypeError, "^tallies must hold unsigned 64-bit numbers .*, not format '<L' of 4 bytes$"):
            charge([0] * 8, view_of(view))

    def test_gaps(self):
        for call, given, _ in reading():
            apart = bytearray(2 * len(given))
            for view in memoryview(apart)[::2], memoryview(given)[::-1]:
                with self.assertRaisesRegex(ValueError, "must be contiguous, in C's order$"):
                    call(view)
        for call, due in writing():
            apart = bytearray(b"\xa5" * 2 * len(due))
            with self.assertRaisesRegex(ValueError, "^out must be contiguous, in C's order$"):
                call(memoryview(apart)[::2])
            self.assertEqual(apart, b"\xa5" * 2 * len(due))

    def test_read_only(self):
        for call, due in writing():
            for out in bytes(len(due)), memoryview(bytearray(len(due))).toreadonly():
                with self.assertRaisesRegex(TypeError, "^out is written, and must not be read-only$"):
                    call(out)
                self.assertEqual(bytes(out), bytes(len(due)))
        with self.assertRaisesRegex(TypeError, "^out is written, and must not be read-only$"):
            SCREEN.fill_brick(memoryview(bytes(140)).cast("H"))

    def test_unaligned(self):
        memory = bytearray(200)
        for items, size in ("H", 2), ("d", 8), ("Q", 8):
            view = memoryview(memory)[1 : 1 + 24 * size if items == "d" else 1 + 64].cast(items)
            with self.assertRaisesRegex(ValueError, f"must lie at a multiple of {size} bytes$"):
                calls = {"H": SCREEN.fill_brick, "Q": lambda run: charge([0] * 8, run)}
                calls.get(items, lambda run: SCREEN.predict(0, (0, 0, 0), run))(view)
        self.assertEqual(memory, bytes(200))


def shapes(length, many):
    """Every shape of so many dimensions that has a length above 0."""
    if many == 1:
        return [(length,)]
    firsts = [first for first in range(1, length + 1) if length % first == 0]
    return [(first, *rest) for first in firsts for rest in shapes(length // first, many - 1)]


class Shapes(unittest.TestCase):
    """A buffer with as many dimensions as the picture needs its shape; of any other the length counts."""

    def check_told(self, call, view, picture):
        words = re.escape(f" has the shape {view.shape}, and the call needs {SHAPES[picture]}")
        with self.assertRaisesRegex(ValueError, f"^(input|cells|planes|plates|out){words}$"):
            call(view)

    def test_read(self):
        for call, given, due in reading():
            for shape in shapes(len(given), len(SHAPES[given])):
                view = memoryview(given).cast("B", shape)
                if shape == SHAPES[given]:
                    self.assertEqual(call(view), due)
                else:
                    self.check_told(call, view, given)

    def test_written(self):
        for call, due in writing():
            for shape in shapes(len(due), len(SHAPES[due])):
                out = memoryview(bytearray(b"\xa5" * len(due))).cast("B", shape)
                if shape == SHAPES[due]:
                    call(out)
                    self.assertEqual(bytes(out), due)
                else:
                    self.check_told(call, out, due)
                    self.assertEqual(bytes(out), b"\xa5" * len(due))

    def test_lengths(self):
        """Another length is the library's to refuse."""
        for call, given, _ in reading():
            first, *others = SHAPES[given]
            self.assertEqual(refused(call, memoryview(2 * given).cast("B", (2 * first, *others)))[0], 6)
        for call, due in writing():
            first, *others = SHAPES[due]
            self.assertEqual(refused(call, memoryview(bytearray(2 * due)).cast("B", (2 * first, *others)))[0], 7)


class Overlaps(unittest.TestCase):
    """A run that is written overlaps no other, told by where they lie."""

    def check_apart(self, memory, call):
        before = bytes(memory)
        with self.assertRaisesRegex(ValueError, "^out must not overlap (input|brick|cells|planes)$"):
            call()
        self.assertEqual(bytes(memory), before)

    def test_of_bytes(self):
        """Two views of one bytearray, at every distance: refused just where they share a byte."""
        for call, read, write in (pack, 2, 8), (unpack, 8, 2):
            for at in range(0, 17):
                memory = bytearray(24)
                memory[8 : 8 + read] = CELLS if call is pack else PLANES
                view = memoryview(memory)
                given, out = view[8 : 8 + read], view[at : at + write]
                if at < 8 + read and 8 < at + write:
                    self.check_apart(memory, lambda: call(2, 1, given, out=out))
                else:
                    self.assertEqual(bytes(call(2, 1, given, out=out)), PLANES if call is pack else CELLS)

    def test_of_windows(self):
        memory = bytearray(INPUT)
        view = memoryview(memory)
        for call, *lent in (SCREEN.render,), (SCREEN.render_brick, BRICK):
            for at in range(5):
                self.check_apart(memory, lambda: call(0, WINDOW, view, *lent, out=view[at : at + 2]))
            self.check_apart(memory, lambda: call(0, WINDOW, memory, *lent, out=memory))

    def test_of_bricks(self):
        brick = array("H", BRICK)
        view = memoryview(brick).cast("B")
        for at in 0, 1, 138:
            self.check_apart(brick, lambda: SCREEN.render_brick(0, WINDOW, INPUT, brick, out=view[at : at + 2]))

    def test_before_refusals(self):
        """An overlap is told also where the library would refuse the call."""
        memory = bytearray(3)
        self.check_apart(memory, lambda: SCREEN.render(2, WINDOW, memory, out=memory))

    def test_empty_runs(self):
        """An empty run lies nowhere."""
        memory = bytearray(8)
        view = memoryview(memory)
        self.assertEqual(SCREEN.render(0, Window(), view[4:4], out=view[4:4]).tallies, (0,) * 8)

    def test_reading_twice(self):
        """Runs that are only read may overlap."""
        memory = array("H", [*BRICK, 0, 0, 0])
        input = memoryview(memory).cast("B")[134:140]
        self.assertEqual(len(SCREEN.render_brick(0, WINDOW, input, memory).cells), 2)


class Held(unittest.TestCase):
    """A buffer is locked while it is lent, and free again then, also where the call is refused."""

    def test_locked(self):
        for holder, items in (bytearray(4), BYTES), (array("H", [0]), PHASES):
            with lent("input", holder, items), self.assertRaises(BufferError):
                holder.extend(holder)
            holder.extend(holder)

    def test_parts(self):
        """What planes and bands are parts of is locked while there are some to come."""
        for call, given in cutting():
            holder = bytearray(given)
            parts = call(holder)
            with self.assertRaises(BufferError):
                holder.clear()
            self.assertEqual(joined(parts), given)
            holder.clear()

    def test_free_again(self):
        for wrong in bytearray(5), bytearray(6):
            out = bytearray(1)
            with self.assertRaises(ValueError):
                SCREEN.render(0, WINDOW, wrong, out=out)
            wrong.append(0)
            out.append(0)

    def test_nothing_is_kept(self):
        class Holder(bytearray):
            """A bytearray that is counted."""

        SCREEN.render(0, WINDOW, Holder(INPUT), out=Holder(2))
        gc.collect()
        self.assertEqual([found for found in gc.get_objects() if isinstance(found, Holder)], [])
