"""Memory that is lent to the library: checked for what it holds and where it lies before the call, and held while it runs."""

from __future__ import annotations

import sys
from array import array
from collections.abc import Callable, Iterable, Iterator
from contextlib import contextmanager
from ctypes import POINTER, Structure, byref, c_char_p, c_int, c_ssize_t, c_void_p, py_object, pythonapi
from math import prod
from typing import TYPE_CHECKING, Any, NamedTuple

from ._numbers import unsigned

if TYPE_CHECKING:
    from _typeshed import ReadableBuffer, WriteableBuffer

    Phases = array[int]
else:
    # Python itself has no such types, or not before 3.12. These stand for them where a program that runs reads the hints.
    ReadableBuffer = WriteableBuffer = Any
    Phases = array


class Items(NamedTuple):
    """What a buffer must hold: in words, by the letters that the module `struct` has for it, and the bytes of one."""

    words: str
    letters: str
    size: int


BYTES = Items("unsigned bytes", "B", 1)
PHASES = Items("unsigned 16-bit numbers", "H", 2)
VALUES = Items("64-bit floating-point numbers", "d", 8)
TALLIES = Items("unsigned 64-bit numbers", "QL", 8)

# The marks of byte order that a buffer of this machine's own order may carry before its letter.
_OWN_ORDER = "@=<" if sys.byteorder == "little" else "@=>!"


class Run(NamedTuple):
    """A run of memory: what the caller calls it, its address (none where it is empty), its elements and its bytes."""

    name: str
    address: int | None
    length: int
    size: int

    @property
    def arguments(self) -> tuple[int | None, int]:
        """The pointer and the length that C takes."""
        return self.address, self.length


class _Buffer(Structure):
    """Python's own `Py_buffer`. ctypes hands out the address of memory that may be written, but not of `bytes`."""

    _fields_ = [
        ("buf", c_void_p), ("obj", c_void_p), ("len", c_ssize_t), ("itemsize", c_ssize_t), ("readonly", c_int),
        ("ndim", c_int), ("format", c_char_p), ("shape", c_void_p), ("strides", c_void_p), ("suboffsets", c_void_p),
        ("internal", c_void_p),
    ]


_get_buffer = pythonapi.PyObject_GetBuffer
_get_buffer.argtypes = [py_object, POINTER(_Buffer), c_int]
_release_buffer = pythonapi.PyBuffer_Release
_release_buffer.argtypes, _release_buffer.restype = [POINTER(_Buffer)], None


@contextmanager
def _address(view: memoryview) -> Iterator[int | None]:
    """Where the memory of a view lies."""
    buffer = _Buffer()
    _get_buffer(view, byref(buffer), 0)
    try:
        yield buffer.buf if view.nbytes else None
    finally:
        _release_buffer(byref(buffer))


def _view(name: str, buffer: ReadableBuffer) -> memoryview:
    """A view of a buffer."""
    try:
        return memoryview(buffer)
    except TypeError:
        kind = type(buffer).__name__
        raise TypeError(f"{name} must be a buffer, as bytes, bytearray or a NumPy array are, not {kind}") from None


def _check(name: str, view: memoryview, items: Items, written: bool) -> None:
    """Tests what a view holds, that it may be written if it will be, and that it has no gaps."""
    if view.format.lstrip(_OWN_ORDER) not in list(items.letters) or view.itemsize != items.size:
        found = f"format {view.format!r} of {view.itemsize} bytes"
        raise TypeError(f"{name} must hold {items.words} (format {items.letters[0]!r}), not {found}")
    if written and view.readonly:
        raise TypeError(f"{name} is written, and must not be read-only")
    if not view.c_contiguous:
        helps = " (numpy.ascontiguousarray makes such a copy)" if _numpy_of(view.obj) and not written else ""
        raise ValueError(f"{name} must be contiguous, in C's order{helps}")


def _check_shape(name: str, view: memoryview, shape: tuple[int, ...]) -> None:
    """Tests that a view of bytes with as many dimensions as the picture has its shape too: one of the same length may have
    columns and rows exchanged, or be planar. A wrong length is left to the library."""
    if view.ndim == len(shape) and view.nbytes == prod(shape) and view.shape != shape:
        raise ValueError(f"{name} has the shape {view.shape}, and the call needs {shape}")


@contextmanager
def lent(
    name: str, buffer: ReadableBuffer, items: Items, shape: tuple[int, ...] = (), written: bool = False
) -> Iterator[Run]:
    """Holds a buffer for the time of a call, without copying it: nothing can resize or close it meanwhile. What holds a
    picture is tested for its shape.

    >>> with lent("input", bytes(6), BYTES) as run:
    ...     print(run.length)
    6
    """
    with _view(name, buffer) as view:
        _check(name, view, items, written)
        _check_shape(name, view, shape)
        with _address(view) as address:
            if address is not None and address % items.size:
                raise ValueError(f"{name} must lie at a multiple of {items.size} bytes")
            yield Run(name, address, view.nbytes // items.size, view.nbytes)


def apart(out: Run, *others: Run) -> None:
    """Tests that a run which is written overlaps no other of the call (rule 14.2), by their addresses."""
    for other in others:
        if out.address is None or other.address is None:
            continue
        if out.address < other.address + other.size and other.address < out.address + out.size:
            raise ValueError(f"{out.name} must not overlap {other.name}")


def _is_buffer(given: object) -> bool:
    """Whether something may be lent as it is."""
    try:
        memoryview(given).release()  # type: ignore[arg-type]
    except TypeError:
        return False
    return True


def _flat(given: Iterable[Any]) -> Iterator[Any]:
    """The numbers of a sequence of numbers, or of sequences of numbers.

    >>> list(_flat([1, (2, 3)]))
    [1, 2, 3]
    """
    for item in given:
        if isinstance(item, Iterable):
            yield from item
        else:
            yield item


def _lendable(name: str, given: Any, new: Callable[[Iterator[Any]], ReadableBuffer]) -> ReadableBuffer:
    """A buffer as it is, or a new one of the numbers that a sequence holds."""
    if _is_buffer(given):
        return given
    try:
        return new(_flat(given))
    except TypeError as error:
        raise TypeError(f"{name} must be a buffer or a sequence of numbers: {error}") from None


def values(given: ReadableBuffer | Iterable[Any]) -> ReadableBuffer:
    """A buffer of primaries' values as it is, or a new one of those that a sequence holds.

    >>> values([1, (2, 3)])
    array('d', [1.0, 2.0, 3.0])
    """
    return _lendable("primaries", given, lambda numbers: array("d", numbers))


def tallies(given: ReadableBuffer | Iterable[Any]) -> ReadableBuffer:
    """A buffer of tallies as it is, or a new one of those that a sequence holds.

    >>> tallies([0, -1])
    Traceback (most recent call last):
    ValueError: a tally is -1, and must be 0 to 18446744073709551615
    """
    return _lendable(
        "tallies", given, lambda numbers: array("Q", (unsigned("a tally", tally, bits=64) for tally in numbers))
    )


def _numpy_of(buffer: object) -> Any:
    """The module NumPy if the buffer is one of its arrays, else None. It is never imported for that: whoever has such an
    array has imported it."""
    numpy = sys.modules.get("numpy")
    return numpy if isinstance(buffer, getattr(numpy, "ndarray", ())) else None


def new_bytes(like: object, *shape: int) -> Any:
    """New memory for bytes: a NumPy array of this shape where the caller lends one (`like`), else a bytearray."""
    numpy = _numpy_of(like)
    return numpy.empty(shape, numpy.uint8) if numpy else bytearray(prod(shape))


def _in_a_row(buffer: ReadableBuffer) -> memoryview:
    """A view of bytes without their shape, in the one format that Python reads. (It casts no view that has a shape and is
    empty.)"""
    view = memoryview(buffer)
    return view.cast("B") if view.nbytes else memoryview(b"")


def flat(buffer: ReadableBuffer) -> Any:
    """All bytes of a buffer in a row, without a copy: of a NumPy array an array, else a memoryview. While that is there
    nothing can resize or close the buffer, unless it is empty.

    >>> bytes(flat(memoryview(b"abcd").cast("B", (2, 2))))
    b'abcd'
    """
    numpy = _numpy_of(buffer)
    return numpy.asarray(buffer).reshape(-1) if numpy else _in_a_row(buffer)


def part(row: Any, first: int, *shape: int) -> Any:
    """The bytes of such a row that fill a shape, from a place on. Views of Python's own are left without the shape.

    >>> bytes(part(flat(b"abcdefgh"), 2, 3, 1))
    b'cde'
    """
    piece = row[first : first + prod(shape)]
    return piece.reshape(shape) if _numpy_of(piece) else piece
