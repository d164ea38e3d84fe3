"""Plates: eight planes of one bit a cell, set where the plane's ink prints (rule 8.2)."""

from __future__ import annotations

from collections.abc import Iterator
from typing import Any

from ._buffers import BYTES, ReadableBuffer, WriteableBuffer, flat, lent, part
from ._exchange import exchange
from ._library import library
from ._numbers import all_unsigned
from .colours import Colorant
from .lengths import row_len
from .refusals import InputLength, check_sizes


def _size(columns: int, rows: int) -> tuple[int, int, int]:
    """Columns and rows, as the library takes them, and how many bytes a row of a plane has."""
    wide, high = all_unsigned(("columns", "rows"), (columns, rows))
    return wide, high, row_len(wide)


def pack(columns: int, rows: int, cells: ReadableBuffer, out: WriteableBuffer | None = None) -> Any:
    """Packs cells into eight planes, that of colorant 0 first (rules 8.1 to 8.5), and answers the buffer that has them.

    A set bit in a colorant's plane means that this ink prints at that pixel. A plane has `rows` rows, and a row as many
    bytes as `columns` bits need. The first pixel of a byte is its highest bit, and padding bits are 0.

    The planes are written to `out` or, where it is left out, to a new bytearray; of cells in a NumPy array, to a new
    array of 8 planes by rows by bytes. Refusals: 5 where columns or rows are above 65,536, 6 and 7 for the lengths, 9 for
    a cell above 7 (rules 11.9, 11.10, 11.11 and 11.13).

    >>> list(pack(3, 1, bytes([0, 7, 0])))
    [160, 0, 0, 0, 0, 0, 0, 64]
    """
    wide, high, row = _size(columns, rows)
    with exchange("cells", cells, (high, wide), out, (8, high, row)) as runs:
        runs.check(library.cavzemil_pack(wide, high, *runs.read.arguments, *runs.written.arguments))
    return runs.out


def unpack(columns: int, rows: int, planes: ReadableBuffer, out: WriteableBuffer | None = None) -> Any:
    """Unpacks eight planes, as `pack` lays them out, into cells: each pixel gets the number of the one plane in which its
    bit is set (rule 8.6). Answers the buffer that has them.

    The cells are written to `out` or, where it is left out, to a new bytearray; of planes in a NumPy array, to a new
    array of rows by columns. Refusals: 5 where columns or rows are above 65,536, 6 and 7 for the lengths, 9 for a pixel
    that is set in no plane or in several, or for padding that is set (rules 11.9, 11.10, 11.11 and 11.13).

    >>> unpack(1, 1, bytes([0, 0, 0, 128, 0, 0, 0, 0]))
    bytearray(b'\\x03')
    >>> unpack(1, 1, bytes([128, 128, 0, 0, 0, 0, 0, 0]))
    Traceback (most recent call last):
    cavzemil.refusals.Plates: a cell is above 7, a pixel is in no plane or in several, or padding is set (refusal 9)
    """
    wide, high, row = _size(columns, rows)
    with exchange("planes", planes, (8, high, row), out, (high, wide)) as runs:
        runs.check(library.cavzemil_unpack(wide, high, *runs.read.arguments, *runs.written.arguments))
    return runs.out


def planes(columns: int, rows: int, plates: ReadableBuffer) -> Iterator[tuple[Colorant, Any]]:
    """The eight planes of plates that `pack` laid out, each with its colorant (rule 8.1). Their bits are not judged.

    A plane is a memoryview or, of a NumPy array, an array of rows by bytes, and never a copy. The plates can't be resized
    while the iterator or a plane of it is there. Refused as `unpack` refuses them: as 5 where columns or rows are above
    65,536, and then as 6 for their length.

    >>> for colorant, plane in planes(2, 1, pack(2, 1, bytes([0, 7]))):
    ...     if any(plane):
    ...         print(colorant, bytes(plane))
    cyan b'\\x80'
    white b'@'
    """
    wide, high, row = _size(columns, rows)
    with lent("plates", plates, BYTES, (8, high, row)) as read:
        refusal = library.cavzemil_unpack(wide, high, *read.arguments, None, 0)
        check_sizes(refusal, InputLength(8 * high * row, read.length))
        whole = flat(plates)
    return ((colorant, part(whole, colorant * high * row, high, row)) for colorant in Colorant)
