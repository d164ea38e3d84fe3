"""How long runs of bytes are (rules 7.2, 7.3, 8.1 and 8.8)."""

from __future__ import annotations

from ._library import library
from ._numbers import all_unsigned
from .refusals import OffSheet


def _size(columns: int, rows: int) -> list[int]:
    """Columns and rows, refused as 5 above 65,536: the library is asked to pack nothing of that size."""
    size = all_unsigned(("columns", "rows"), (columns, rows))
    if library.cavzemil_pack(*size, None, 0, None, 0) == OffSheet.number:
        raise OffSheet
    return size


def cells_len(columns: int, rows: int) -> int:
    """How many cells so many columns and rows are, and so how many bytes a renderer writes (rule 7.3). Refused as 5 above
    65,536, as the other lengths are.

    >>> cells_len(65_536, 65_536)
    4294967296
    >>> cells_len(65_537, 0)
    Traceback (most recent call last):
    cavzemil.refusals.OffSheet: columns or rows beyond the sheet's 65,536 were asked for (refusal 5)
    """
    wide, high = _size(columns, rows)
    return wide * high


def input_len(columns: int, rows: int) -> int:
    """How many bytes of ink values a renderer reads for so many columns and rows: three a cell (rule 7.2).

    >>> input_len(105, 2)
    630
    """
    return 3 * cells_len(columns, rows)


def row_len(columns: int) -> int:
    """How many bytes a row of a plane has, of columns on the sheet or beyond."""
    return (columns + 7) // 8


def plane_len(columns: int, rows: int) -> int:
    """How many bytes one plane of so many columns and rows has: whole bytes a row (rule 8.1). That of one row is the length
    of a row.

    >>> plane_len(105, 2), plane_len(105, 1)
    (28, 14)
    """
    wide, high = _size(columns, rows)
    return row_len(wide) * high


def planes_len(columns: int, rows: int) -> int:
    """How many bytes all eight planes of so many columns and rows have (rule 8.8).

    >>> planes_len(105, 2)
    224
    """
    return 8 * plane_len(columns, rows)
