"""Windows of the sheet, and pictures cut into bands of rows."""

from __future__ import annotations

from collections.abc import Iterator
from typing import Any, NamedTuple

from . import _interface
from ._buffers import BYTES, ReadableBuffer, flat, lent, part
from ._library import library
from ._numbers import unsigned, unsigned_in
from .refusals import InputLength, check_sizes


class Window(NamedTuple):
    """A window of the sheet (rule 7.1): its corner, and its columns and rows, which may be 0.

    The sheet has 65,536 columns, from the left, and as many rows, from the top (rule 2.1).

    >>> Window(columns=200, rows=100)
    Window(x=0, y=0, columns=200, rows=100)
    """

    x: int = 0
    """The first column."""
    y: int = 0
    """The first row."""
    columns: int = 0
    """How many columns."""
    rows: int = 0
    """How many rows."""

    def bands(self, rows_a_band: int) -> Iterator[Window]:
        """The windows of at most so many rows that this one is cut into, from the top. A band has at least a row, so that 0
        counts as 1; a window without rows has no bands.

        Each band is a window of the same sheet. So the cells and tallies of its bands are those of the window, and only a
        band's ink values have to be in memory.

        >>> for band in Window(0, 0, 200, 100).bands(48):
        ...     print(band)
        Window(x=0, y=0, columns=200, rows=48)
        Window(x=0, y=48, columns=200, rows=48)
        Window(x=0, y=96, columns=200, rows=4)
        """
        x, y, columns, rows = window_numbers(self)
        step = max(1, unsigned("rows_a_band", rows_a_band))
        return (Window(x, y + above, columns, min(step, rows - above)) for above in range(0, rows, step))


def window_numbers(window: Window) -> list[int]:
    """The numbers of a window, as the library takes them.

    >>> window_numbers((3, 5, 11, -4))
    Traceback (most recent call last):
    ValueError: rows is -4, and must be 0 to 4294967295
    """
    return unsigned_in("the window", Window._fields, window)


# The library judges a window only together with a screen; this one is always admitted.
_SCREEN = library.cavzemil_make_screen(1, 2, 1, 1, 0).screen


def bands(window: Window, rows_a_band: int, input: ReadableBuffer) -> Iterator[tuple[Window, Any]]:
    """The bands of a picture that is in memory, each with its part of the input: see `Window.bands`.

    A part is a memoryview or, of a NumPy array, an array of rows by columns by 3, and never a copy. The input can't be
    resized while the iterator or a part of it is there. Refused as `Screen.render` refuses the whole picture: as 5 where
    the window reaches beyond the sheet, and then as 6 for the input's length.

    >>> for band, part in bands(Window(0, 0, 2, 3), 2, bytes(range(18))):
    ...     print(band.y, bytes(part[:3]), len(part))
    0 b'\\x00\\x01\\x02' 12
    2 b'\\x0c\\r\\x0e' 6
    """
    picture = Window(*window_numbers(window))
    with lent("input", input, BYTES, (picture.rows, picture.columns, 3)) as read:
        answer = library.cavzemil_render(_SCREEN, 0, _interface.Window(*picture), *read.arguments, None, 0)
        check_sizes(answer.refusal, InputLength(3 * picture.columns * picture.rows, read.length))
        whole = flat(input)
    return (
        (band, part(whole, 3 * band.columns * (band.y - picture.y), band.rows, band.columns, 3))
        for band in picture.bands(rows_a_band)
    )
