"""Screens: made of five numbers, with one of them replaced, or read from a record; and what a screen can be asked."""

from __future__ import annotations

from array import array
from collections.abc import Iterable, Sequence
from dataclasses import dataclass, field
from typing import NamedTuple

from . import _interface, _rendering
from ._buffers import PHASES, VALUES, Phases, ReadableBuffer, WriteableBuffer, lent, values
from ._library import library
from ._numbers import all_unsigned, unsigned, unsigned_in
from ._rendering import Rendered, Request
from .colours import Colorant, Inks, Xyz, separation_number
from .refusals import BrickLength, InputLength, PrimariesLength, Primary, PrimarySet, check
from .slopes import Slope
from .windows import Window

_FIVE = "a", "b", "n", "k", "g"


class Brick(NamedTuple):
    """A brick, which tiles the sheet: (x + shift, y + rows) has the phase of (x, y), and a row repeats after `columns`
    (rules 3.1 to 3.4)."""

    columns: int
    rows: int
    shift: int


class Record(NamedTuple):
    """The record of a screen (rule 17.1), to be filed; it may hold any numbers. A `Screen` is one that is admitted."""

    a: int
    b: int
    n: int
    k: int
    g: int
    columns: int
    rows: int
    shift: int


def _place(x: int, y: int) -> list[int]:
    """A lone place, as the library takes it."""
    return all_unsigned(("x", "y"), (x, y))


def _patch(separation: int, inks: Sequence[int]) -> list[int]:
    """A separation and ink values, as the library takes them."""
    return [separation_number(separation), *unsigned_in("inks", Inks._fields, inks, bits=8)]


@dataclass(frozen=True)
class Screen:
    """A screen: the slope a/b, the cell count N, the number of subscreens K, the offset g, and the columns, rows and shift
    of its brick (rule 1.1).

    It is made of the first five (rule 17.2). Refusals: 1 for the slope, 2 for N, 3 for K, 4 for g (rules 11.5 to 11.8).
    Every screen is admitted, so that 1 to 4 and 15 refuse none of its calls; it never changes, and a replacement answers
    another one. As it is made of plain numbers, it can be compared, copied, pickled and a key of a dictionary.

    >>> screen = Screen(4, 7, 105, 2, 40)
    >>> screen
    Screen(a=4, b=7, n=105, k=2, g=40)
    >>> screen.columns, screen.rows, screen.shift
    (105, 1, 77)
    >>> Screen(4, 7, 5, 6, 0)
    Traceback (most recent call last):
    cavzemil.refusals.Subscreens: the number of subscreens K must be 1 to 16 and not above N (refusal 3)
    """

    a: int
    """The slope's rise."""
    b: int
    """The slope's run."""
    n: int
    """The cell count N."""
    k: int
    """The number of subscreens K."""
    g: int
    """The offset."""
    columns: int = field(init=False, repr=False)
    """The brick's columns L."""
    rows: int = field(init=False, repr=False)
    """The brick's rows H."""
    shift: int = field(init=False, repr=False)
    """The brick's shift S."""

    def __post_init__(self) -> None:
        """Makes the screen of its five numbers."""
        five = all_unsigned(_FIVE, (self.a, self.b, self.n, self.k, self.g))
        made = library.cavzemil_make_screen(*five)
        check(made.refusal)
        self._store(made.screen)

    def _store(self, admitted: _interface.Screen) -> None:
        """Takes all eight numbers over from a screen that the library admitted."""
        for name in Record._fields:
            object.__setattr__(self, name, getattr(admitted, name))

    @classmethod
    def _of(cls, refusal: int, screen: _interface.Screen) -> Screen:
        """The screen that the library handed back, if it did not refuse the call."""
        check(refusal)
        answer = cls.__new__(cls)
        answer._store(screen)
        return answer

    @classmethod
    def from_record(cls, record: Record) -> Screen:
        """The screen that a record was filed of. Refused as 1 to 4 by its first five numbers, and then as 15 where the
        columns, rows and shift aren't theirs (rule 17.1).

        >>> filed = Screen(4, 7, 105, 2, 40).record
        >>> Screen.from_record(filed)
        Screen(a=4, b=7, n=105, k=2, g=40)
        >>> Screen.from_record(filed._replace(shift=78))
        Traceback (most recent call last):
        cavzemil.refusals.Stored: the stored columns, rows and shift are not those of a, b and N (refusal 15)
        """
        screen = _interface.Screen(*unsigned_in("the record", Record._fields, record))
        return cls._of(library.cavzemil_brick_of(screen).refusal, screen)

    @classmethod
    def from_slope(cls, slope: Slope, n: int, k: int, g: int) -> Screen:
        """Makes the screen of a slope, N, K and g. Refusals: 2 for N, 3 for K, 4 for g (rules 11.6 to 11.8).

        >>> Screen.from_slope(Slope.parse("4/7"), 105, 2, 40)
        Screen(a=4, b=7, n=105, k=2, g=40)
        """
        return cls(slope.a, slope.b, n, k, g)

    @property
    def slope(self) -> Slope:
        """The slope of its lines.

        >>> print(Screen(4, 7, 70, 1, 0).slope)
        4/7
        """
        return Slope(self.a, self.b)

    @property
    def record(self) -> Record:
        """The record of the screen, to be filed.

        >>> Screen(4, 7, 70, 1, 0).record
        Record(a=4, b=7, n=70, k=1, g=0, columns=35, rows=2, shift=14)
        """
        return Record(self.a, self.b, self.n, self.k, self.g, self.columns, self.rows, self.shift)

    @property
    def brick(self) -> Brick:
        """The brick's sizes; its columns times its rows are N (rules 3.1 to 3.3 and 3.5).

        >>> Screen(4, 7, 70, 1, 0).brick
        Brick(columns=35, rows=2, shift=14)
        """
        return Brick(self.columns, self.rows, self.shift)

    @property
    def _lent(self) -> _interface.Screen:
        """The screen as the library takes it."""
        return _interface.Screen(*self.record)

    def with_offset(self, g: int) -> Screen:
        """The screen with another offset g, all else as it is (rules 17.3 and 17.5). Refused as 4 from N on.

        >>> Screen(4, 7, 70, 2, 40).with_offset(69)
        Screen(a=4, b=7, n=70, k=2, g=69)
        """
        made = library.cavzemil_replace_offset(self._lent, unsigned("g", g))
        return self._of(made.refusal, made.screen)

    def with_subscreens(self, k: int) -> Screen:
        """The screen with another number of subscreens K, all else as it is (rules 17.3 and 17.5). Refused as 3 where K
        isn't 1 to 16 or is above N.

        >>> Screen(4, 7, 70, 2, 40).with_subscreens(16)
        Screen(a=4, b=7, n=70, k=16, g=40)
        """
        made = library.cavzemil_replace_subscreens(self._lent, unsigned("k", k))
        return self._of(made.refusal, made.screen)

    def with_cells(self, n: int) -> Screen:
        """The screen with another cell count N, the columns, rows and shift that follow from it, and the slope, K and g as
        they are (rules 17.3 and 17.5). Refused as 2 where N isn't 1 to 4,096, as 3 where K is above it, and as 4 where g
        isn't below it.

        >>> Screen(4, 7, 105, 2, 40).with_cells(70).brick
        Brick(columns=35, rows=2, shift=14)
        """
        made = library.cavzemil_replace_cells(self._lent, unsigned("n", n))
        return self._of(made.refusal, made.screen)

    def moved(self, x: int, y: int) -> Screen:
        """The screen as it is seen from column x and row y, which may be any 64-bit numbers: its phase at (u, v) is that of
        this screen at (x + u, y + v) (rules 19.1 to 19.4). Never refused.

        So a sheet may be larger than 65,536 either way, a part at a time, each rendered from (0, 0) on the screen seen
        from its corner.

        >>> Screen(4, 7, 105, 2, 0).moved(100_000, 0)
        Screen(a=4, b=7, n=105, k=2, g=50)
        """
        corner = all_unsigned(("x", "y"), (x, y), bits=64)
        made = library.cavzemil_moved(self._lent, *corner)
        return self._of(made.refusal, made.screen)

    def phase_at(self, x: int, y: int) -> int:
        """The phase of column x and row y, 0 to N - 1 (rule 2.2). Refused as 5 beyond the sheet.

        >>> Screen(4, 7, 105, 1, 0).phase_at(3, 2)
        26
        """
        answer = library.cavzemil_phase_at(self._lent, *_place(x, y))
        check(answer.refusal)
        return answer.phase

    def fill_brick(self, out: WriteableBuffer) -> None:
        """Fills the first N places of a brick buffer, of unsigned 16-bit numbers: place v * columns + u gets the phase of
        (u, v). Later places stay as they are (rules 3.6 and 3.7). Refused as 8 below N places.

        >>> from array import array
        >>> brick = array("H", [99] * 7)
        >>> Screen(2, 3, 6, 1, 1).fill_brick(brick)
        >>> brick
        array('H', [5, 1, 3, 2, 4, 0, 99])
        """
        with lent("out", out, PHASES, written=True) as run:
            refusal = library.cavzemil_fill_brick(self._lent, *run.arguments)
            check(refusal, BrickLength(self.n, run.length))

    def brick_phases(self) -> Phases:
        """The phases of the brick in a new array, row by row, as `render_brick` takes them (rule 3.6).

        >>> Screen(2, 3, 6, 1, 1).brick_phases()
        array('H', [5, 1, 3, 2, 4, 0])
        """
        brick = array("H", bytes(2 * self.n))
        self.fill_brick(brick)
        return brick

    def counts(self, separation: int, inks: Sequence[int]) -> tuple[int, ...]:
        """How many of the N cells of a brick each colorant gets; the counts add up to N (rules 5.1 to 5.4).

        >>> from cavzemil import Inks, Separation
        >>> Screen(4, 7, 70, 1, 0).counts(Separation.KUEPPERS, Inks(51, 102, 204))
        (0, 0, 28, 0, 0, 14, 14, 14)
        """
        answer = library.cavzemil_counts_of(self._lent, *_patch(separation, inks))
        check(answer.refusal)
        return tuple(answer.of)

    def cell_at(self, separation: int, x: int, y: int, inks: Sequence[int]) -> Colorant:
        """The colorant of column x and row y where the inks have these values (rules 6.3 and 7.8). Refused as 5 beyond the
        sheet.

        >>> from cavzemil import Separation
        >>> Screen(1, 2, 1, 1, 0).cell_at(Separation.KUEPPERS, 0, 0, (128, 0, 0))
        <Colorant.CYAN: 0>
        """
        number, *values = _patch(separation, inks)
        answer = library.cavzemil_cell_at(self._lent, number, *_place(x, y), *values)
        check(answer.refusal)
        return Colorant(answer.colorant)

    def render(
        self, separation: int, window: Window, input: ReadableBuffer, out: WriteableBuffer | None = None
    ) -> Rendered:
        """Renders a window, phases worked out, and answers its cells and how many of them have each colorant.

        The input holds c, m, y for each pixel, row by row; the cells hold a colorant's number for each (rules 7.1 to 7.5).
        They are written to `out` or, where it is left out, to a new bytearray; of input in a NumPy array, to a new array
        of rows by columns. Refusals: 5 where the window reaches beyond the sheet, 6 and 7 for the lengths.

        Take `render` unless the phases have to come from a brick: it answers the same as `render_brick`, is as fast or
        faster, and needs no buffer.

        >>> from cavzemil import Separation, Window
        >>> screen = Screen(4, 7, 105, 2, 0)
        >>> cells, tallies = screen.render(Separation.DEMICHEL, Window(0, 0, 2, 1), bytes([255, 255, 0, 0, 0, 0]))
        >>> cells, tallies
        (bytearray(b'\\x03\\x07'), (0, 0, 0, 1, 0, 0, 0, 1))
        >>> screen.render(Separation.DEMICHEL, Window(65_535, 0, 2, 1), bytes(6), out=cells)
        Traceback (most recent call last):
        cavzemil.refusals.OffSheet: columns or rows beyond the sheet's 65,536 were asked for (refusal 5)
        """
        return _rendering.render(Request.of(self._lent, separation, window), input, out)

    def render_brick(
        self,
        separation: int,
        window: Window,
        input: ReadableBuffer,
        brick: ReadableBuffer,
        out: WriteableBuffer | None = None,
    ) -> Rendered:
        """Renders a window like `render`, phases read from a brick buffer that `fill_brick` filled (rules 3.9 and 7.6).
        Refused also as 8, where the buffer is no true brick of the screen (rule 3.8).

        Take `render` unless the phases have to come from a brick: it answers the same, is as fast or faster, and needs no
        buffer.

        >>> from cavzemil import Separation, Window
        >>> screen, window = Screen(4, 7, 70, 3, 5), Window(11, 3, 4, 2)
        >>> input = bytes([51, 102, 204]) * 8
        >>> read = screen.render_brick(Separation.KUEPPERS, window, input, screen.brick_phases())
        >>> read == screen.render(Separation.KUEPPERS, window, input)
        True
        """
        return _rendering.render_brick(Request.of(self._lent, separation, window), input, brick, out)

    def predict(
        self,
        separation: int,
        inks: Sequence[int],
        primaries: ReadableBuffer | Iterable[float] | Iterable[Sequence[float]],
    ) -> Xyz:
        """The colour of a patch: the mean of the eight primaries, weighed by the counts (rules 9.1 to 9.5).

        The primaries are 24 values, X, Y, Z of each colorant in turn: a buffer of doubles, or a sequence of numbers or of
        `Xyz`. Refused as 6 for other than 24 values, and as 11, which carries its colorant, where one isn't 0 to 200.

        >>> from cavzemil import Inks, Separation, Xyz
        >>> primaries = [Xyz(50, 60, 70)] * 8
        >>> primaries[1] = Xyz(30, 20, 40)
        >>> Screen(4, 7, 70, 1, 0).predict(Separation.DEMICHEL, Inks(0, 255, 0), primaries)
        Xyz(x=30.0, y=20.0, z=40.0)
        """
        with lent("primaries", values(primaries), VALUES) as run:
            answer = library.cavzemil_predict(self._lent, *_patch(separation, inks), *run.arguments)
            check(answer.refusal, InputLength(24, run.length), Primary(Colorant(answer.colorant)))
        return Xyz(answer.x, answer.y, answer.z)

    def predict_cellular(
        self,
        separation: int,
        inks: Sequence[int],
        primaries: ReadableBuffer | Iterable[float] | Iterable[Sequence[float]],
    ) -> Xyz:
        """The colour of a patch from the colours of sets of colorants: the mean of eight sets, each with one colorant more
        than the set before, weighed by the counts (rules 16.1 to 16.8).

        The primaries are 765 values: X, Y, Z of each of 255 sets, by the sets' numbers from 1 on, as a buffer or sequence
        like those of `predict`. A set's number counts 2^j for each of its colorants j; `Colorant.of_set` goes the
        other way. Its colour is that of a patch whose cells its colorants share evenly.

        Refused as 14 for other than 765 values, and then as 11, which carries the lowest set that has a value which isn't
        0 to 200, whether this patch needs it or not.

        >>> from cavzemil import Inks, Separation, Xyz
        >>> primaries = [Xyz(50, 60, 70)] * 255
        >>> primaries[8 - 1] = Xyz(8, 4, 26)  # blue alone
        >>> primaries[1 + 2 + 8 + 128 - 1] = Xyz(30, 28, 46)  # cyan, magenta, blue and white
        >>> screen = Screen(4, 7, 105, 2, 0)
        >>> colour = screen.predict_cellular(Separation.DEMICHEL, Inks(128, 128, 0), primaries)
        >>> colour.y == (1 * 4 + 104 * 28) / 105
        True
        """
        with lent("primaries", values(primaries), VALUES) as run:
            answer = library.cavzemil_predict_cellular(self._lent, *_patch(separation, inks), *run.arguments)
            check(answer.refusal, PrimariesLength(765, run.length), PrimarySet(answer.set))
        return Xyz(answer.x, answer.y, answer.z)
