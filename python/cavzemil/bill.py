"""The ink bill: what a job costs (rules 15.1 to 15.6)."""

from __future__ import annotations

from collections.abc import Iterable, Sequence

from . import _buffers, _interface
from ._buffers import TALLIES, ReadableBuffer, lent
from ._library import library
from ._numbers import unsigned_in
from .colours import Colorant
from .refusals import TalliesLength, check


def charge(prices: Sequence[int], tallies: ReadableBuffer | Iterable[int] | Iterable[Sequence[int]]) -> int:
    """The charge of a job in whole cents (rules 15.1 to 15.4), from what a million cells of each colorant cost and from the
    tallies of its windows: a buffer of unsigned 64-bit numbers, eight for each window, or a sequence of windows' tallies.

    The cells of all windows are added up before they are priced, and the charge is rounded up once. So a job never costs
    more than its windows apart, and saves fewer cents than it has windows (rule 15.5). The tallies of a rendering may be
    handed on as they are (rule 15.6).

    Refusals: 6 where the tallies are no multiple of 8, 12 for a price above 1,000,000, 13 for no window, for more than
    1,000, and for one of more than 4,294,967,296 cells (rules 11.10, 11.16 and 11.17).

    >>> from cavzemil import Screen, Separation, Window
    >>> screen = Screen(4, 7, 105, 2, 0)
    >>> input = bytes([128, 128, 0]) * 105
    >>> windows = [screen.render(Separation.DEMICHEL, Window(0, y, 105, 1), input).tallies for y in (0, 1)]
    >>> prices = 10_000, 10_000, 8_000, 20_000, 20_000, 20_000, 6_000, 5_000
    >>> charge(prices, windows), charge(prices, windows[0]) + charge(prices, windows[1])
    (3, 4)
    >>> charge(prices, [])
    Traceback (most recent call last):
    cavzemil.refusals.Job: a job needs 1 to 1,000 windows, each of at most 4,294,967,296 cells (refusal 13)
    """
    cents = unsigned_in("prices", (f"the price of {colorant}" for colorant in Colorant), prices)
    with lent("tallies", _buffers.tallies(tallies), TALLIES) as run:
        answer = library.cavzemil_charge_of(_interface.Prices(tuple(cents)), *run.arguments)
        check(answer.refusal, TalliesLength(run.length))
    return answer.cents
