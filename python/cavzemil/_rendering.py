"""Both renderers (rules 7.1 to 7.7)."""

from __future__ import annotations

from contextlib import AbstractContextManager
from typing import Any, NamedTuple

from . import _interface
from ._buffers import PHASES, ReadableBuffer, Run, WriteableBuffer, lent
from ._exchange import Exchange, exchange
from ._library import library
from .colours import separation_number
from .refusals import BrickLength, BrickPhase
from .windows import Window, window_numbers


class Rendered(NamedTuple):
    """A window that was rendered."""

    cells: Any
    """The buffer that has the cells, a colorant's number each: the one that was lent, or a new one."""
    tallies: tuple[int, ...]
    """How many cells were written in each colorant (rule 7.4)."""


class Request(NamedTuple):
    """What both renderers are asked, in the order in which C takes it."""

    screen: _interface.Screen
    separation: int
    window: _interface.Window

    @classmethod
    def of(cls, screen: _interface.Screen, separation: int, window: Window) -> Request:
        """The request of a caller."""
        return cls(screen, separation_number(separation), _interface.Window(*window_numbers(window)))

    def exchange(self, input: ReadableBuffer, out: Any, *others: Run) -> AbstractContextManager[Exchange]:
        """Lends the input and the output."""
        columns, rows = self.window.columns, self.window.rows
        return exchange("input", input, (rows, columns, 3), out, (rows, columns), *others)


def render(request: Request, input: ReadableBuffer, out: WriteableBuffer | None) -> Rendered:
    """Renders a window, phases worked out (rule 7.5)."""
    with request.exchange(input, out) as runs:
        answer = library.cavzemil_render(*request, *runs.read.arguments, *runs.written.arguments)
        runs.check(answer.refusal)
    return Rendered(runs.out, tuple(answer.tallies))


def render_brick(
    request: Request, input: ReadableBuffer, brick: ReadableBuffer, out: WriteableBuffer | None
) -> Rendered:
    """Renders a window, phases read from a brick buffer (rule 7.6)."""
    with lent("brick", brick, PHASES) as phases, request.exchange(input, out, phases) as runs:
        answer = library.cavzemil_render_brick(
            *request, *runs.read.arguments, *phases.arguments, *runs.written.arguments
        )
        places = request.screen.n
        runs.check(answer.refusal, BrickLength(places, phases.length) if phases.length < places else BrickPhase())
    return Rendered(runs.out, tuple(answer.tallies))
