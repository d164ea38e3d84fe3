"""Calls that read a run of bytes and write another: renderers, and plates packed and unpacked."""

from __future__ import annotations

from collections.abc import Iterator
from contextlib import contextmanager
from math import prod
from typing import Any, NamedTuple

from ._buffers import BYTES, ReadableBuffer, Run, apart, lent, new_bytes
from .refusals import InputLength, OutputLength, Refusal, check


class Exchange(NamedTuple):
    """What is lent to such a call: the run that is read, the run that is written and the buffer which has it."""

    read: Run
    written: Run
    out: Any
    expected: int
    """The length that the run which is read must have."""
    room: int
    """The length that the run which is written must have."""

    def check(self, refusal: int, *told: Refusal) -> None:
        """Raises the refusal that the library answered, if it is not 0."""
        found = InputLength(self.expected, self.read.length), OutputLength(self.room, self.written.length)
        check(refusal, *found, *told)


@contextmanager
def exchange(
    name: str, given: ReadableBuffer, shape: tuple[int, ...], out: Any, out_shape: tuple[int, ...], *others: Run
) -> Iterator[Exchange]:
    """Lends a buffer of a shape to be read and one to be written: `out` or, where that is None, new memory of its shape.

    New memory is made only where what is given has the length that is expected. Otherwise the library refuses the call
    whatever it may write to, and nothing large is made for that.
    """
    expected, room = prod(shape), prod(out_shape)
    with lent(name, given, BYTES, shape) as read:
        if out is None:
            out = new_bytes(given, *out_shape) if read.length == expected else bytearray()
        with lent("out", out, BYTES, out_shape, written=True) as written:
            apart(written, read, *others)
            yield Exchange(read, written, out, expected, room)
