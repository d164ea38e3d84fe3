"""The slope of a screen's lines (rule 1.2)."""

from __future__ import annotations

import re
from dataclasses import dataclass

from ._library import library
from ._numbers import all_unsigned
from .refusals import check

_FORM = re.compile(r"([0-9]+)/([0-9]+)")


@dataclass(frozen=True)
class Slope:
    """A slope a/b that the library admitted, so that 1 refuses no screen of it. It is written as in `4/7`.

    >>> print(Slope(4, 7))
    4/7
    >>> Slope(4, 8)
    Traceback (most recent call last):
    cavzemil.refusals.Slope: the slope a/b needs 1 <= a < b <= 64 and no common divisor above 1 (refusal 1)
    """

    a: int
    """The rise."""
    b: int
    """The run."""

    def __post_init__(self) -> None:
        """Has the slope judged, and keeps its plain numbers: with a cell count of 1 all else of a screen is admitted."""
        a, b = all_unsigned(("a", "b"), (self.a, self.b))
        check(library.cavzemil_make_screen(a, b, 1, 1, 0).refusal)
        object.__setattr__(self, "a", a)
        object.__setattr__(self, "b", b)

    def __str__(self) -> str:
        """Its rise, a slash and its run."""
        return f"{self.a}/{self.b}"

    @classmethod
    def parse(cls, text: str) -> Slope:
        """The slope that a text says.

        >>> Slope.parse("4/7")
        Slope(a=4, b=7)
        >>> Slope.parse("4:7")
        Traceback (most recent call last):
        ValueError: a slope is written as two numbers a/b, as in 4/7, not as '4:7'
        """
        found = _FORM.fullmatch(text)
        if not found:
            raise ValueError(f"a slope is written as two numbers a/b, as in 4/7, not as {text!r}")
        return cls(int(found[1]), int(found[2]))
