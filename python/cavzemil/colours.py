"""Inks, colorants, separations and colours."""

from __future__ import annotations

from contextlib import suppress
from enum import IntEnum
from typing import NamedTuple

from ._numbers import unsigned


class _Named(IntEnum):
    """A number with a name, which it is shown by."""

    def __str__(self) -> str:
        """Its name."""
        return self.name.lower()

    def __format__(self, spec: str) -> str:
        """Its name, as a string is formatted; a format that strings do not have, as `d`, is its number's."""
        with suppress(ValueError):
            return format(str(self), spec)
        return format(int(self), spec)


class Separation(_Named):
    """How ink values become the shares of the eight colorants; C's numbers are the values (rule 14.3). `Separation.parse`
    reads a name.

    >>> print(Separation.KUEPPERS, int(Separation.KUEPPERS))
    kueppers 1
    """

    DEMICHEL = 0
    """Demichel's equations, of inks laid independently (rule 4.3)."""
    KUEPPERS = 1
    """Kueppers's dot-on-dot separation, of at most four colorants a patch (rule 4.4)."""

    @classmethod
    def parse(cls, name: str) -> Separation:
        """The separation of a name, as the counts program writes it (rule 10.4).

        >>> Separation.parse("demichel")
        <Separation.DEMICHEL: 0>
        >>> Separation.parse("Demichel")
        Traceback (most recent call last):
        ValueError: a separation is demichel or kueppers, not 'Demichel'
        """
        for separation in cls:
            if str(separation) == name:
                return separation
        raise ValueError(f"a separation is {' or '.join(map(str, cls))}, not {name!r}")


def separation_number(given: int) -> int:
    """The number of a separation, as the library takes it; it may be of none.

    >>> separation_number(Separation.KUEPPERS)
    1
    """
    try:
        return unsigned("the separation", given)
    except TypeError:
        due = "the separation must be a Separation or its number"
        raise TypeError(f"{due}, not {type(given).__name__} (Separation.parse reads names)") from None


class Colorant(_Named):
    """A colorant, which a rendered cell holds by its number (rule 4.2). `Colorant.of_set` answers those of a set.

    It is shown by its name, and by its number in a format of numbers.

    >>> Colorant(3)
    <Colorant.BLUE: 3>
    >>> print(f"{Colorant.BLUE} {Colorant.BLUE:d}")
    blue 3
    """

    CYAN = 0
    """Ink c."""
    MAGENTA = 1
    """Ink m."""
    YELLOW = 2
    """Ink y."""
    BLUE = 3
    """Inks c and m."""
    GREEN = 4
    """Inks c and y."""
    RED = 5
    """Inks m and y."""
    BLACK = 6
    """All three inks."""
    WHITE = 7
    """No ink; silver on a metallic press."""

    @classmethod
    def of_set(cls, set: int) -> list[Colorant]:
        """The colorants of a set, in their order, by its number, in which colorant j counts 2^j (rule 16.2).

        >>> print(*Colorant.of_set(1 + 8 + 128))
        cyan blue white
        """
        number = unsigned("the set", set, bits=8)
        return [colorant for colorant in cls if number >> colorant.value & 1]


class Inks(NamedTuple):
    """Ink values, each 0 to 255, which is full (rule 4.1). Three numbers in a row are taken for them everywhere.

    >>> Inks(c=51, y=204)
    Inks(c=51, m=0, y=204)
    """

    c: int = 0
    """Cyan."""
    m: int = 0
    """Magenta."""
    y: int = 0
    """Yellow."""


class Xyz(NamedTuple):
    """A colour: X, Y, Z, each 0 to 200 where it is a primary's (rule 9.2)."""

    x: float
    y: float
    z: float
