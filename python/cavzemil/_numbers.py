"""Numbers for the library. ctypes would cut off what a number has too much, so that they are judged before they go there."""

from __future__ import annotations

from collections.abc import Iterable
from operator import index
from typing import SupportsIndex


def unsigned(name: str, value: SupportsIndex, bits: int = 32) -> int:
    """The value as an unsigned whole number of so many bits; NumPy's whole numbers are taken too.

    >>> unsigned("x", 65_536)
    65536
    >>> unsigned("x", -1)
    Traceback (most recent call last):
    ValueError: x is -1, and must be 0 to 4294967295
    >>> unsigned("x", 0.5)
    Traceback (most recent call last):
    TypeError: x must be a whole number, not float
    """
    try:
        number = int(index(value))  # before Python 3.10, True is its own index
    except TypeError:
        raise TypeError(f"{name} must be a whole number, not {type(value).__name__}") from None
    if not 0 <= number < 1 << bits:
        raise ValueError(f"{name} is {number}, and must be 0 to {(1 << bits) - 1}")
    return number


def all_unsigned(names: Iterable[str], values: Iterable[SupportsIndex], bits: int = 32) -> list[int]:
    """Values in a row, each with its name.

    >>> all_unsigned("xy", (255, 0), bits=8)
    [255, 0]
    """
    return [unsigned(name, value, bits) for name, value in zip(names, values)]


def unsigned_in(name: str, names: Iterable[str], given: Iterable[SupportsIndex], bits: int = 32) -> list[int]:
    """The values that a sequence of the caller's holds, as many as there are names.

    >>> unsigned_in("inks", "cmy", (255, 0, 0), bits=8)
    [255, 0, 0]
    >>> unsigned_in("inks", "cmy", (255, 0), bits=8)
    Traceback (most recent call last):
    ValueError: inks must be 3 numbers (c, m, y), not 2
    >>> unsigned_in("inks", "cmy", 255, bits=8)
    Traceback (most recent call last):
    TypeError: inks must be 3 numbers (c, m, y), not int
    """
    names = list(names)
    due = f"{name} must be {len(names)} numbers ({', '.join(names)})"
    try:
        values = list(given)
    except TypeError:
        raise TypeError(f"{due}, not {type(given).__name__}") from None
    if len(values) != len(names):
        raise ValueError(f"{due}, not {len(values)}")
    return all_unsigned(names, values, bits)
