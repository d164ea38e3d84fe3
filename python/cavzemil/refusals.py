"""Refusals (rules 11.1 to 11.19), as exceptions: a class for each thing that can be wrong.

A call that can't be served raises the refusal of the lowest number that applies (rule 11.2), but 14 before 11 (rule 16.8),
and lent memory stays as it was. Each is a `Refusal`, which is a `ValueError`:

>>> from cavzemil import Refusal, Screen, refusals
>>> try:
...     Screen(4, 8, 70, 1, 0)
... except Refusal as refusal:
...     print(refusal.number, refusal)
1 the slope a/b needs 1 <= a < b <= 64 and no common divisor above 1 (refusal 1)
>>> Screen(4, 7, 70, 1, 0).phase_at(65_536, 0)
Traceback (most recent call last):
cavzemil.refusals.OffSheet: columns or rows beyond the sheet's 65,536 were asked for (refusal 5)
"""

from __future__ import annotations

from typing import ClassVar

from .colours import Colorant


class Refusal(ValueError):
    """Why a call can't be served: its `number` and its plain `sentence`, which its message begins with. `cavzemil.refusals`
    has a class for each thing that can be wrong; this one is for catching them all, and none is made of it alone."""

    number: ClassVar[int]
    """The number that the rules have for it."""
    sentence: ClassVar[str]
    """What is wrong, in plain words."""

    def __init__(self, *details: object) -> None:
        """A refusal, of a class that has a number."""
        if not hasattr(self, "number"):
            raise TypeError(f"{type(self).__name__} is no refusal by itself; cavzemil.refusals has a class for each")
        super().__init__(*details)

    def _more(self) -> str:
        """What there is to say beyond the sentence, for instance which length was expected."""
        return ""

    def __str__(self) -> str:
        """Says what is wrong, with its number."""
        more = self._more()
        return f"{self.sentence}{': ' if more else ''}{more} (refusal {self.number})"


class Slope(Refusal):
    """1: the slope isn't admitted (rule 1.2)."""

    number = 1
    sentence = "the slope a/b needs 1 <= a < b <= 64 and no common divisor above 1"


class CellCount(Refusal):
    """2: the cell count isn't admitted (rule 1.3)."""

    number = 2
    sentence = "the cell count N must be 1 to 4,096"


class Subscreens(Refusal):
    """3: the number of subscreens isn't admitted (rule 1.4)."""

    number = 3
    sentence = "the number of subscreens K must be 1 to 16 and not above N"


class Offset(Refusal):
    """4: the offset isn't admitted (rule 1.5)."""

    number = 4
    sentence = "the offset g must be below N"


class OffSheet(Refusal):
    """5: a window, a lone place or a plate reaches beyond the sheet (rule 11.9)."""

    number = 5
    sentence = "columns or rows beyond the sheet's 65,536 were asked for"


class _Length(Refusal):
    """A refusal of a length, in elements: the one that the call needs is `expected`, and what it was lent is `found`."""

    def __init__(self, expected: int, found: int) -> None:
        """The refusal of both lengths."""
        super().__init__(expected, found)
        self.expected, self.found = expected, found

    def _more(self) -> str:
        """Both lengths."""
        return f"{self.expected} expected, {self.found} found"


class InputLength(_Length):
    """6: the run that is read hasn't the length that the call needs (rule 11.10).

    >>> print(InputLength(3, 4))
    the input has another length than the call needs: 3 expected, 4 found (refusal 6)
    """

    number = 6
    sentence = "the input has another length than the call needs"


class TalliesLength(Refusal):
    """6 of a job: `found` tallies, which are no multiple of 8 (rule 15.1). There is no `expected`: many lengths would do.

    >>> print(TalliesLength(7))
    the input has another length than the call needs: a multiple of 8 expected, 7 found (refusal 6)
    """

    number = 6
    sentence = InputLength.sentence

    def __init__(self, found: int) -> None:
        """The refusal of so many tallies."""
        super().__init__(found)
        self.found = found

    def _more(self) -> str:
        """How many there are."""
        return f"a multiple of 8 expected, {self.found} found"


class OutputLength(_Length):
    """7: the run that is written hasn't the length that the call needs (rule 11.11)."""

    number = 7
    sentence = "the output has another length than the call needs"


class BrickLength(_Length):
    """8: the brick buffer has fewer than N places (rule 11.12)."""

    number = 8
    sentence = "the brick buffer has fewer than N places or holds a wrong phase"


class BrickPhase(Refusal):
    """8 of a renderer: one of the brick buffer's first N phases is wrong (rule 11.12)."""

    number = 8
    sentence = BrickLength.sentence


class Plates(Refusal):
    """9: a cell above 7, a pixel in no plane or in several, or padding that is set (rule 11.13)."""

    number = 9
    sentence = "a cell is above 7, a pixel is in no plane or in several, or padding is set"


class Line(Refusal):
    """10: a line of the counts program is not of its form (rule 11.14). No call meets it."""

    number = 10
    sentence = "a line of the counts program is not of its form"


class Primary(Refusal):
    """11: a value of a colorant's primary isn't 0 to 200; `colorant` is the first such (rule 9.5).

    >>> print(Primary(Colorant.MAGENTA))
    a value of a primary is not 0 to 200: magenta (refusal 11)
    """

    number = 11
    sentence = "a value of a primary is not 0 to 200"

    def __init__(self, colorant: Colorant) -> None:
        """The refusal of a colorant."""
        super().__init__(colorant)
        self.colorant = colorant

    def _more(self) -> str:
        """The colorant's name."""
        return str(self.colorant)


class PrimarySet(Refusal):
    """11 of a cellular prediction: `set` is the lowest that has such a value, by its number, 1 to 255 (rule 16.8).

    >>> print(PrimarySet(65))
    a value of a primary is not 0 to 200: set 65 (cyan, black) (refusal 11)
    """

    number = 11
    sentence = Primary.sentence

    def __init__(self, set: int) -> None:
        """The refusal of a set."""
        super().__init__(set)
        self.set = set

    def _more(self) -> str:
        """The set's number and its colorants."""
        return f"set {self.set} ({', '.join(map(str, Colorant.of_set(self.set)))})"


class Price(Refusal):
    """12: a price isn't admitted (rule 15.2)."""

    number = 12
    sentence = "a price is above 1,000,000 cents for a million cells"


class Job(Refusal):
    """13: the windows of a job aren't admitted (rule 15.3)."""

    number = 13
    sentence = "a job needs 1 to 1,000 windows, each of at most 4,294,967,296 cells"


class PrimariesLength(_Length):
    """14: the primaries of a cellular prediction aren't 765 values (rule 16.2)."""

    number = 14
    sentence = "a cellular prediction needs 765 values, X, Y, Z of each of 255 sets"


class Stored(Refusal):
    """15: the columns, rows and shift of a record aren't those of its a, b and N (rule 17.1)."""

    number = 15
    sentence = "the stored columns, rows and shift are not those of a, b and N"


class Separation(Refusal):
    """100: there is no such separation (rule 14.3)."""

    number = 100
    sentence = "the separation is neither 0 (Demichel) nor 1 (Kueppers)"


# those that say no more than their sentence, by number
_PLAIN: dict[int, type[Refusal]] = {
    kind.number: kind
    for kind in (Slope, CellCount, Subscreens, Offset, OffSheet, BrickPhase, Plates, Price, Job, Stored, Separation)
}


def check(number: int, *told: Refusal) -> None:
    """Raises the refusal of a number that the library answered, if it is not 0: one of those that say more, or a plain one.

    >>> check(0, InputLength(3, 4))
    >>> check(6, InputLength(3, 4))
    Traceback (most recent call last):
    cavzemil.refusals.InputLength: the input has another length than the call needs: 3 expected, 4 found (refusal 6)
    """
    if number == 0:
        return
    for refusal in told:
        if refusal.number == number:
            raise refusal
    if number not in _PLAIN:
        raise RuntimeError(f"the library answered {number}, which is no refusal of this call")
    raise _PLAIN[number]()


def check_sizes(number: int, *told: Refusal) -> None:
    """Raises the refusal of a call that was lent no memory to write, unless it is for that memory.

    It is for that memory as 7, which comes after the refusals of all other sizes. So the library can be asked for its
    judgement of sizes before there is memory.

    >>> check_sizes(7)
    >>> check_sizes(5)
    Traceback (most recent call last):
    cavzemil.refusals.OffSheet: columns or rows beyond the sheet's 65,536 were asked for (refusal 5)
    """
    if number != OutputLength.number:
        check(number, *told)
