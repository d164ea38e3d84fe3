"""Line screens for a press that lays eight opaque inks side by side.

This package calls the functions of Cavzemil's shared library. What each of them answers is fixed by the rules of the
repository's docs/RULES.md, which the library is proved to follow; they are cited here by number, as `rule 3.2`.

A `Screen` is made of five numbers. It knows the phase of every place of the sheet, tiles the sheet with a `Brick`, and
renders ink values to cells, one colorant's number a byte:

>>> from cavzemil import Screen, Separation, Window
>>> screen = Screen(4, 7, 105, 2, 0)
>>> cells, tallies = screen.render(Separation.DEMICHEL, Window(0, 0, 105, 1), bytes([128, 128, 0]) * 105)
>>> tallies
(26, 26, 0, 27, 0, 0, 0, 26)

`Window.bands` and `bands` cut a picture into bands of rows, to be rendered one after the other, and `Screen.moved` serves
sheets that are larger than 65,536 either way. `pack` turns cells into plates, eight planes of one bit a cell, and `planes`
goes through them by colorant. `Screen.predict` says what colour a patch will have, by the colours of eight inks, and
`Screen.predict_cellular` by those of all sets of them. `charge` says what the ink of a job costs, by the tallies of its
windows.

**Errors.** A call that can't be served raises a `Refusal`, and then lent memory stays as it was (rule 11.3). A number that
C's type does not hold, as -1, never gets as far as that: it raises a plain ValueError.

**Memory.** Whatever has Python's buffer protocol is lent as it is and never copied: bytes, bytearray, memoryview, array,
mmap, NumPy arrays. Its total length counts; where it has as many dimensions as the picture, so do the sizes of them: rows,
columns, 3 of an input; rows, columns of cells; 8, rows, bytes of plates. Before the call it is tested for these sizes, for
what it holds, for gaps, for being writable where it is written and for overlaps; a TypeError or ValueError says what is
wrong, and nothing was written then. (Two mappings of one file that differ in their addresses are not seen to overlap.)
What is written goes to `out`, or to new memory where that is left out: a NumPy array where the input is one, else a
bytearray.

**Threads.** Every call is a function of what it is handed, without shared state, and Python's lock is released while the
library runs. So threads render at the same time, each to memory of its own. What is lent must not be changed meanwhile.

**The library** is loaded when the package is imported: the file that CAVZEMIL_LIBRARY names in the environment, else the one
that the package's own repository has built, else the installed one.
"""

from . import refusals
from ._library import RULES, rules
from ._rendering import Rendered
from .bill import charge
from .colours import Colorant, Inks, Separation, Xyz
from .lengths import cells_len, input_len, plane_len, planes_len
from .plates import pack, planes, unpack
from .refusals import Refusal
from .screens import Brick, Record, Screen
from .slopes import Slope
from .windows import Window, bands

__version__ = "0.2.0"

__all__ = [
    "RULES",
    "Brick",
    "Colorant",
    "Inks",
    "Record",
    "Refusal",
    "Rendered",
    "Screen",
    "Separation",
    "Slope",
    "Window",
    "Xyz",
    "bands",
    "cells_len",
    "charge",
    "input_len",
    "pack",
    "plane_len",
    "planes",
    "planes_len",
    "refusals",
    "rules",
    "unpack",
]
