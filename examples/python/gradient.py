"""Screens a gradient of 200 by 100 and writes its eight plates to a folder, as PBM files. It goes through the picture in bands
of 16 rows, so that nothing but a band is in memory, and prints how many cells each colorant got.

    python3 examples/python/gradient.py FOLDER
"""

from __future__ import annotations

import sys
from collections.abc import Iterator
from contextlib import ExitStack
from pathlib import Path

from cavzemil import Colorant, Refusal, Screen, Separation, Window, pack, planes

PICTURE = Window(columns=200, rows=100)
BAND = 16


def inks(window: Window) -> Iterator[int]:
    """The ink values of a window's pixels: c grows to the right, m downwards, y to the left."""
    last_column, last_row = PICTURE.columns - 1, PICTURE.rows - 1
    for y in range(window.y, window.y + window.rows):
        for x in range(window.columns):
            yield from (x * 255 // last_column, y * 255 // last_row, (last_column - x) * 255 // last_column)


def screen_picture(folder: Path) -> list[int]:
    """Writes the plates, and answers the tallies of all bands together."""
    screen = Screen(4, 7, 105, 2, 0)
    tallies = [0] * 8
    with ExitStack() as opened:
        files = [opened.enter_context(open(folder / f"gradient-{c.value}-{c}.pbm", "wb")) for c in Colorant]
        for file in files:
            file.write(b"P4\n%d %d\n" % (PICTURE.columns, PICTURE.rows))
        for band in PICTURE.bands(BAND):
            rendered = screen.render(Separation.KUEPPERS, band, bytes(inks(band)))
            plates = pack(band.columns, band.rows, rendered.cells)
            for colorant, plane in planes(band.columns, band.rows, plates):
                files[colorant].write(plane)
            tallies = [sum(pair) for pair in zip(tallies, rendered.tallies)]
    return tallies


def main(words: list[str]) -> int:
    """Screens the picture to the folder that is named, and answers the status to end with."""
    if len(words) != 1:
        print("usage: gradient.py FOLDER", file=sys.stderr)
        return 2
    try:
        for colorant, tally in zip(Colorant, screen_picture(Path(words[0]))):
            print(f"{colorant:8} {tally:5}", flush=True)
    except (OSError, Refusal) as error:
        print(f"gradient: {error}", file=sys.stderr)
        return 1
    return 0


if __name__ == "__main__":
    sys.exit(main(sys.argv[1:]))
