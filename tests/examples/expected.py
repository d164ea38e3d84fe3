"""Works the gradient of the examples out from the rules, and writes its eight plates and prints its tallies as they do.

    PYTHONPATH=scripts python3 -B tests/examples/expected.py FOLDER
"""

import sys
from pathlib import Path

from rules import COLORANTS, COLOURS, cells, phase, running, screen_of

COLUMNS, ROWS = 200, 100
SCREEN = screen_of(4, 7, 105, 2, 0)
SUBSCREENS = cells(SCREEN)


def colorant(x, y):
    """The colorant of a cell (rule 6.3), for the inks that the gradient has there."""
    sums = running(SCREEN, "kueppers", (x * 255 // 199, y * 255 // 99, (199 - x) * 255 // 199))
    k, q = SUBSCREENS[phase(SCREEN, x, y)]
    return next(j for j in range(8) if q < (sums[j] + k) // SCREEN.k)


def plane_row(row, j):
    """A row of colorant j's plane (rules 8.2 to 8.4): bits from the left, the last byte filled up with 0."""
    bits = "".join("1" if cell == j else "0" for cell in row)
    return bytes(int(bits[at : at + 8].ljust(8, "0"), 2) for at in range(0, len(bits), 8))


def main():
    folder = Path(sys.argv[1])
    picture = [[colorant(x, y) for x in range(COLUMNS)] for y in range(ROWS)]
    for j, held in enumerate(COLORANTS):
        name = COLOURS[held]
        plane = b"".join(plane_row(row, j) for row in picture)
        (folder / f"gradient-{j}-{name}.pbm").write_bytes(b"P4\n%d %d\n" % (COLUMNS, ROWS) + plane)
        print(f"{name:8} {sum(row.count(j) for row in picture):5}")


main()
