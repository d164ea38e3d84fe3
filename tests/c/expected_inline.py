"""Works out what the test program of the header's inline functions must print, from tests/refusals.txt and the rules.

    PYTHONPATH=scripts python3 -B tests/c/expected_inline.py
"""

from files import read
from rules import RULES_IN_FORCE

NUMBERS = [*range(300), 2**32 - 1]
SIZES = [0, 1, 7, 8, 9, 200, 65535, 65536, 65537, 2**31, 2**32 - 8, 2**32 - 7, 2**32 - 1]
SHEET = 65536
NO_MEMORY = 2**64 - 1


def show_refusals():
    """The lines of the list at their numbers, and one without a name for each other number."""
    lines = {int(line.split("\t")[0]): line for line in read("tests/refusals.txt").splitlines()}
    for number in NUMBERS:
        print(lines.get(number, f"{number}\t\tno refusal has this number"))


def show_sizes(columns, rows):
    """The lengths of rules 7.2, 7.3, 8.1 and 8.8, and the refusals of lengths that no memory has, or nothing."""
    beyond = columns > SHEET or rows > SHEET
    cells, plane = columns * rows, -(-columns // 8) * rows
    lengths = [NO_MEMORY if beyond else length for length in (3 * cells, cells, plane, 8 * plane)]
    names = "input", "cells", "plane", "planes"
    print(f"{columns} by {rows}: {', '.join(f'{name} {length}' for name, length in zip(names, lengths))}")
    if beyond or cells == 0:
        refusal = 5 if beyond else 0
        print(f"{columns} by {rows}: refusals {refusal} {refusal} {refusal} {refusal}")


show_refusals()
print(f"rules {RULES_IN_FORCE}")
for columns in SIZES:
    for rows in SIZES:
        show_sizes(columns, rows)
