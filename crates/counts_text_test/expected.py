"""Works out what the test program must print, from the rules and nothing else.

    PYTHONPATH=scripts python3 -B crates/counts_text_test/expected.py > crates/counts_text_test/stdout
"""

import re

from rules import SEPARATIONS, counts, made
from texts import TEXTS, whole

# up to five digits, of which 0 alone begins with a 0
NUMBER = re.compile("0|[1-9][0-9]{0,4}")


def numbers_in(fields, many, most):
    """The fields as numbers, or None where they are not so many numbers of at most so much."""
    if len(fields) != many or not all(map(NUMBER.fullmatch, fields)):
        return None
    found = list(map(int, fields))
    return found if max(found) <= most else None


def screen_in(line):
    """The refusal of a line's screen and the screen made (rule 10.6), or None."""
    fields = line.split("\t")
    found = numbers_in(fields[1:], 5, 99999)
    return made(*found) if found and fields[0] == "S" else None


def patch_in(line):
    """The separation and the ink values of a line, or None."""
    fields = line.split("\t")
    inks = numbers_in(fields[2:], 3, 255)
    return (fields[1], inks) if inks and fields[0] == "P" and fields[1] in SEPARATIONS else None


def line_refusal(number, line):
    if number == 1:
        screen = screen_in(line)
        return screen[0] if screen else 10
    return 0 if number <= 257 and patch_in(line) else 10


def line_of(letter, numbers):
    return "\t".join([letter, *map(str, numbers)]) + "\n"


def answer(text):
    if len(text) > 65536:
        return line_of("E", (0, 10))
    *lines, unended = text.split("\n")
    for number, line in enumerate(lines, 1):
        refused = line_refusal(number, line)
        if refused:
            return line_of("E", (number, refused))
    if unended or len(lines) < 2:
        return line_of("E", (len(lines) + 1, 10))
    first, *patches = lines
    _, screen = screen_in(first)
    return "".join(line_of("C", counts(screen, *patch_in(line))) for line in patches)


for heading, texts in TEXTS.items():
    print(f"# {heading}")
    for text, mark in texts:
        print(answer(whole(text, mark)), end="-\n")
