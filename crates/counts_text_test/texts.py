"""The texts that the test program is run on, and, run itself, the file that they are read from.

    PYTHONPATH=scripts python3 -B crates/counts_text_test/texts.py > crates/counts_text_test/stdin
"""

import sys
from itertools import islice, permutations, product

from rules import SEPARATIONS, drawn

# The bytes behind a heading, a text that is run as it is, and one that is filled up to 65536 or 65537 bytes.
HEADING, PLAIN, FULL, OVER = map(chr, (28, 29, 30, 31))


def line_of(fields):
    return "\t".join(fields) + "\n"


def lines_of(letter, *lines):
    """The fields of lines that are given without their letter, with spaces for tabs."""
    return [[letter, *line.split()] for line in lines]


SCREEN = ["S", "4", "7", "105", "2", "0"]
PATCH = ["P", "demichel", "128", "128", "0"]
S, P, K = line_of(SCREEN), line_of(PATCH), "P\tkueppers\t128\t128\t0\n"
Z, BAD = "P\tkueppers\t0\t0\t0\n", "P\tdemichel\t256\t0\t0\n"

REFUSED = lines_of(
    "S", "4 8 105 2 0", "0 7 105 2 0", "7 7 105 2 0", "63 65 105 2 0", "4 7 0 1 0", "4 7 4097 2 0", "4 7 5 6 0",
    "4 7 105 0 0", "4 7 105 17 0", "4 7 70 2 70", "4 7 1 1 1",
)
ADMITTED = lines_of(
    "S", "1 2 1 1 0", "63 64 105 2 0", "4 7 4096 2 0", "4 7 5 5 0", "4 7 105 16 0", "4 7 70 2 69",
)
SEVERAL = lines_of(
    "S", "0 0 0 0 0", "4 8 0 0 0", "4 7 0 0 0", "4 7 0 17 0", "4 7 4097 17 4097", "4 7 5 6 5", "4 7 5 0 99999",
    "99999 99999 99999 99999 99999",
)
NOT_NUMBERS = [
    "00", "01", "00000", "100000", "000001", "4294967297", "+1", "-1", " 1", "1 ", "1\r", "1.0", "1/", "1:", "a", "\0",
    "1\0", "\xb9", "\xff",
]
NAMES = [
    "", "d", "demiche", "demichell", "demichek", "demicheL", "Demichel", "DEMICHEL", " demichel", "demichel ",
    "demichel\0", "demichel\r", "demi chel", "emichel", "k", "kuepper", "kuepperss", "kueppert", "Kueppers", "KUEPPERS",
    "k\xfcppers", "kuppers", "ueppers", "kueppers\r", "demichelkueppers", "dueppers", "kemichel", "neugebauer", "128",
]


# A text is its bytes as far as they are in the file, and the byte behind them there.


def plain(*texts):
    return [(text, PLAIN) for text in texts]


def filled(*fronts):
    return [(front, mark) for front in fronts for mark in (FULL, OVER)]


def whole(text, mark):
    """All bytes of a text: one that is filled up ends with zeros and a newline."""
    if mark == PLAIN:
        return text
    size = 65536 if mark == FULL else 65537
    return text + "0" * (size - len(text) - 1) + "\n"


def screens(lines):
    """Each line as the first of a text that is otherwise good."""
    return plain(*(line_of(line) + P for line in lines))


def patches(lines):
    """Each line as the second of a text that is otherwise good."""
    return plain(*(S + line_of(line) + K for line in lines))


def with_field(fields, i, field):
    return [*fields[:i], field, *fields[i + 1 :]]


def with_each(fields, places, values):
    return [with_field(fields, i, value) for value in values for i in places]


def other_fields(fields):
    """Each field missing, empty and twice, and an empty one more at each place."""
    places = range(len(fields))
    missing = [fields[:i] + fields[i + 1 :] for i in places]
    twice = [fields[: i + 1] + fields[i:] for i in places]
    more = [fields[:i] + [""] + fields[i:] for i in range(len(fields) + 1)]
    return missing + with_each(fields, places, [""]) + twice + more


def with_patches(screen, inks):
    """A text with a screen and a line for each of the ink values, by the separations in turn."""
    lines = [["P", SEPARATIONS[i % 2], *map(str, values)] for i, values in enumerate(inks)]
    return plain(line_of(["S", *screen.split()]) + "".join(map(line_of, lines)))


def by_both(inks):
    """Each of the ink values twice, for both separations."""
    return [values for values in inks for _ in SEPARATIONS]


def drawn_inks(start, many):
    values = (n % 256 for n in drawn(start))
    return [tuple(islice(values, 3)) for _ in range(many)]


TEXTS = {
    "the listing; no input": plain(S + P + K, ""),
    "line 1: a field missing, empty, twice; an empty one more": screens(other_fields(SCREEN)),
    "line 2: a field missing, empty, twice; an empty one more": patches(other_fields(PATCH)),
    "line 1: no number of the form at each place": screens(with_each(SCREEN, range(1, 6), NOT_NUMBERS)),
    "line 2: no number of the form at each place": patches(with_each(PATCH, range(2, 5), NOT_NUMBERS)),
    "line 1: small and large numbers": screens(with_each(SCREEN, range(1, 6), ["0", "9", "10", "65540", "99999"])),
    "line 2: small and large numbers": patches(
        with_each(PATCH, range(2, 5), ["0", "10", "255", "256", "999", "1000", "65664", "99999"])
    ),
    "line 1: other letters": screens(
        with_each(SCREEN, [0], ["s", "P", "R", "T", "SS", " S", "S ", "\0", "S\0", "\xd3", "\xef\xbb\xbfS"])
    ),
    "line 2: other letters": patches(
        with_each(PATCH, [0], ["p", "S", "O", "Q", "C", "PP", " P", "P ", "\0", "P\0", "\xd0", "\xef\xbb\xbfP"])
    ),
    "line 2: other names of separations": patches(with_each(PATCH, [1], NAMES)),
    "other bytes for tabs and between lines": plain(
        S.replace("\t", " ") + P, S + P.replace("\t", " "), S.replace("\t", "\t\t") + P, S + P.replace("\t", "\t\t"),
        S.replace("\t", "\v") + P, S.replace("\n", "\r\n") + P, S + P.replace("\n", "\r\n"),
        S.replace("\n", "\r") + P, S + P.replace("\n", "\r"), S.replace("\n", "\n\r") + P, S + P.replace("\n", "\n\r"),
        S.replace("\n", "\0") + P, S.replace("\n", "") + P, S + P.replace("\n", "") + K, S.replace("\n", "\v\n") + P,
        S + P.replace("\n", "\x85") + K,
    ),
    "lines missing, empty, unended, surplus, out of order": plain(
        "\n", "\n\n", "\t", "\t\n", "S", "S\n", "S\t\n", "S\t4\t7\t105\t2\t", S[:-1], S, S + "\n", S + "P", S + "P\n",
        S + P[:-1], "\n" + S + P, S + "\n" + P, S + P + "\n", S + P + "\n" + K, S + P + K + "\n", S + P + K[:-1],
        S + P + " ", S + P + " \n", S + P + "\0", S + P + "P", S + P + "P\n", P, P + S, P + P, S + S + P, S + P + S,
        S + P + S[:-1], BAD[:-1], S + BAD[:-1],
    ),
    "256 P lines, the last one not good; 257": plain(S + 255 * Z + Z[:-1], S + 255 * Z + BAD, S + 257 * Z),
    "the first bad line": plain(
        S + BAD, S + BAD + P, S + BAD + BAD, S + BAD + "\n", S + BAD + P[:-1], S + 7 * P + BAD + 8 * P,
        S + 8 * P + BAD + BAD, S + 9 * P + "\n" + P, S + 19 * P + BAD + "\n", S + 98 * Z + BAD + Z,
    ),
    "65536 and 65537 bytes": filled(
        "x\n", line_of(REFUSED[0]), S + "\n", S + P + "P\tdemichel\t128\t128\t", S + 256 * Z,
    ),
    "screens refused, and their neighbours that are not": screens(REFUSED + ADMITTED + SEVERAL),
    "screens refused, and a bad P line": plain(*(line_of(line) + BAD for line in REFUSED)),
    "screens refused, and no P line": plain(*map(line_of, REFUSED)),
    "screens refused, but the line not of the form": plain(
        *("\t".join(line) for line in REFUSED), *(line_of(line[:-1]) + P for line in REFUSED),
        *(line_of(line + ["0"]) + P for line in REFUSED), *(line_of(line[:-1] + ["00"]) + P for line in REFUSED),
    ),
    "1 cell": with_patches("1 2 1 1 0", by_both(product([0, 127, 128], repeat=3))),
    "70 cells": with_patches("4 7 70 2 69", by_both(permutations([51, 102, 204])) + drawn_inks(2, 12)),
    "105 cells": with_patches("4 7 105 2 0", by_both(product([0, 128, 255], repeat=3))),
    "4096 cells, 256 P lines": with_patches("63 64 4096 16 4095", drawn_inks(1, 256)),
}


if __name__ == "__main__":
    read = ""
    for heading, texts in TEXTS.items():
        read += f"# {heading}\n{HEADING}" + "".join(text + mark for text, mark in texts)
    assert len(read) <= 65536, "the program reads no more"
    sys.stdout.buffer.write(read.encode("latin-1"))
