"""The counts program (rules 10.1 to 10.9): a screen and patches of ink values are read, and their counts written."""

from __future__ import annotations

import os
import re
from collections.abc import Iterator
from contextlib import suppress

from .colours import Separation
from .refusals import Line, Refusal
from .screens import Screen

MOST_BYTES = 65_536
MOST_LINES = 257

# 1 to 5 digits, the first of them 0 only where it is the only one (rule 10.5)
_NUMBER = re.compile(rb"0|[1-9][0-9]{0,4}")
_SEPARATIONS = {str(separation).encode(): separation for separation in Separation}


def _numbers_in(fields: list[bytes], many: int, most: int) -> list[int]:
    """The numbers that fields hold; refused as 10 where they are not so many, or one is above the most."""
    if len(fields) != many or not all(map(_NUMBER.fullmatch, fields)):
        raise Line
    numbers = list(map(int, fields))
    if max(numbers) > most:
        raise Line
    return numbers


def _screen_in(line: bytes) -> Screen:
    """The screen of line 1; refused as 10 or, where the line has the form, as 1 to 4 (rule 10.3)."""
    letter, *fields = line.split(b"\t")
    if letter != b"S":
        raise Line
    return Screen(*_numbers_in(fields, 5, 99_999))


def _patch_in(line: bytes) -> tuple[Separation, list[int]]:
    """The separation and ink values of a further line; refused as 10 (rule 10.4)."""
    letter, *fields = line.split(b"\t")
    if letter != b"P" or not fields or fields[0] not in _SEPARATIONS:
        raise Line
    return _SEPARATIONS[fields[0]], _numbers_in(fields[1:], 3, 255)


def _written(letter: str, *numbers: int) -> bytes:
    """A line that is written."""
    return "\t".join([letter, *map(str, numbers)]).encode() + b"\n"


def _answers(text: bytes) -> Iterator[bytes]:
    """What each line is answered by, line 1 by nothing; the first bad line is refused (rule 10.8)."""
    *lines, unended = text.split(b"\n")
    if not lines:
        raise Line
    screen = _screen_in(lines[0])
    yield b""
    for line in lines[1:MOST_LINES]:
        separation, inks = _patch_in(line)
        yield _written("C", *screen.counts(separation, inks))
    if unended or not 2 <= len(lines) <= MOST_LINES:
        raise Line


def answer(text: bytes) -> bytes:
    """What the program writes, of the text that it reads.

    >>> answer(b"S\\t4\\t7\\t105\\t2\\t0\\nP\\tkueppers\\t128\\t128\\t0\\n")
    b'C\\t0\\t0\\t0\\t53\\t0\\t0\\t0\\t52\\n'
    >>> answer(b"S\\t4\\t8\\t105\\t2\\t0\\n")
    b'E\\t1\\t1\\n'
    """
    if len(text) > MOST_BYTES:
        return _written("E", 0, Line.number)
    answers: list[bytes] = []
    try:
        for written in _answers(text):
            answers.append(written)
    except Refusal as refusal:
        return _written("E", len(answers) + 1, refusal.number)
    return b"".join(answers)


def _read() -> bytes:
    """Standard input, to its end or to one byte more than is answered. A read that fails ends it."""
    text = b""
    with suppress(OSError):
        while len(text) <= MOST_BYTES and (piece := os.read(0, MOST_BYTES + 1 - len(text))):
            text += piece
    return text


def _write(text: bytes) -> None:
    """Writes to standard output; a write that fails ends it."""
    with suppress(OSError):
        while text:
            text = text[os.write(1, text) :]


def run() -> None:
    """Reads, answers and writes, as the program does (rules 10.1 and 10.9): where nobody reads what it writes, it ends quietly."""
    _write(answer(_read()))
