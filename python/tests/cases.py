"""What several tests need: drawn screens, by the rules in plain Python (scripts/rules.py), and refusals by number."""

import sys
import tracemalloc
from itertools import islice
from math import gcd
from pathlib import Path

import rules

from cavzemil import Refusal, Screen

ROOT = Path(__file__).resolve().parents[2]
TOP = rules.TOP
SEPARATIONS = tuple(enumerate(rules.SEPARATIONS))


class Draw:
    """Numbers drawn one from the other."""

    def __init__(self, start):
        self.numbers = rules.drawn(start)

    def below(self, limit):
        """A number below a limit of at most 2^32."""
        high, low = islice(self.numbers, 2)
        return (high * 65536 + low) % limit

    def of(self, values):
        """One of some values."""
        return values[self.below(len(values))]

    def bytes(self, many):
        """So many bytes."""
        return bytes(self.below(256) for _ in range(many))

    def screen(self, most=300):
        """A screen of at most so many cells, as the rules make it."""
        b = 2 + self.below(63)
        a = self.of([a for a in range(1, b) if gcd(a, b) == 1])
        n = 1 + self.below(most)
        return rules.screen_of(a, b, n, 1 + self.below(min(n, 16)), self.below(n))


def refused(call, *arguments, **named):
    """The number that a call is refused with, 0 where it is served, and its answer."""
    try:
        return 0, call(*arguments, **named)
    except Refusal as refusal:
        return refusal.number, None


def most_memory(call, *arguments):
    """The most bytes that Python had at a time for a call, whether it is refused or not."""
    tracemalloc.start()
    refused(call, *arguments)
    _, most = tracemalloc.get_traced_memory()
    tracemalloc.stop()
    return most


def screen_of(record):
    """The package's screen of a record that the rules admit."""
    return Screen(*record[:5])


def note(line):
    """Says something about a test in the log."""
    print(line, file=sys.stderr)
