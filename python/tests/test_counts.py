"""The counts program in Python against the proved one: on every text of its tests, and on texts drawn from them."""

import subprocess
import unittest

from cases import ROOT, Draw

from cavzemil.counts import answer
from texts import TEXTS, whole

PROGRAM = ROOT / "target" / "bin" / "counts"
# bytes that a text may be changed by
BYTES = b"\t\n \r\0/0123456789:SPCEspdemichlkur\xb9\xff"


def texts():
    """The texts of crates/counts_text_test, all of their bytes."""
    return [whole(text, mark).encode("latin-1") for listed in TEXTS.values() for text, mark in listed]


def changed(draw, text):
    """A text with one to three places changed: a byte put in, taken out or replaced, or a piece twice."""
    for _ in range(1 + draw.below(3)):
        at = draw.below(len(text) + 1)
        byte = bytes([draw.of(BYTES)])
        end = at + draw.below(9)
        ways = text[:at] + byte + text[at:], text[:at] + text[end:], text[:at] + byte + text[at + 1 :], text[:end] + text[at:]
        text = draw.of(ways)
    return text


def drawn_texts(many):
    """Texts drawn from those that are small enough to be changed at a place that matters."""
    draw, small = Draw(1), [text for text in texts() if 10 < len(text) < 200]
    return [changed(draw, draw.of(small)) for _ in range(many)]


class Counts(unittest.TestCase):
    """Every answer is the program's."""

    def test_texts(self):
        """The stored output of the proved program's test has a heading for each list and a line `-` after each answer."""
        shown = b""
        for heading, listed in TEXTS.items():
            shown += f"# {heading}\n".encode("latin-1")
            shown += b"".join(answer(whole(text, mark).encode("latin-1")) + b"-\n" for text, mark in listed)
        self.assertEqual(shown, (ROOT / "crates" / "counts_text_test" / "stdout").read_bytes())

    def test_drawn(self):
        """Good and bad ones are among them, each way of being refused too."""
        seen = set()
        for text in drawn_texts(3000):
            written = subprocess.run([PROGRAM], input=text, stdout=subprocess.PIPE, check=True).stdout
            self.assertEqual(answer(text), written, text)
            seen.add(written.split(b"\t")[-1] if written.startswith(b"E") else b"C")
        self.assertLessEqual({b"C", b"1\n", b"2\n", b"3\n", b"4\n", b"10\n"}, seen)
