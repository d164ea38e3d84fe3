"""The package as a program, beside the proved program where that has the same to do."""

import os
import subprocess
import sys
import tempfile
import unittest

from cases import ROOT

from cavzemil import __version__

PACKAGE = [sys.executable, "-W", "error", "-m", "cavzemil"]
BOTH = [*PACKAGE, "counts"], [str(ROOT / "target" / "bin" / "counts")]
GOOD = (ROOT / "crates" / "counts" / "stdin").read_bytes()
WRITTEN = (ROOT / "crates" / "counts" / "stdout").read_bytes()


def run(command, text=b"", **streams):
    """The status of a command, what it writes and what it says on standard error."""
    given = {} if "stdin" in streams else {"input": text}
    ran = subprocess.run(command, stderr=subprocess.PIPE, check=False, **given, **{"stdout": subprocess.PIPE, **streams})
    return ran.returncode, ran.stdout, ran.stderr


class Words(unittest.TestCase):
    """What the package does with its words."""

    def test_usage(self):
        for words in [], ["count"], ["counts", "file"], ["--help", "counts"], ["-h"], [""]:
            status, out, said = run([*PACKAGE, *words])
            self.assertEqual((status, out, said[:29]), (2, b"", b"usage: python3 -m cavzemil co"))

    def test_help_and_version(self):
        self.assertEqual(run([*PACKAGE, "--help"]), (0, run(PACKAGE)[2], b""))
        self.assertEqual(run([*PACKAGE, "--version"]), (0, f"cavzemil {__version__} (rules 6)\n".encode(), b""))


class Streams(unittest.TestCase):
    """Standard input and output, whatever they are (rules 10.1 and 10.9): the program in Python does as the proved one."""

    def test_counts(self):
        for command in BOTH:
            self.assertEqual(run(command, GOOD), (0, WRITTEN, b""))
            self.assertEqual(run(command), (0, b"E\t1\t10\n", b""))

    def test_reads_no_further(self):
        for command in BOTH:
            for size, due in (65536, b"E\t1\t10\n"), (65537, b"E\t0\t10\n"), (70000, b"E\t0\t10\n"):
                with tempfile.TemporaryFile() as file:
                    file.write(bytes(size))
                    file.seek(0)
                    self.assertEqual(run(command, stdin=file), (0, due, b""))
                    self.assertEqual(os.lseek(file.fileno(), 0, os.SEEK_CUR), min(size, 65537))

    def test_pieces(self):
        """Input that comes in pieces is read to its end."""
        for command in BOTH:
            with subprocess.Popen(command, stdin=subprocess.PIPE, stdout=subprocess.PIPE, bufsize=0) as running:
                for at in range(0, len(GOOD), 7):
                    running.stdin.write(GOOD[at : at + 7])
                self.assertEqual(running.communicate()[0], WRITTEN)

    def test_read_that_fails(self):
        for command in BOTH:
            unreadable = os.open(os.devnull, os.O_WRONLY)
            self.assertEqual(run(command, stdin=unreadable), (0, b"E\t1\t10\n", b""))
            os.close(unreadable)

    def test_write_that_fails(self):
        for command in BOTH:
            with open("/dev/full", "wb") as full:
                self.assertEqual(run(command, GOOD, stdout=full), (0, None, b""))

    def test_nobody_reads(self):
        for command in BOTH:
            reading, writing = os.pipe()
            os.close(reading)
            self.assertEqual(run(command, GOOD, stdout=writing), (0, None, b""))
            os.close(writing)
