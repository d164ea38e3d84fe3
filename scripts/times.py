"""Prints how large the crates are and where the time of the check goes, as a table: run in the repository's root.

    python3 -B scripts/times.py LOG CI OUTSIDE WALL

LOG is what `rt ci` printed; CI, OUTSIDE and WALL are the seconds of that run, of the tests from outside and of everything. A
crate's row says whether this run proved it or an earlier one of the same files on this machine, and has the number of its
must-fail edits that were refused, and its lines of code, definitions and proofs (src/, specs/ and proofs/).
"""

import re
import sys
from glob import glob

from files import read

COLUMNS = "proved", "edits", "code", "definitions", "proofs"


def lines(crate, folder, suffix):
    """How many lines the files of a crate's folder have."""
    paths = glob(f"crates/{crate}/{folder}/**/*{suffix}", recursive=True)
    return sum(read(path).count("\n") for path in paths)


def rows(log):
    """Each crate that was proved, in the order of the log: whether now or earlier, and its numbers."""
    for crate, how in re.findall(r"^rt: (\w+) (proved|is kept)\b", log, re.MULTILINE):
        edits = len(re.findall(rf"^rt: must-fail {crate}/\S+: refused", log, re.MULTILINE))
        sizes = lines(crate, "src", ".rt"), lines(crate, "specs", ".antt"), lines(crate, "proofs", ".antt")
        yield crate, "now" if how == "proved" else "earlier", (edits, *sizes)


def line(name, cells):
    return f"{name:20}" + "".join(f"{cell:>12}" for cell in cells)


def main():
    path, proving, outside, wall = sys.argv[1:]
    log = read(path)
    found = list(rows(log))
    print(line("crate", COLUMNS))
    for crate, when, numbers in found:
        print(line(crate, (when, *numbers)))
    print(line("all crates", ("", *(sum(column) for column in zip(*(numbers for _, _, numbers in found))))))
    print(*re.findall(r"^rt: ok; .*", log, re.MULTILINE), sep="\n")
    print(f"rt ci: {proving} s; tests from outside: {outside} s; wall clock: {int(wall) // 60} min {int(wall) % 60} s")


main()
