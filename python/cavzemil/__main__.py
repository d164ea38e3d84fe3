"""The package as a program: `python3 -m cavzemil counts < file`."""

from __future__ import annotations

import sys

from . import RULES, __version__, counts

USAGE = """\
usage: python3 -m cavzemil counts < FILE    writes the counts of a screen's patches, as the program counts does
       python3 -m cavzemil --version
       python3 -m cavzemil --help
"""


def main(words: list[str]) -> int:
    """Does what the words ask for, and answers the status to end with."""
    if words == ["counts"]:
        counts.run()
    elif words == ["--version"]:
        print(f"cavzemil {__version__} (rules {RULES})")
    elif words == ["--help"]:
        print(USAGE, end="")
    else:
        print(USAGE, end="", file=sys.stderr)
        return 2
    return 0


if __name__ == "__main__":
    sys.exit(main(sys.argv[1:]))
