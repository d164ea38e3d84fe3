"""Checks that every exported function is called from C: run in the repository's root, after `scripts/build`.

    PYTHONPATH=scripts python3 -B tests/c/check_calls.py

The archive exports the functions that the source declares and no others, the shared library these and nothing else, and the
test program calls each of them. Says which do not fit, and exits 1 where any does not.
"""

import re
import subprocess
import sys

from check_header import source_declared
from files import read


ARCHIVE = "target/staticlib/libcavzemil.a"
SHARED = "target/sharedlib/libcavzemil.so"


def listed(path, *options):
    """The names that a library offers to a linker, each with the letter of its kind."""
    run = subprocess.run(["nm", *options, "--defined-only", path], stdout=subprocess.PIPE, text=True, check=True)
    return re.findall(r" (\w) (\w+)$", run.stdout, re.MULTILINE)


def main():
    declared = {name for name, (word, *_) in source_declared().items() if word == "parameters"}
    called = set(re.findall(r"\b(cavzemil_\w+)\(", read("tests/c/interface.c")))
    functions = {name for kind, name in listed(ARCHIVE, "--extern-only") if kind == "T"}
    names = {name for _, name in listed(SHARED, "--dynamic")}
    wrong = [f"{name}: not both declared by the source and exported by {ARCHIVE}" for name in sorted(declared ^ functions)]
    wrong += [f"{name}: not both declared by the source and exported by {SHARED}" for name in sorted(declared ^ names)]
    wrong += [f"{name}: not called by tests/c/interface.c" for name in sorted(declared - called)]
    print("\n".join(wrong) if wrong else f"calls: {len(declared)} functions are exported, and each is called from C")
    sys.exit(bool(wrong))


main()
