"""Tries wrong headers: run in the repository's root, after `scripts/build`.

    PYTHONPATH=scripts python3 -B tests/c/try_headers.py

Each edit in wrong-headers/ is made in a copy of the header. With it one of the test programs must not compile, or not
print what it must; an edit that is lost in compiling must be seen where the header is compared with what is due. Says how
each was noticed, and exits 1 where one was not, or where anything is noticed in the header as it stands.
"""

import re
import subprocess
import sys
from pathlib import Path

from check_header import HEADER, header_differences

COMPILE = ["cc", "-std=c11", "-Wall", "-Wextra", "-pedantic", "-Werror"]
ARCHIVE = "target/staticlib/libcavzemil.a"
# the test programs, each with the script that works out what it must print
PROGRAMS = {"interface": "tests/c/expected.py", "inline": "tests/c/expected_inline.py"}
LOST_IN_COMPILING = {
    "cells_len_columns_and_rows_exchanged", "charge_of_length_in_32_bits", "fill_brick_length_in_32_bits",
    "fill_brick_only_reads", "make_screen_k_and_g_exchanged", "moved_x_and_y_exchanged", "phase_at_x_and_y_exchanged",
    "predict_cellular_length_in_32_bits", "replace_offset_g_in_64_bits", "rules_of_any_parameters",
    "version_minor_3_of_2",
}


def edited(edit):
    """A header with an edit made in it."""
    text = edit.read_text()
    [path] = re.findall(r"^file: (.*)$", text, re.MULTILINE)
    header = Path(path).read_text()
    for old, new in re.findall(r"^old: (.*)\nnew: (.*)$", text, re.MULTILINE):
        if header.count(old) != 1:
            sys.exit(f"{edit}: '{old}' is {header.count(old)} times in {path}, not once")
        header = header.replace(old, new)
    return header


def seen_by_program(folder, program, expected):
    """How a test program shows that the header in a folder is wrong; nothing where it does not."""
    binary = folder / program
    source = f"tests/c/{program}.c"
    if subprocess.run([*COMPILE, f"-I{folder}", source, ARCHIVE, "-o", binary], capture_output=True).returncode:
        return f"{program} does not compile"
    try:
        run = subprocess.run([binary], capture_output=True, timeout=60)
    except subprocess.TimeoutExpired:
        return f"{program} does not end"
    if run.returncode:
        return f"{program} crashes"
    return "" if run.stdout == expected else f"{program} prints something else"


def seen(name, header, expected):
    """How a header is seen to be wrong by the test programs, and by the comparison."""
    folder = Path("target/tests/c") / name
    folder.mkdir(parents=True, exist_ok=True)
    copy = folder / "cavzemil.h"
    copy.write_text(header)
    differs = "it differs from what is due" if any(header_differences(copy)) else ""
    return *(seen_by_program(folder, program, printed) for program, printed in expected.items()), differs


def printed_by(script):
    """What a script prints."""
    return subprocess.run([sys.executable, "-B", script], stdout=subprocess.PIPE, check=True).stdout


def main():
    expected = {program: printed_by(script) for program, script in PROGRAMS.items()}
    if any(ways := seen("right", Path(HEADER).read_text(), expected)):
        sys.exit(f"{HEADER}: {'; '.join(filter(None, ways))}")
    missed = []
    edits = sorted(Path("tests/c/wrong-headers").glob("*.edit"))
    if not edits:
        sys.exit("tests/c/wrong-headers: there is no wrong header to try")
    for edit in edits:
        *programs, comparison = ways = seen(edit.stem, edited(edit), expected)
        print(f"{edit.stem}: {'; '.join(filter(None, ways)) or 'not noticed'}")
        if not (comparison if edit.stem in LOST_IN_COMPILING else any(programs)):
            missed.append(edit.stem)
    if missed:
        sys.exit(f"wrong headers not noticed as they must be: {' '.join(missed)}")


main()
