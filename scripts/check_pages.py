"""Checks that README.md and docs/RULES.md show what there is: run in the repository's root, once `counts` and the archive
are built.

A block of a page is indented by four spaces or fenced. A comment in the line above it says what it shows:

    <!-- file: PATH -->    the whole file, ⇥ standing for a tab
    <!-- not run -->       commands or lines that are for the reader alone

A block that begins with `$ ` is a transcript: each line with `$ ` is run by bash, and the lines after it are what it must
print on standard output. Every block is one of the three.
"""

import re
import subprocess
import sys

from files import read

# a comment line or none, an empty line or none, then a fenced block or one of indented lines
BLOCK = re.compile(
    r"(?:^<!-- (?P<mark>.*) -->\n)?\n?"
    r"(?:^```.*\n(?P<fenced>(?:.*\n)*?)```$|(?P<indented>(?:^    .*\n|^\n(?=    ))+))",
    re.MULTILINE,
)


def blocks(page):
    """The blocks of a page: what the comment above says, or None, and the text."""
    for found in BLOCK.finditer(read(page)):
        indented = found["indented"]
        text = found["fenced"] if indented is None else re.sub(r"^    ", "", indented, flags=re.MULTILINE)
        yield found["mark"], text.strip("\n") + "\n"


def transcript(text):
    """The commands of a transcript, each with what it must print."""
    _, *parts = re.split(r"^\$ ", text, flags=re.MULTILINE)
    for part in parts:
        command, _, printed = part.partition("\n")
        yield command, printed


def wrong_transcript(page, text):
    for command, printed in transcript(text):
        ran = subprocess.run(["bash", "-c", command], capture_output=True, text=True, check=False)
        if ran.returncode != 0 or ran.stdout != printed:
            yield f"{page}: `{command}` ends with {ran.returncode} and prints\n{ran.stdout}{ran.stderr}"


def wrong_block(page, mark, text):
    """What is wrong with a block."""
    if mark and mark.startswith("file: "):
        path = mark.removeprefix("file: ")
        if text.replace("⇥", "\t") != read(path):
            yield f"{page}: the block is not the file {path}"
    elif text.startswith("$ "):
        yield from wrong_transcript(page, text)
    elif mark != "not run":
        yield f"{page}: nothing says what this block shows:\n{text}"


def main():
    wrong, seen = [], 0
    for page in "README.md", "docs/RULES.md":
        for mark, text in blocks(page):
            seen += 1
            wrong.extend(wrong_block(page, mark, text))
    print("\n".join(wrong) if wrong else f"pages: {seen} blocks, each what it shows")
    sys.exit(bool(wrong))


main()
