"""Checks that rules are cited as they are numbered, and that none is lost: run in the repository's root.

Every rule that is cited anywhere stands in docs/RULES.md, the rules there are numbered without a gap and carry the number
that is in force, each has a row in docs/PROMISES.md, the definitions named there exist, the must-fail edits named there
are those that there are, no public function asks anything of its caller, and links between the pages lead somewhere. Says
what is wrong, and exits 1 where anything is.
"""

import os
import re
import sys
from glob import glob

from files import read
from rules import RULES_IN_FORCE

SKIPPED = {".git", "target", "out"}
# `rule 3.2`, `rules 3.2 and 3.4`, `rules 3.1, 3.2 or 3.6`, `rules 3.2 to 3.5`
CITED = re.compile(r"\brules? (\d+\.\d+(?:(?:,? and|,? or|,| to) \d+\.\d+)*)", re.IGNORECASE)
NUMBER = re.compile(r"\d+\.\d+")
# a name in Rattle or in the definitions
WORD = re.compile(r"[A-Za-z_][\w-]*")
COMMENT = re.compile(r"(?:--|//).*")
# a public function's name, and all that stands before its body
PUBLIC = re.compile(r'^pub (?:extern "C" )?fn (\w+)(.*?)^\{', re.MULTILINE | re.DOTALL)
# the marks with which a comment goes on in the next line
NEXT_LINE = re.compile(r"\n[ \t]*(?:--|//[/!]?|\*|#)?[ \t]*")


def files():
    """The repository's files, by their paths from the root."""
    for folder, folders, names in os.walk("."):
        folders[:] = sorted(name for name in folders if name not in SKIPPED)
        for name in sorted(names):
            yield os.path.normpath(os.path.join(folder, name))


def rule_numbers():
    """The rules of RULES.md in the order in which they stand there: each begins a line, or a row of a table, in bold."""
    return re.findall(r"^(?:\| )?\*\*(\d+\.\d+)\b", read("docs/RULES.md"), re.MULTILINE)


def wrong_numbering(numbers):
    """Each rule's number is the one before it with 1 added, or the first of the next section."""
    section = place = 0
    for number in numbers:
        if number == f"{section + 1}.1":
            section, place = section + 1, 1
        elif number == f"{section}.{place + 1}":
            place += 1
        else:
            yield f"docs/RULES.md: rule {number} follows {section}.{place}"


def wrong_force():
    """The number at the head of RULES.md is the one in force."""
    if f"**Rules in force: {RULES_IN_FORCE}.**" not in read("docs/RULES.md"):
        yield f"docs/RULES.md: its head does not say 'Rules in force: {RULES_IN_FORCE}'"


def wrong_citations(numbers):
    """Each rule that a file cites is there."""
    for path in files():
        try:
            text = NEXT_LINE.sub(" ", read(path))
        except UnicodeDecodeError:
            continue
        for cited in CITED.findall(text):
            for number in NUMBER.findall(cited):
                if number not in numbers:
                    yield f"{path}: rule {number} is not in docs/RULES.md"


def wrong_promises(numbers):
    """Each rule has one row in PROMISES.md, in the same order."""
    rows = re.findall(r"^\| (\d+\.\d+) \|", read("docs/PROMISES.md"), re.MULTILINE)
    for number in numbers:
        if number not in rows:
            yield f"docs/PROMISES.md: no row for rule {number}"
    if sorted(rows) == sorted(numbers) and rows != numbers:
        yield "docs/PROMISES.md: its rows are not in the order of the rules"
    for number in rows:
        if number not in numbers or rows.count(number) > 1:
            yield f"docs/PROMISES.md: the row for rule {number} is one too many"


def cells(column):
    """The cells of a column of PROMISES.md's tables, the last being -1."""
    rows = [line.strip("| ").split(" | ") for line in read("docs/PROMISES.md").splitlines() if line.startswith("| ")]
    return [row[column] for row in rows]


def wrong_edits():
    """The must-fail edits that PROMISES.md names as catching something are those of the crates."""
    there = {os.path.basename(path)[: -len(".edit")] for path in glob("crates/*/must-fail/*.edit")}
    named = {name for cell in cells(-1) for name in re.findall(r"`([a-z0-9]+(?:_[a-z0-9]+)+)`", cell)}
    for name in sorted(named - there):
        yield f"docs/PROMISES.md: there is no edit {name}"
    for name in sorted(there - named):
        yield f"docs/PROMISES.md: the edit {name} is not named"


def wrong_names():
    """What PROMISES.md names as stating a rule is in the crates' code or definitions."""
    paths = glob("crates/*/src/**/*.rt", recursive=True) + glob("crates/*/specs/**/*.antt", recursive=True)
    words = {word for path in paths for word in WORD.findall(COMMENT.sub("", read(path)))}
    for cell in cells(-2):
        for code in re.findall(r"`([^`]*)`", cell):
            for name in set(WORD.findall(code)) - words:
                yield f"docs/PROMISES.md: there is no {name}"


def wrong_requires():
    """A public function takes every input (rule 11.1), so that its contract has no `requires`."""
    for path in glob("crates/*/src/**/*.rt", recursive=True):
        for name, contract in PUBLIC.findall(COMMENT.sub("", read(path))):
            if "requires" in contract:
                yield f"{path}: the public function {name} has a requires"


def anchors(text):
    """What a page's headings are linked by."""
    headings = re.findall(r"^#+ (.*)$", text, re.MULTILINE)
    return {re.sub(r"[^\w\- ]", "", heading.lower()).replace(" ", "-") for heading in headings}


def wrong_links():
    """Links in the repository's pages lead to a file, and to a heading of it where they name one."""
    for page in [path for path in files() if path.endswith(".md")]:
        for link in re.findall(r"\]\(([^)]+)\)", read(page)):
            name, _, anchor = link.partition("#")
            target = os.path.normpath(os.path.join(os.path.dirname(page), name)) if name else page
            if not os.path.exists(target) or anchor and anchor not in anchors(read(target)):
                yield f"{page}: the link {link} leads nowhere"


def main():
    numbers = rule_numbers()
    wrong = [
        *wrong_numbering(numbers), *wrong_force(), *wrong_citations(numbers), *wrong_promises(numbers), *wrong_edits(),
        *wrong_names(), *wrong_requires(), *wrong_links(),
    ]
    print("\n".join(wrong) if wrong else f"rules: {len(numbers)} rules, each with its row, and no other is cited")
    sys.exit(bool(wrong))


main()
