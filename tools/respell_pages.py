"""Brings the names of definitions and lemmas in the pages to what they are in crates/: run once, in the root.

    python3 -B tools/respell_pages.py BEFORE AFTER

BEFORE and AFTER are the commits between which the names were respelled and nothing else was: the names that a file of specs/ or a
file of lemmas gives types to are then the same in number and order, and each turns to the one in its place. In the pages a name
is respelled where it stands in code; names of files stay.
"""

import re
import subprocess
import sys

DEFINED = re.compile(r"^\s*(?:(?:pub|abbrev|unfoldable|ruleset|private)\s+)*([^\s:(){}]+) :(?: |$)", re.MULTILINE)
SOURCE = re.compile(r"crates/\w+/(specs|proofs)/(?!.*/(Proof|Answers|Invariants)\.antt).*\.antt")
# code in a line: between two backticks
CODE = re.compile(r"`[^`]*`")
NAME = re.compile(r"(?<![\w'\-/])[A-Za-z][\w'\-₀-₉]*(?!\.md)")


def git(*words):
    return subprocess.run(["git", *words], stdout=subprocess.PIPE, encoding="utf-8", check=True).stdout


def defined(commit):
    """The names that each file gives types to at a commit."""
    paths = filter(SOURCE.fullmatch, git("ls-tree", "-r", "--name-only", commit, "crates").splitlines())
    return {path: DEFINED.findall(git("show", f"{commit}:{path}")) for path in paths}


def table(before, after):
    """What each name turns to."""
    old, new = defined(before), defined(after)
    turn = {}
    for path, names in old.items():
        if len(names) != len(new[path]):
            sys.exit(f"{path} defines other names at {before} than at {after}")
        for name, now in zip(names, new[path]):
            if turn.setdefault(name, now) != now:
                sys.exit(f"{name} turns to {turn[name]} and to {now}")
    return {name: now for name, now in turn.items() if name != now}


def main(before, after):
    turn = table(before, after)
    for path in git("ls-files", "*.md").splitlines():
        with open(path, encoding="utf-8") as file:
            text = file.read()
        turned = CODE.sub(lambda code: NAME.sub(lambda name: turn.get(name[0], name[0]), code[0]), text)
        if turned != text:
            with open(path, "w", encoding="utf-8") as file:
                file.write(turned)


main(*sys.argv[1:])
