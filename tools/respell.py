"""Brings the names of this repository's own definitions, lemmas, fields and constructors to snake case: run once, in the root.

    python3 -B tools/respell.py [--dry]

It reads which names specs/ and proofs/ define, and respells those that have a capital within or a dash: `gcdOf` is `gcd_of`,
`brick-whole` is `brick_whole`. Types and modules, functions of src/, exported names, strings and outputs stay as they are.
The must-fail edits are respelled too. `--dry` lists what it would do, and names that would fall together.
"""

import re
import sys
from glob import glob

# a name of the proof language, as far as this repository writes them
TOKEN = re.compile(r"(?<![\w'\-₀-₉ᶠ])[A-Za-z+][\w'\-₀-₉]*")
# lemmas within proofs of functions that have a definition's name in snake case, or a function's
LOCAL = {"no_number", "number_read"}
FUNCTIONS = {"digit_of"}
MARKS = {"handed-back", "brick-rendered", "rounded-up", "motif-cells", "motif-bytes"}
# steps that the checker names after the code stand in the proofs of functions, and are not ours
FUNCTION_PROOF = re.compile(r"/proofs/.*(Proof|Answers|Invariants)\.antt$")


def read(path):
    with open(path, encoding="utf-8") as file:
        return file.read()


def sources():
    return sorted(p for p in glob("crates/**/*", recursive=True) if p.endswith((".antt", ".rt", ".edit")) and "/out/" not in p)


def defined():
    """The names that specs/ and the lemma files of proofs/ give types to, and those of them that are fields of records."""
    names, fields = set(), set()
    for path in sources():
        if not path.endswith(".antt") or FUNCTION_PROOF.search(path):
            continue
        inside = False
        for line in read(path).splitlines():
            if re.match(r"\s*(pub )?record ", line):
                inside = True
            elif line and not line.startswith((" ", "--")):
                inside = False
            found = re.match(r"^\s*(?:(?:pub|abbrev|unfoldable|ruleset|private)\s+)*(?!(?:record|data|use|module|unfolding|where) )([A-Za-z][\w'\-₀-₉]*) :(?: |$)", line)
            if found:
                (fields if inside else names).add(found.group(1))
    return names, fields


def snake(name):
    """The name in snake case. A capital that is a word of its own, as in `K-pos`, is a variable's and stays."""
    words = name.split("-")
    turned = []
    for word in words:
        if word[0].isupper():
            turned.append(word)
        else:
            turned.append(re.sub(r"(?<=[a-z0-9])([A-Z])(?=[a-z])", lambda m: "_" + m.group(1).lower(), re.sub(r"(?<=[a-z0-9])([A-Z])(?![a-z])", lambda m: "_" + m.group(1).lower(), word)))
    return "_".join(turned)


def table():
    """What each name turns to. Where a lemma would get the name of a definition it is told apart by `_lem`, a mark by `_mark`."""
    names, fields = defined()
    respelt = {name for name in names | fields if snake(name) != name and not (name[0].isupper() and "-" not in name)}
    turn = {name: snake(name) for name in respelt if "-" not in name}
    definitions = set(turn.values())
    for name in sorted(names | fields | LOCAL):
        if name in turn:
            continue
        if snake(name) in definitions or (snake(name) != name and snake(name) in names) or snake(name) in FUNCTIONS:
            turn[name] = snake(name) + ("_mark" if name in MARKS else "_lem")
        elif name in respelt:
            turn[name] = snake(name)
    return turn, names, fields


def respelled(text, path, turn, fields):
    function = FUNCTION_PROOF.search(path)

    def one(match):
        word = match.group(0)
        if word not in turn:
            return word
        before = text[: match.start()]
        if function and before.endswith(".") and word not in fields and not re.search(r"\.[A-Z][\w]*\.$", before):
            return word
        return turn[word]

    if path.endswith(".rt"):
        # only what stands in clauses and imports of the proof language: lines of code keep their names
        lines = []
        inside = 0
        for line in text.splitlines(keepends=True):
            clause = re.match(r"\s*(ghost|requires|ensures)\b", line) or inside > 0
            if clause:
                inside = max(inside + line.count("{") - line.count("}"), 0)
            if clause or line.lstrip().startswith("//"):
                line = TOKEN.sub(lambda m: turn.get(m.group(0), m.group(0)), line)
            lines.append(line)
        return "".join(lines)
    return TOKEN.sub(one, text)


def main():
    dry = "--dry" in sys.argv
    turn, names, fields = table()
    everything = {path: read(path) for path in sources()}
    tokens = set()
    for path, text in everything.items():
        tokens |= set(TOKEN.findall(text))
    new = {}
    for old, name in turn.items():
        new.setdefault(name, []).append(old)
    for name, olds in sorted(new.items()):
        if len(olds) > 1 or name in tokens:
            print("together:", name, "from", *sorted(olds), "(stands already)" if name in tokens else "")
    print(len(turn), "names turned")
    if dry:
        return
    for path, text in everything.items():
        turned = respelled(text, path, turn, fields)
        if turned != text:
            with open(path, "w", encoding="utf-8") as file:
                file.write(turned)


main()
