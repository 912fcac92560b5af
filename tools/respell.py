"""Brings the project's own names in specs/ and proofs/ to today's spelling: words in snake case, a dash only between two names.

    python3 tools/respell.py [FOLDER]

Run once, right after the kit's port.py, at the top of the repository. tools/respelled.tsv has a row for each name: old, a tab, new. A
name turns as a whole word only: in .antt files, in clauses, ghost items and comments of .rt files, in the pages and in tests/wrong.
Functions of src/, exported names, strings, inputs and outputs have no name of the table."""
import os
import re
import sys

here = os.path.dirname(os.path.dirname(os.path.abspath(__file__)))
top = sys.argv[1] if len(sys.argv) > 1 else here
table = {}
for line in open(os.path.join(here, "tools", "respelled.tsv"), encoding="utf-8"):
    old, new = line.rstrip("\n").split("\t")
    table[old] = new
code = re.compile(r'[^\s(){}.;,@"«»`]+')
prose = re.compile(r'[^\s(){}.;,@"«»`/:*\[\]|]+')


def turned(path, text):
    # one field has the name of a lemma of another file
    own = {"tree-of": "tree_of"} if path.endswith("Demands/Exactly.antt") else {}
    word = code if path.endswith((".antt", ".rt")) else prose

    def one(m):
        w = m[0]
        if w == "tree-of" and text[m.start() - 1 : m.start()] == ".":
            return "tree_of"
        return own.get(w) or table.get(w) or w

    return word.sub(one, text)


def files():
    for folder, dirs, names in os.walk(os.path.join(top, "crates")):
        dirs[:] = sorted(d for d in dirs if d != "out")
        for name in sorted(names):
            if name.endswith((".antt", ".rt")):
                yield os.path.join(folder, name)
    for folder in (top, os.path.join(top, "docs")):
        for name in sorted(os.listdir(folder)):
            if name.endswith(".md") and not name.startswith("PORT"):
                yield os.path.join(folder, name)
    for name in sorted(os.listdir(os.path.join(top, "tests", "wrong"))):
        yield os.path.join(top, "tests", "wrong", name)


changed = 0
for path in files():
    with open(path, encoding="utf-8", newline="") as f:
        old = f.read()
    new = turned(path, old)
    if new != old:
        changed += 1
        with open(path, "w", encoding="utf-8", newline="") as f:
            f.write(new)
print(f"respell: {changed} files changed")
