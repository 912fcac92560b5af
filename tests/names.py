"""docs/PROMISES.md names what exists: each `File.name` or `Dir/File.name` is declared in that file of the definitions or the theory."""
import os
import re
import sys

here = os.path.dirname(os.path.dirname(os.path.abspath(__file__)))
roots = [os.path.join(here, "crates", c, "specs") for c in ("definitions", "theory")]
text = open(os.path.join(here, "docs/PROMISES.md"), encoding="utf-8").read()
asked = sorted(set(re.findall(r"`((?:[A-Z]\w*/)?[A-Z]\w*)\.([^`\s]+)`", text)))
bad = []
for file, name in asked:
    found = False
    for root in roots:
        path = os.path.join(root, file + ".antt")
        if os.path.exists(path):
            source = open(path, encoding="utf-8").read()
            found = found or re.search(rf"^\s*(?:unfoldable |abbrev )*(?:pub )?(?:data |record )?{re.escape(name)}(?=[\s:(])", source, re.M)
    if not found:
        bad.append(f"{file}.{name}")
print("not declared: " + ", ".join(bad) if bad else f"{len(asked)} names, each declared where it is said to be")
print(f"{len(asked) - len(bad)} passed, {len(bad)} failed")
sys.exit(1 if bad or not asked else 0)
