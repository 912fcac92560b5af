"""docs/FORMS.md names what exists: each `crate::name` is declared in that crate's code, and each link leads to a file."""
import glob
import os
import re
import sys

sys.path.insert(0, os.path.join(os.path.dirname(os.path.abspath(__file__)), "common"))
from cases import Tally, here

paper = open(os.path.join(here, "docs", "FORMS.md"), encoding="utf-8").read()
tally = Tally()


def stands(name):
    """Whether a name such as `grammar::first::firsts` is declared: the crate's folder, and the file between; a method may stand in any file."""
    crate, *inner, last = name.split("::")
    files = glob.glob(os.path.join(here, "crates", crate, "src", (inner[0] if len(inner) == 1 else "*") + ".rt"))
    code = "".join(open(file, encoding="utf-8").read() for file in files)
    return bool(re.search(rf"\b(?:fn|const|struct|enum|trait|type) {last}\b", code))


names = sorted(set(re.findall(r"`([a-z_]+(?:::\w+)+)`", paper)) - {"rows::update"})
links = sorted(set(re.findall(r"\]\(([^)]+)\)", paper)))
tally.group("names", names, [name for name in names if stands(name)])
tally.group("links", links, [link for link in links if os.path.exists(os.path.join(here, "docs", link))])
sys.exit(tally.end())
