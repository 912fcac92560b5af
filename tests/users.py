"""The pictures in docs/USERS.md are what the programs print: each block that begins with `$ sh tools/run` is run again and compared, and so
is the pair of tables on which 7 and 8 differ. The refusals of the paper are all of document 01's, and its Rust is the example's. (What the
example prints is compared by tests/boundary.py, which links it.)"""
import os
import re
import subprocess
import sys
import textwrap

sys.path.insert(0, os.path.join(os.path.dirname(os.path.abspath(__file__)), "common"))
from cases import CLOSES, M, Tally, here, judge, lines, read_case, run, table, threes

paper = open(os.path.join(here, "docs", "USERS.md"), encoding="utf-8").read()
blocks = re.findall(r"^```\n\$ (sh tools/run [^\n]*)\n(.*?)^```$", paper, re.M | re.S)
tally = Tally()
shown = [subprocess.run(["sh", "-c", command], cwd=here, capture_output=True, text=True).stdout for command, _ in blocks]
tally.group("pictures", [picture for _, picture in blocks], shown)
text = [M] * 683 + [CLOSES]
said = threes(run(judge, read_case(table("house.lrt"), text) + read_case(table("house.canonical.lrt"), text)))
tally.group("683 moves and a ]: 8 on the merged table, 7 at 683 on the canonical one", [lines(8), lines(7, 683)], said)
tally.group("a paragraph for each refusal", [str(n) for n in range(1, 11)], re.findall(r"^- \*\*(\d+)\.\*\*", paper, re.M))
source = open(os.path.join(here, "wrapper", "examples", "weights.rs"), encoding="utf-8").read()
quoted = re.findall(r"^```rust\n(.*?)^```$", paper, re.M | re.S)
tally.group("the Rust is that of the wrapper's example", [True], [textwrap.indent(code, "    ") in source for code in quoted])
sys.exit(tally.end())
