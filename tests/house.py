"""The house table of the definitions, that of the crate house and tables/house.lrt are the same, byte for byte."""
import os
import re
import sys

here = os.path.dirname(os.path.dirname(os.path.abspath(__file__)))
text = open(os.path.join(here, "crates/definitions/specs/House.antt"), encoding="utf-8").read()
body = text.split("house =", 1)[1]
told = [int(n) for n in re.findall(r"\d+", re.sub(r"--[^\n]*", "", body))]
kept = list(open(os.path.join(here, "tables/house.lrt"), "rb").read())
code = open(os.path.join(here, "crates/house/src/lib.rt"), encoding="utf-8").read()
lent = [int(n) for n in re.findall(r"\d+", code.split("HOUSE: [u8; 320] = [", 1)[1].split("]")[0])]
ok = told == kept == lent and len(kept) == 320
print("house: 320 bytes, the same in all three" if ok else f"house: {len(told)}, {len(kept)} and {len(lent)} bytes differ")
print("1 passed, 0 failed" if ok else "0 passed, 1 failed")
sys.exit(0 if ok else 1)
