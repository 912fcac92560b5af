"""The comparison catches faults: those of common/planted.py, put one at a time into a copy of the second program. Of two of them the case that
shows it is made small. `python3 tools/plant` does this for all."""
import os
import sys
import tempfile

sys.path.insert(0, os.path.join(os.path.dirname(os.path.abspath(__file__)), "common"))
from cases import Tally, build_second
from compare import need_programs
from planted import FAULTS
from planting import Copy, Made, batch, batches, caught, seed
from showing import shown

small = {"the right edge is left whole": 400, "a nonterminal may derive nothing": 200}
tally, lots = Tally(), Made()
need_programs(build_second)
with tempfile.TemporaryDirectory() as where:
    copy = Copy(where)
    tally.group("the copy as it is builds, and does not differ", ["", None], [copy.build(), caught(copy.program, lots, 0)])
    late = []
    for name, file, old, new in FAULTS:
        why = copy.plant(file, old, new)
        found = None if why else caught(copy.program, lots, 60 if name in small else 0)
        if found is None:
            print(f"{name}: {why or 'not caught'}")
        tally.passed, tally.failed = tally.passed + bool(found), tally.failed + (not found)
        late += [(found.cases, name)] if found else []
        if found and name in small:
            print(f"{name}, made small:")
            print("\n".join(f"  {line[:140]}" for line in shown(found.case, found.one, found.two, ("library", "planted"))))
            tally.group(f"its bytes are at most {small[name]}", [True], [len(found.case) <= small[name]])
print(f"seed {seed}: {len(late)} of {len(FAULTS)} faults caught within {batch * batches} cases; the last at case {max(late, default=None)}")
sys.exit(tally.end())
