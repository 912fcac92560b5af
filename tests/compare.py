"""The library and the second program answer alike on made cases, all of what they print: 60,000 cases of fixed seeds. The test fails where a
kind of case, a refusal number or a thing that cases ought to hold did not come. `python3 tools/compare` runs longer, with any seed."""
import os
import sys

sys.path.insert(0, os.path.join(os.path.dirname(os.path.abspath(__file__)), "common"))
from cases import Tally, build_second
from compare import Covered, compare, need_programs, smallest_difference

seed, count = 20261115, 60_000
tally, covered = Tally(), Covered()
need_programs(build_second)
done, found = compare(seed, count, covered)
print(f"seed {seed}: {done} cases, how often each number was answered:")
print("\n".join(covered.table()))
if found:
    print("\n".join(smallest_difference(found)))
tally.passed += done - len(found)
tally.failed += len(found)
missing = covered.missing()
print(f"{len(covered.shown)} things that cases ought to hold, the rarest: " + ", ".join(covered.rarest(6)))
tally.group("kinds, numbers and things that did not come", [[]], [missing])
tally.group("all cases were run", [count], [done])
sys.exit(tally.end())
