"""The table check, run through the program judge: the stored vectors, every table to try, all single-byte changes of the house table,
tables cut and lengthened, counts at and past their limits, and tables that break one state condition alone."""
import json
import os
import struct
import subprocess
import sys

sys.path.insert(0, os.path.join(os.path.dirname(os.path.abspath(__file__)), "common"))
from sheets import parts, sheet

here = os.path.dirname(os.path.dirname(os.path.abspath(__file__)))
judge = os.path.join(here, "target", "bin", "judge")
passed = failed = 0


def told(tables, kind=b"T"):
    """The judge's answers: a number a table, or of kind C three where it is 4."""
    cases = b"".join(kind + struct.pack(">I", len(t)) + t for t in tables)
    run = subprocess.run([judge], input=cases, capture_output=True)
    return [int(line) for line in run.stdout.split()]


def expect(what, tables, wanted):
    global passed, failed
    got = told(tables)
    wrong = [i for i, w in enumerate(wanted) if i >= len(got) or got[i] != w]
    passed += len(wanted) - len(wrong)
    failed += len(wrong)
    shown = "".join(f"; case {i}: {got[i] if i < len(got) else 'nothing'} for {wanted[i]}" for i in wrong[:3])
    print(f"{what}: {len(wanted) - len(wrong)} of {len(wanted)}{shown}")
    return got


def table(name):
    return open(os.path.join(here, "tables", name), "rb").read()


def with_states(more):
    """The house table with states that nothing leads to: (actions, gotos, items) each."""
    house = parts(table("house.lrt"))
    for actions, gotos, items in more:
        house[3] += 1
        house[5].append(actions)
        house[6].append(gotos)
        house[7].append(items)
    return sheet(*house)


house = table("house.lrt")
assert sheet(*parts(house)) == house

vectors = [json.loads(line) for line in open(os.path.join(here, "vectors", "table.jsonl"), encoding="utf-8")]
expect("stored vectors", [bytes.fromhex(v["table"]) for v in vectors], [v["expect"]["no"] for v in vectors])

names = sorted(f for f in os.listdir(os.path.join(here, "tables")) if f.endswith(".lrt"))
expect("tables to try", [table(f) for f in names], [0] * len(names))

# one byte changed: of all 81,600 changes four are accepted, larger lookahead sets that the conditions allow
changed = [house[:i] + bytes([b]) + house[i + 1 :] for i in range(320) for b in range(256) if b != house[i]]
answers = told(changed)
yes = [(k // 255, changed[k][k // 255]) for k, a in enumerate(answers) if a == 0]
good = len(answers) == 81600 and len(yes) == 4
passed, failed = passed + good, failed + (not good)
print(f"single-byte changes of the house table: {len(answers)} answered, accepted (place, byte): {yes}")

expect("the house table cut at every length", [house[:i] for i in range(320)], [2] * 320)
expect("bytes appended", [house + bytes(k) for k in (1, 2, 10, 400)], [2] * 4)
large = table("large.lrt")
expect("the large table cut", [large[:i] for i in range(0, len(large), 997)], [2] * len(range(0, len(large), 997)))


def head(t, n, p, s):
    """A sheet of these counts, laid out right: productions of nothing, no moves, one item a state."""
    return sheet(t, n, p, s, [(0, [129])] + [(1, [])] * (p - 1), [[0] * t] * s, [[255] * n] * s, [[(0, 0, 1)]] * s)


limits = [(head(t, 2, 2, 2), 2 if t in (0, 65) else 4) for t in (0, 1, 64, 65)]
limits += [(head(4, n, 2, 2), {1: 2, 2: 4, 64: 3, 65: 2}[n]) for n in (1, 2, 64, 65)]
limits += [(head(4, 2, p, 2), {1: 2, 2: 4, 200: 4, 201: 2}[p]) for p in (1, 2, 200, 201)]
limits += [(head(4, 2, 2, s), {1: 2, 2: 4, 200: 4, 201: 2}[s]) for s in (1, 2, 200, 201)]
expect("counts at and past their limits", [x for x, _ in limits], [y for _, y in limits])


def crowded(items):
    """Two states with so many items in all, laid out right."""
    prods = [(0, [129])] + [(1, [1] * 8)] * 199
    every = [(p, d, 1) for p in range(200) for d in range(1 if p == 0 else 9)]
    first = min(items - 1, len(every))
    return sheet(4, 2, 200, 2, prods, [[0] * 4] * 2, [[255] * 2] * 2, [every[:first], every[: items - first]])


expect("2,400 and 2,401 items", [crowded(2400), crowded(2401)], [4, 2])

# one condition alone
alone = {1: with_states([([513, 513, 513, 0], [255, 1, 255], parts(house)[7][0])])}
state3, state5 = parts(house)[7][3], parts(house)[7][5]
rows, gotos = parts(house)[5], parts(house)[6]
alone[6] = with_states([(rows[3], [255, 8, 255], state3), ([1] + rows[5][1:], gotos[5], sorted(state5 + [(0, 1, 1)]))])
alone[7] = with_states([([0, 258, 0, 0], [255, 255, 255], [(3, 0, 2)])])
for v in vectors:
    broken = v["expect"].get("conditions", [])
    if len(broken) == 1:
        alone.setdefault(broken[0], bytes.fromhex(v["table"]))
expect("one condition broken alone, 1 to 7", [alone[k] for k in range(1, 8)], [4] * 7)
named = [told([alone[k]], b"C") for k in range(1, 8)]
good = [k for k in range(1, 8) if named[k - 1][:2] == [4, k]]
passed, failed = passed + len(good), failed + 7 - len(good)
print(f"the condition that the refusal names: {[n[1:2] for n in named]}, {len(good)} of 7")

# the stored vectors that break conditions: the one named is one of them
broken = [v for v in vectors if v["expect"]["no"] == 4 and "conditions" in v["expect"]]
names = told([bytes.fromhex(v["table"]) for v in broken], b"C")[1::3]
good = sum(n in v["expect"]["conditions"] for n, v in zip(names, broken))
passed, failed = passed + good, failed + len(broken) - good
print(f"stored vectors whose named condition is broken: {good} of {len(broken)}")
print(f"{passed} passed, {failed} failed")
sys.exit(1 if failed else 0)
