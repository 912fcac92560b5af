"""Reading afresh, run through the program judge: every stored vector, the cases that document 01 lists, refusals in order where several
hold at once, and the lent rows after every refusal. The second program is run on the same cases, and the judge on cases that it makes."""
import os
import subprocess
import sys

sys.path.insert(0, os.path.join(os.path.dirname(os.path.abspath(__file__)), "common"))
from cases import CLOSES, M, OPENS, ROOM, TREE, Tally, build_second, fresh, here, judge, lines, nodes, of_read, read_case, run, second, split, table, threes, vectors

house, canonical = table("house.lrt"), table("house.canonical.lrt")
m, opens, closes = M, OPENS, CLOSES
top = 4294967295
tally = Tally()
every = []


def expect(what, pairs):
    """Runs cases and compares all three lines of each."""
    every.extend(pairs)
    tally.group(what, [wanted for _, wanted in pairs], threes(run(judge, b"".join(case for case, _ in pairs))))


def written(codes, first=1):
    """What is printed where a text of the house grammar is accepted."""
    row = fresh(codes, first)
    return lines(0, 0, (0, 0, 0, len(codes), row[0] - len(codes)), row)


def taken(codes, first=1):
    return read_case(house, codes, first), written(codes, first)


expect("stored vectors", [of_read(v) for v in vectors("read.jsonl")])

texts = [[], [m], [m, m], [opens, closes], [opens, m, m, closes, m]]
expect("texts that are accepted", [taken(codes) for codes in texts])
sizes = [len(nodes(codes)) for codes in ([m] * 682, [opens, closes] * 2 + [m] * 679, [opens, closes] + [m] * 681)]
tally.group("their nodes: 2,047 and 2,048 fit, 2,049 do not", [2047, 2048, 2049], sizes)
expect("at the limit of nodes", [
    taken([m] * 682),
    (read_case(house, [m] * 683), lines(8)),
    taken([opens, closes] * 2 + [m] * 679),
    (read_case(house, [opens, closes] + [m] * 681), lines(8)),
    (read_case(house, [m] * 682 + [closes]), lines(7, 682)),
    (read_case(house, [m] * 683 + [closes]), lines(8)),
    (read_case(canonical, [m] * 683 + [closes]), lines(7, 683)),
])
expect("at the limit of codes", [(read_case(house, [m] * 2048), lines(8)), (read_case(house, [m] * 2049), lines(6))])
expect("at the limit of numbers", [
    taken([m], 4294967291),
    (read_case(house, [m], 4294967292), lines(9)),
    taken([], 4294967294),
    (read_case(house, [], top), lines(9)),
    (read_case(house, [closes], top), lines(7)),
    (read_case(house, [m] * 683, top), lines(8)),
    (read_case(house, [m], 0), lines(6)),
])
expect("the place of 7", [
    (read_case(house, [closes]), lines(7, 0)),
    (read_case(house, [opens, m]), lines(7, 2)),
    (read_case(house, [m, closes]), lines(7, 1)),
])

# ---- refusals in order: each table, text and first number breaks one rule, and of two that are broken the earlier one is answered
layout, grammar, states = b"X" + house[1:], house[:9] + bytes([1]) + house[10:], house[:59] + bytes([1, 0]) + house[61:]
alone = [(layout, [m], 1, 2), (grammar, [m], 1, 3), (states, [m], 1, 4), (house, [4], 1, 6), (house, [m] * 2049, 1, 6), (house, [m], 0, 6)]
expect("refusals 2, 3, 4 and 6 alone", [(read_case(t, codes, first), lines(no)) for t, codes, first, no in alone])
sheets = {2: layout, 3: grammar, 4: states, 0: house}
both = bytearray(layout)
both[9] = 1
several = [(read_case(bytes(both), [m]), lines(2))]
both = bytearray(grammar)
both[59:61] = states[59:61]
several += [(read_case(bytes(both), [m]), lines(3))]
for no, sheet in sheets.items():
    for codes, first in (([4], 1), ([closes, 4], top), ([m] * 2049, top), ([m], 0)):
        several.append((read_case(sheet, codes, first), lines(no or 6)))
        several.append((read_case(sheet, codes, first, TREE - 1), lines(1, room="lent")))
        several.append((read_case(sheet, codes, first, TREE, ROOM - 1), lines(1, room="lent")))
several += [(read_case(house, [closes, 4]), lines(6)), (read_case(house, [m] * 683 + [0]), lines(6))]
expect("the first of several refusals", several)

# ---- the lent rows: one word short is 1 and leaves both as lent; longer rows stay as lent behind the stated words
ends = [(house, [m], 1, written([m])), (house, [closes], 1, lines(7)), (house, [m] * 683, 1, lines(8)), (house, [m], top, lines(9))]
ends += [(t, codes, first, lines(no)) for t, codes, first, no in alone]
rows = []
for sheet, codes, first, wanted in ends:
    for tree, room in ((TREE - 1, ROOM), (TREE, ROOM - 1), (0, 0), (TREE - 1, ROOM + 256), (6400, ROOM - 1)):
        rows.append((read_case(sheet, codes, first, tree, room), lines(1, room="lent")))
    for tree, room in ((TREE, ROOM), (TREE + 1, ROOM + 1), (6400, ROOM + 256)):
        rows.append((read_case(sheet, codes, first, tree, room), wanted))
expect("the lent rows after each answer", rows)

# ---- malformed input: a limit passed, a kind that is none, an input that breaks off
case = read_case(house, [m])
odd = [read_case(house, [m] * 2201), read_case(house, [m], 1, 6401), read_case(house, [m], 1, TREE, 16641), b"Q", case[:-1], case[:330], case[:3], case + b"R"]
said = [written([m]) + "input\n" if given == case + b"R" else "input\n" for given in odd]
tally.group("malformed input", said, [run(judge, given) for given in odd])

if build_second():
    given = b"".join(case for case, _ in every)
    tally.group("the second program on the same cases", [wanted for _, wanted in every], threes(run([second, "judge"], given)))
    made = subprocess.run([second, "cases", "4", "3000", "--tables", os.path.join(here, "tables")], capture_output=True).stdout
    given = b"".join(case for case in split(made) if case[:1] == b"R")
    tally.group("cases that the second program makes", threes(run([second, "judge"], given)), threes(run(judge, given)))
else:
    tally.group("the second program is built", [True], [False])
sys.exit(tally.end())
