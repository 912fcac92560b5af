"""Updating, run through the program judge: every stored vector, document 01's examples, each way in which an old tree or a list of edits can
be wrong, refusals in order where several hold at once, the lent rows after every answer, and a chain of random edits on one sheet. The
second program is run on the same cases, and the judge on cases that it makes."""
import os
import random
import subprocess
import sys

sys.path.insert(0, os.path.join(os.path.dirname(os.path.abspath(__file__)), "common"))
from cases import CLOSES, M, OPENS, ROOM, TREE, Tally, build_second, fresh, here, judge, lines, nodes, of_update, read_case, row_of
from cases import run, second, split, table, threes, update_case, vectors

house, canonical = table("house.lrt"), table("house.canonical.lrt")
m, opens, closes = M, OPENS, CLOSES
top = 4294967295
seed = 6
tally = Tally()
every = []


def expect(what, pairs):
    """Runs cases and compares all three lines of each."""
    every.extend(pairs)
    tally.group(what, [wanted for _, wanted in pairs], threes(run(judge, b"".join(case for case, _ in pairs))))


def refused(no, row, edits=(), put=(), sheet=house, place=0):
    return update_case(sheet, row, edits, put), lines(no, place)


def taken(counts, codes, numbers, after, row, edits=(), put=(), sheet=house):
    """An update of the house grammar to a text whose nodes have these numbers, written in order."""
    return update_case(sheet, row, edits, put), lines(0, 0, counts, row_of(nodes(codes), numbers, after))


def standing(k):
    """The counts where nothing is changed of k entries: each List is left-broken, since a List of nothing is read before it; each entry is
    shifted whole and right-broken to its last token, and two reductions build its Entry and its List anew."""
    return (k, k, k, 0, 1 + 2 * k)


def with_words(row, **words):
    """The row with some words changed: w0=.., w3=.."""
    row = list(row)
    for name, word in words.items():
        row[int(name[1:])] = word
    return row


expect("stored vectors", [of_update(v) for v in vectors("update.jsonl")])

# ---- document 01's examples, and the cases that are read wrongly with ease
pair = [opens, closes]
expect("the starred examples", [
    taken((1, 1, 1, 0, 3), [m], [1, 2, 3, 4], 5, fresh([m])),
    taken((1, 1, 1, 1, 5), [m, m], [1, 2, 3, 4, 5, 6, 7], 8, fresh([m]), [1, 0, 1], [m]),
    taken((0, 1, 1, 0, 3), [m], [8, 5, 6, 9], 10, fresh([m, m]), [0, 1, 0]),
    taken((0, 0, 0, 1, 3), [m], [5, 6, 7, 8], 9, fresh([m]), [0, 1, 1], [m]),
    taken((0, 0, 0, 3, 6), [opens, m, closes], [7, 2, 8, 9, 10, 11, 4, 12, 13], 14, fresh(pair), [1, 0, 1], [m]),
])
expect("kept numbers", [
    taken((1, 1, 1, 0, 3), [m], [1, 2, 3, 4], 8, fresh([m, m]), [1, 1, 0]),
    taken((0, 0, 0, 0, 1), [], [5], 6, fresh([m]), [0, 1, 0]),
    taken((0, 0, 0, 1, 3), [m], [2, 3, 4, 5], 6, fresh([]), [0, 0, 1], [m]),
    taken((0, 0, 0, 0, 1), [], [1], 2, fresh([])),
    taken((1, 1, 1, 1, 5), [m, m], [5, 6, 7, 8, 2, 3, 9], 10, fresh([m]), [0, 0, 1], [m]),
    taken((1, 1, 1, 0, 3), [opens, m, closes], range(1, 10), 10, fresh([opens, m, closes]), [1, 0, 0]),
    taken((0, 0, 0, 2, 4), pair, [12, 2, 13, 9, 14, 15], 16, fresh(pair + pair), [1, 2, 0]),
])
long = [opens] + [m] * 677 + pair + pair + [closes]
tally.group("its old tree has 2,047 nodes", [2047], [len(nodes(long))])
around = [0, 0, 1, 683, 0, 1]
expect("the room of a whole shift is judged after its right-breaks", [
    refused(7, fresh(long), around, [m, closes], canonical, 684),
    refused(8, fresh(long), around, [m, closes]),
])
expect("at the limit of nodes", [
    refused(8, fresh([m] * 682), [682, 0, 1], [m]),
    refused(8, fresh([m] * 682), [0, 0, 1], [m]),
    refused(7, fresh([m] * 682), [682, 0, 1], [closes], place=682),
    taken((0, 0, 0, 0, 1), [], [2048], 2049, fresh([m] * 682), [0, 682, 0]),
    taken((0, 0, 0, 682, 1365), [m] * 682, range(2, 2049), 2049, fresh([]), [0, 0, 682], [m] * 682),
])


def sheet_of(terminals, nonterminals, productions, actions, gotos, items):
    """The bytes of a table sheet."""
    out = b"LRT" + bytes([0, 1, terminals, nonterminals, len(productions), len(actions)])
    for left, right in productions:
        out += bytes([left, len(right)] + right + [0] * (8 - len(right)))
    for row in actions:
        out += b"".join(word.to_bytes(2, "big") for word in row)
    out += b"".join(bytes(row) for row in gotos)
    for state in items:
        out += len(state).to_bytes(2, "big") + b"".join(bytes([p, d]) + (1).to_bytes(8, "big") for p, d in state)
    return out


# S: a B; B: C D; C and D: nothing. The piece C D without tokens is taken off as one.
none = 255
hollow = sheet_of(
    2, 5, [(0, [129]), (1, [1, 130]), (2, [131, 132]), (3, []), (4, [])],
    [[0, 258], [1, 0], [515, 0], [513, 0], [516, 0], [514, 0]],
    [[none, 1, none, none, none], [none] * 5, [none, none, 3, 4, none], [none] * 5, [none] * 4 + [5], [none] * 5],
    [[(0, 0), (1, 0)], [(0, 1)], [(1, 1), (2, 0), (3, 0)], [(1, 2)], [(2, 1), (4, 0)], [(2, 2)]],
)
tree = [5, 6, 1, 1, 1, 259, 2, 1, 260, 3, 1, 258, 4, 3, 257, 5, 5]
expect("a piece without tokens is taken off by one right-break", [(update_case(hollow, tree), lines(0, 0, (0, 2, 1, 0, 4), tree))])

# ---- an old tree that is not in order, each part of it broken alone
codes = [opens, m, closes, m]
old = fresh(codes)
records = nodes(codes)
same = lines(0, 0, standing(2), old)
numbers = range(1, 100)
root = 2 + 3 * (len(records) - 1)
tally.group("the tree that is broken below", [[257, 2, 257, 1, 259, 258, 3, 260, 258, 1, 259, 258]], [[kind for kind, _ in records]])
entry = [(257, 1), (opens, 1), (257, 1), (260, 3), (258, 5)]
child = [(257, 1), (opens, 1), (257, 1), (m, 1), (260, 4), (258, 6)]
broken = {
    "count 0": with_words(old, w0=0),
    "count one less": with_words(old, w0=old[0] - 1),
    "2,049 nodes": fresh(pair + [m] * 681),
    "no words": [],
    "one word": [1],
    "two words": [1, 2],
    "one word short": old[:-1],
    "three words short": old[:-3],
    "a token's size": with_words(old, w7=2),
    "a node's size": with_words(old, w25=6),
    "the root's size": with_words(old, **{f"w{root + 2}": 11}),
    "a size of 0": with_words(old, w4=0),
    "a child too few": row_of(entry, numbers, 100),
    "a child of another symbol": row_of(child, numbers, 100),
    "a child too many": row_of([(257, 1), (257, 1), (m, 1), (259, 2), (258, 5)], numbers, 100),
    "production 0": row_of(records + [(256, len(records) + 1)], numbers, 100),
    "a production that is none": with_words(old, **{f"w{root}": 261}),
    "token 0": with_words(old, w11=0),
    "token T": with_words(old, w11=4),
    "kind 255": with_words(old, w11=255),
    "kind 4,294,967,295": with_words(old, w11=top),
    "a root that is not the start": row_of([(m, 1), (259, 2)], numbers, 100),
    "a token alone": row_of([(m, 1)], numbers, 100),
    "two roots": row_of(nodes([m]) + nodes([m]), numbers, 100),
    "number 0": with_words(old, w3=0),
    "a number that is the next": with_words(old, w3=old[1]),
    "a number above the next": with_words(old, w3=top),
    "next number 0": with_words(old, w1=0),
    "next number below the largest": with_words(old, w1=old[1] - 1),
    "two equal numbers side by side": with_words(old, w6=1),
    "two equal numbers far apart": with_words(old, **{f"w{root + 1}": 1}),
}
tally.group("the tree of 2,049 nodes", [2049], [broken["2,049 nodes"][0]])
expect("the tree that is broken, whole", [(update_case(house, old), same)])
expect("an old tree not in order", [refused(5, row) for row in broken.values()])
lists = ([0, 0, 1], [m]), ([7], [9])
expect("an old tree not in order, and edits", [refused(5, row, edits, put) for row in broken.values() for edits, put in lists])
shuffled = [7, 3, 12, 1, 9, 2, 11, 4, 10, 5, 8, 6]
anew = row_of(records, shuffled, top)
behind = [[0], [top] * 5, old[2:], list(range(5800))]
expect("words beyond the tree", [(update_case(house, old + more), same) for more in behind])
expect("numbers in any order", [(update_case(house, anew), lines(0, 0, standing(2), anew))])
full = pair + pair + [m] * 679
expect("an old tree of 2,048 nodes", [taken(standing(681), full, range(1, 2049), 2049, fresh(full))])
dice = random.Random(seed)
mixed = dice.sample(range(1, top), 2048)
expect("its numbers in any order", [taken(standing(681), full, mixed, top, row_of(nodes(full), mixed, top))])
pairs = [(0, 2047), (2047, 0), (0, 1), (1023, 1024), (512, 1536)] + [dice.sample(range(2048), 2) for _ in range(40)]
twice = [mixed[:i] + [mixed[j]] + mixed[i + 1 :] for i, j in pairs]
expect("two of its numbers equal", [refused(5, row_of(nodes(full), numbers, top)) for numbers in twice])
spans = [range(first, first + 2048 * step, step) for first, step in ((1, 1), (1, 256), (7, 65536), (1, 2097151), (63488, 1), (63489, 1), (63490, 1))]
spans = [(dice.sample(span, 2048), span[-1] + 1) for span in spans]
expect("its numbers alike in some digits", [taken(standing(681), full, numbers, after, row_of(nodes(full), numbers, after)) for numbers, after in spans])
expect("the largest of them the next number", [refused(5, row_of(nodes(full), numbers, after - 1)) for numbers, after in spans])

# ---- edits: their rules
three = fresh([m, m, m])
rules = {
    "one word": ([0], []),
    "two words": ([0, 0], []),
    "a record and a word": ([0, 0, 0, 1], []),
    "a record and two words": ([0, 0, 1, 1, 0], [m]),
    "a place below the one before": ([1, 0, 0, 0, 0, 0], []),
    "a place among the removed": ([0, 2, 0, 1, 0, 0], []),
    "a place at one that removed": ([1, 1, 0, 1, 0, 1], [m]),
    "a place beyond the text": ([4, 0, 0], []),
    "removals beyond the text": ([1, 3, 0], []),
    "removals of two beyond the text": ([0, 2, 0, 2, 2, 0], []),
    "a code too many": ([0, 0, 1], [m, m]),
    "a code, and no edit": ([], [m]),
    "a code too few": ([0, 0, 2], [m]),
    "no code": ([0, 0, 1], []),
    "code 0": ([0, 0, 1], [0]),
    "code T": ([0, 0, 1], [4]),
    "code 4,294,967,295": ([0, 0, 2], [m, top]),
    "place and removals that wrap to 1": ([top, 2, 0], []),
    "place and removals that wrap to 0": ([1, top, 0], []),
    "puts that wrap to 1": ([0, 0, top, 0, 0, 2], [m]),
    "puts that wrap to 0": ([0, 0, top, 1, 0, 1], []),
    "removals that wrap": ([0, top, 0, 1, 1, 0], []),
}
expect("edits that break a rule", [refused(6, three, edits, put) for edits, put in rules.values()])
many = fresh([m] * 682)
expect("2,048 tokens result, or more", [
    refused(8, many, [682, 0, 1366], [m] * 1366),
    refused(6, many, [682, 0, 1367], [m] * 1367),
    refused(8, many, [0, 1, 1367], [m] * 1367),
    refused(6, many, [0, 1, 1368], [m] * 1368),
    refused(6, many, [0, 682, 2049], [m] * 2049),
    refused(8, many, [0, 682, 2048], [m] * 2048),
])
whole = taken(standing(3), [m] * 3, range(1, 11), 11, three)
nothings = [[0, 0, 0], [3, 0, 0], [0, 0, 0] * 4100, [p for place in range(4) for p in [place, 0, 0] * 1025]]
expect("edits of nothing", [(update_case(house, three, edits), whole[1]) for edits in nothings])
replaced = taken((1, 1, 1, 1, 5), [m, m], [1, 2, 3, 4, 8, 9, 10], 11, fresh([m, m]), [1, 1, 1], [m])
expect("edits that come to the same", [
    replaced,
    (update_case(house, fresh([m, m]), [1, 1, 0, 2, 0, 1], [m]), replaced[1]),
    (update_case(house, fresh([m, m]), [1, 0, 0, 1, 1, 0, 2, 0, 0, 2, 0, 1, 2, 0, 0], [m]), replaced[1]),
    (update_case(house, fresh([m, m]), [1, 0, 1, 1, 1, 0], [m]), replaced[1]),
])

# ---- numbers near the end of 32 bits
one = fresh([m])
expect("at the limit of numbers", [
    taken((1, 1, 1, 1, 5), [m, m], [1, 2, 3, 4, top - 3, top - 2, top - 1], top, with_words(one, w1=top - 3), [1, 0, 1], [m]),
    refused(9, with_words(one, w1=top - 2), [1, 0, 1], [m]),
    taken((1, 1, 1, 0, 3), [m], [1, 2, 3, 4], top, with_words(one, w1=top)),
    refused(7, with_words(one, w1=top), [0, 0, 1], [closes]),
    refused(9, with_words(one, w1=top), [0, 1, 0]),
])

# ---- refusals in order, and the lent rows
layout, grammar, states = b"X" + house[1:], house[:9] + bytes([1]) + house[10:], house[:59] + bytes([1, 0]) + house[61:]
sheets, trees = {2: layout, 3: grammar, 4: states, 0: house}, {5: broken["number 0"], 0: three}
lists = {6: ([9], []), 7: ([0, 0, 1], [closes])}
several = []
for table_no, sheet in sheets.items():
    for tree_no, row in trees.items():
        for list_no, (edits, put) in lists.items():
            no = table_no or tree_no or list_no
            several.append((update_case(sheet, row, edits, put), lines(no)))
            for tree, room in ((TREE - 1, ROOM), (TREE, ROOM - 1), (0, 0)):
                several.append((update_case(sheet, row, edits, put, tree, room), lines(1, room="lent")))
both = bytearray(layout)
both[9] = 1
several.append((update_case(bytes(both), three), lines(2)))
both = bytearray(grammar)
both[59:61] = states[59:61]
several.append((update_case(bytes(both), three), lines(3)))
several.append(refused(6, with_words(three, w1=top), [0, 0, 1], [4]))
several.append(refused(5, with_words(one, w1=4), [0]))
expect("the first of several refusals", several)

ends = {
    0: (house, three, [], [], whole[1]),
    2: (layout, three, [], [], lines(2)),
    3: (grammar, three, [], [], lines(3)),
    4: (states, three, [], [], lines(4)),
    5: (house, trees[5], [], [], lines(5)),
    6: (house, three, [9], [], lines(6)),
    7: (house, three, [2, 0, 1], [closes], lines(7, 2)),
    8: (house, many, [682, 0, 1], [m], lines(8)),
    9: (house, with_words(three, w1=top), [0, 1, 0], [], lines(9)),
}
rows = []
for sheet, row, edits, put, wanted in ends.values():
    for tree, room in ((TREE - 1, ROOM), (TREE, ROOM - 1), (0, 0), (TREE - 1, ROOM + 256), (6400, ROOM - 1)):
        rows.append((update_case(sheet, row, edits, put, tree, room), lines(1, room="lent")))
    for tree, room in ((TREE, ROOM), (TREE + 1, ROOM + 1), (6400, ROOM + 256)):
        rows.append((update_case(sheet, row, edits, put, tree, room), wanted))
expect("the lent rows after each answer", rows)

# ---- malformed input: a limit passed, or an input that breaks off
case = update_case(house, three)
odd = [update_case(house, [0] * 8201), update_case(house, three, [0] * 12301), update_case(house, three, [], [m] * 2201)]
odd += [update_case(house, three, [], [], 6401), update_case(house, three, [], [], TREE, 16641), case[:-1], case[:-9], case[:400], case[:3]]
tally.group("malformed input", ["input\n"] * len(odd), [run(judge, given) for given in odd])
timed = b"V" + (3).to_bytes(4, "big") + case[1:]
tally.group("a call made three times", [whole[1]] * 2, [run(judge, timed), run(judge, b"V" + bytes(4) + case[1:])])


# ---- a chain: random edits in a row on one sheet, each result fed to the next
class Talk:
    """The judge, asked case by case."""

    def __init__(self):
        self.run = subprocess.Popen(judge, stdin=subprocess.PIPE, stdout=subprocess.PIPE)

    def ask(self, case):
        self.run.stdin.write(case)
        self.run.stdin.flush()
        return [self.run.stdout.readline().decode().split() for _ in range(3)]

    def end(self):
        self.run.stdin.close()
        self.run.wait()


def matching(text, at):
    """Where the bracket that opens at a place is closed."""
    depth = 0
    for place in range(at, len(text)):
        depth += {opens: 1, closes: -1}.get(text[place], 0)
        if depth == 0:
            return place


def random_edit(text, dice):
    """An edit that keeps the grammar, or now and then a loose one: places removed, and what is put in before places."""
    at = dice.randrange(len(text) + 1)
    kind = dice.choice(["put", "put", "pair", "wrap", "remove", "remove", "unwrap", "replace", "nothing", "loose"])
    if kind == "put" and len(text) < 150:
        return [(at, 0, [m] * dice.randint(1, 4))]
    if kind == "pair" and len(text) < 150:
        return [(at, 0, [opens] + [m] * dice.randint(0, 2) + [closes])]
    if kind == "wrap" and len(text) < 150 and at < len(text) and text[at] != closes:
        end = at if text[at] == m else matching(text, at)
        return [(at, 0, [opens]), (end + 1, 0, [closes])]
    if kind == "remove" and at < len(text) and text[at] != closes:
        end = at if text[at] == m else matching(text, at)
        return [(at, end + 1 - at, [])]
    if kind == "unwrap" and at < len(text) and text[at] == opens:
        return [(at, 1, []), (matching(text, at), 1, [])]
    if kind == "replace" and at < len(text):
        return [(at, 1, [text[at]])]
    if kind == "loose" and dice.random() < 0.3:
        return [(at, min(1, len(text) - at), [dice.choice([m, opens, closes])])]
    return [(at, 0, [])]


dice = random.Random(seed)
row, gone, chain, faults, steps, refusals = fresh([]), set(), [], [], 0, 0
talk = Talk()
while steps < 1000:
    text = [kind for kind in row[2::3] if kind < 256]
    edits = random_edit(text, dice)
    words, put, after, at = [], [], [], 0
    own = [row[i + 1] for i in range(2, len(row), 3) if row[i] < 256]
    for place, removed, codes in edits:
        after += [(text[i], own[i]) for i in range(at, place)] + [(code, None) for code in codes]
        words, put, at = words + [place, removed, len(codes)], put + codes, place + removed
    after += [(text[i], own[i]) for i in range(at, len(text))]
    case = update_case(house, row, words, put)
    answer, said, room = talk.ask(case)
    chain.append((case, " ".join(answer) + "\n" + " ".join(said) + "\n" + " ".join(room) + "\n"))
    afresh = talk.ask(read_case(house, [code for code, _ in after]))
    if answer[:2] != afresh[0][:2] or room != ["room", "zero"]:
        faults.append((steps, "another answer than afresh", answer, afresh[0]))
    if answer[0] != "0":
        refusals += 1
        continue
    steps += 1
    new, read = [int(w) for w in said[1:]], [int(w) for w in afresh[1][1:]]
    before, now = set(row[3::3]), set(new[3::3])
    if new[2::3] != read[2::3] or new[4::3] != read[4::3]:
        faults.append((steps, "another shape than afresh"))
    tokens = [new[i + 1] for i in range(2, len(new), 3) if new[i] < 256]
    if any(number != kept for number, (_, kept) in zip(tokens, after) if kept is not None):
        faults.append((steps, "a token that remains has another number"))
    if any(number < row[1] for number, (_, kept) in zip(tokens, after) if kept is None):
        faults.append((steps, "an inserted token has an old number"))
    if len(now) != new[0] or new[1] != row[1] + len(now - before) or not now - before == set(range(row[1], new[1])):
        faults.append((steps, "new numbers are not the next ones"))
    if now & gone:
        faults.append((steps, "a number is back", sorted(now & gone)))
    gone, row = gone | before - now, new
talk.end()
print(f"seed {seed}: {steps} edits in a row, {refusals} more refused, {len(gone)} numbers gone, next number {row[1]}")
tally.group("a chain of edits", [[], True], [faults, refusals > 0 and len(gone) > 1000])

if build_second():
    every += chain
    given = b"".join(case for case, _ in every)
    tally.group("the second program on the same cases", [wanted for _, wanted in every], threes(run([second, "judge"], given)))
    made = subprocess.run([second, "cases", str(seed), "9000", "--tables", os.path.join(here, "tables")], capture_output=True).stdout
    given = b"".join(case for case in split(made) if case[:1] == b"U")
    print(f"seed {seed}:")
    tally.group("cases that the second program makes", threes(run([second, "judge"], given)), threes(run(judge, given)))
else:
    tally.group("the second program is built", [True], [False])
sys.exit(tally.end())
