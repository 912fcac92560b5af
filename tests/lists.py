"""The reading list that the library makes of an update, run through the program judge (kind L): every stored vector, and every edit, and
pair of edits, of some small trees. What is expected is worked out here by document 01's words; the second program makes its own list."""
import os
import sys

sys.path.insert(0, os.path.join(os.path.dirname(os.path.abspath(__file__)), "common"))
from cases import CLOSES, M, OPENS, Tally, build_second, fresh, from_hex, judge, list_case, of_update, run, second, table, update_case
from cases import vectors

house = table("house.lrt")
m, opens, closes = M, OPENS, CLOSES
tally = Tally()
cases, wanted = [], []


def reading_list(row, edits, put):
    """The line for a tree in order and edits in order: by the new text, whether a node's tokens all remain and stand side by side."""
    records = [row[i : i + 3] for i in range(2, 2 + 3 * row[0], 3)]
    spans, tokens = [], 0
    for at, (kind, _, size) in enumerate(records):
        first = tokens if size == 1 else spans[at + 1 - size][0]
        tokens += kind < 256
        spans.append((first, tokens))
    new, at, used = [], 0, 0
    for place, removed, count in zip(*[iter(edits)] * 3):
        new += list(range(at, place)) + [f"+{code}" for code in put[used : used + count]]
        at, used = place + removed, used + count
    new += range(at, tokens)
    where = {token: place for place, token in enumerate(new)}
    clean = [a < b and all(t in where for t in range(a, b)) and where[b - 1] - where[a] == b - 1 - a for a, b in spans]
    largest = {}
    for node in range(len(records)):
        if clean[node]:
            largest[spans[node][0]] = node
    parts, skip = ["list"], 0
    for token in new:
        if not isinstance(token, int):
            parts.append(token)
        elif token >= skip:
            node = largest[token]
            parts.append(f"{node}/{records[node][2]}")
            skip = spans[node][1]
    return " ".join(parts) + "\n"


def compare(what, pairs):
    """Runs lists and compares each line."""
    cases.extend(case for case, _ in pairs)
    wanted.extend(line for _, line in pairs)
    tally.group(what, [line for _, line in pairs], run(judge, b"".join(case for case, _ in pairs)).splitlines(keepends=True))


def of_vector(v):
    """A stored update as a case of kind L."""
    case, lines = of_update(v)
    no = lines.split()[0]
    if no in ("2", "3", "4", "5", "6"):
        return list_case(case), no + "\n"
    return list_case(case), reading_list(from_hex(v["row"]), from_hex(v["edits"]), from_hex(v["codes"]))


stored = vectors("update.jsonl")
compare("stored vectors", [of_vector(v) for v in stored if v["expect"]["no"] != 1])
# refusal 1 does not say what the others would be, and the list is lent no rows: these are compared with the second program alone
short = b"".join(list_case(of_update(v)[0]) for v in stored if v["expect"]["no"] == 1)


def edited(row, edits, put):
    return list_case(update_case(house, row, edits, put)), reading_list(row, edits, put)


# by document 01's examples
three = fresh([m, opens, m, closes])
compare("the lists of some edits", [
    (list_case(update_case(house, fresh([m]))), "list 3/4\n"),
    (list_case(update_case(house, fresh([m]), [1, 0, 1], [m])), "list 3/4 +1\n"),
    (list_case(update_case(house, fresh([m]), [0, 0, 1], [m])), "list +1 3/4\n"),
    (list_case(update_case(house, fresh([m, m]), [0, 1, 0])), "list 5/2\n"),
    (list_case(update_case(house, fresh([m, m]), [1, 0, 1], [m])), "list 3/4 +1 5/2\n"),
    (list_case(update_case(house, fresh([opens, closes]), [1, 0, 1], [m])), "list 1/1 +1 3/1\n"),
    (list_case(update_case(house, fresh([]))), "list\n"),
    (list_case(update_case(house, fresh([]), [0, 0, 2], [m, closes])), "list +1 +3\n"),
    (list_case(update_case(house, three, [2, 0, 1], [m])), "list 3/4 4/1 +1 8/4 9/1\n"),
    (list_case(update_case(house, three, [0, 4, 1], [m])), "list +1\n"),
    (list_case(update_case(house, three, [1, 0, 0, 2, 0, 0])), "list 11/12\n"),
])

texts = [[], [m], [m, m, m], [opens, closes], [opens, m, closes], [m, opens, m, m, closes, m]]
texts += [[opens, opens, closes, m, closes], [opens, closes] * 3]
for text in texts:
    n, row = len(text), fresh(text)
    singles = [(p, r, k) for p in range(n + 1) for r in range(n + 1 - p) for k in range(3)]
    compare(f"each edit of {n} tokens", [edited(row, edit, [m, closes][: edit[2]]) for edit in singles])
    few = [(p, r, k) for p, r, k in singles if r < 3 and k < 2]
    twos = [(a, b) for a in few for b in few if b[0] >= a[0] + a[1]]
    compare(f"each pair of edits of {n} tokens", [edited(row, a + b, [m, opens][: a[2] + b[2]]) for a, b in twos])
wide = fresh([opens, m, m, closes] * 180)
compare("edits of a long text", [
    edited(wide, [0, 720, 0], []),
    edited(wide, [0, 720, 720], [m] * 720),
    edited(wide, [p for place in range(721) for p in (place, 0, 1)], [m] * 721),
    edited(wide, [p for place in range(720) for p in (place, 1, 1)], [m] * 720),
    edited(wide, [p for place in range(0, 720, 7) for p in (place, 1, 0)], []),
    edited(wide, [0, 0, 0] * 3000 + [720, 0, 1], [m]),
])

# ---- malformed input: a limit passed, or an input that breaks off
whole = list_case(update_case(house, fresh([m]), [1, 0, 1], [m]))
odd = [whole[:-1], whole[:-9], whole[:200], whole[:1], whole + b"L", list_case(update_case(house, [0] * 8201))]
said = ["list 3/4 +1\ninput\n" if given == whole + b"L" else "input\n" for given in odd]
tally.group("malformed input", said, [run(judge, given) for given in odd])

if build_second():
    tally.group("stored vectors of refusal 1", run([second, "judge"], short).splitlines(), run(judge, short).splitlines())
    tally.group("the second program's lists", wanted, run([second, "judge"], b"".join(cases)).splitlines(keepends=True))
else:
    tally.group("the second program is built", [True], [False])
sys.exit(tally.end())
