"""Small worlds tried whole, the library beside the second program: every change of one byte of two tables, and every cut; every text of at most
seven tokens of the house grammar; every edit, and every pair of small edits, of its short texts; changes of every word of some old trees."""
import itertools
import os
import sys

sys.path.insert(0, os.path.join(os.path.dirname(os.path.abspath(__file__)), "common"))
from cases import Tally, build_second, fresh, judge, list_case, number, read_case, second, table, update_case
from compare import Difference, cut, need_programs, said, smallest_difference

house, canonical, minimal = table("house.lrt"), table("house.canonical.lrt"), table("minimal.lrt")
tally = Tally()


def alike(what, cases):
    """Runs cases on both programs; a difference is shown small."""
    given = b"".join(cases)
    one, two = (cut(said(program, given, 600), cases) for program in (judge, [second, "judge"]))
    tally.group(what, one + ["no answer"] * (len(cases) - len(one)), two)
    wrong = [Difference(case, None, i, a, b) for i, (case, a, b) in enumerate(zip(cases, one, two)) if a != b]
    if wrong:
        print("\n".join(smallest_difference(wrong)))
    numbers = [answer.split()[0] for answer in one]
    print("  " + ", ".join(f"{n}: {numbers.count(n)}" for n in sorted(set(numbers))))


def table_case(data):
    return b"T" + number(len(data)) + data


def changes(data):
    """Every change of one byte of a table."""
    for at, byte in itertools.product(range(len(data)), range(256)):
        if byte != data[at]:
            yield table_case(data[:at] + bytes([byte]) + data[at + 1 :])


def edits_of(tokens, most, longest):
    """Every edit of a text of so many tokens that removes and puts in few, with every row of codes."""
    for place in range(tokens + 1):
        for removed in range(min(most, tokens - place) + 1):
            for count in range(longest + 1):
                for codes in itertools.product((1, 2, 3), repeat=count):
                    yield [place, removed, count], list(codes)


need_programs(build_second)
for name, data in (("house", house), ("minimal", minimal)):
    alike(f"every change of one byte of the {name} table", list(changes(data)))
    alike(f"the {name} table cut at every length", [table_case(data[:i]) for i in range(len(data) + 1)])
texts = [list(text) for length in range(8) for text in itertools.product((1, 2, 3), repeat=length)]
for name, data in (("house", house), ("canonical", canonical)):
    alike(f"every text of at most 7 tokens, {name} table", [read_case(data, text) for text in texts])


def matched(text):
    depth = [text[: i + 1].count(2) - text[: i + 1].count(3) for i in range(len(text))]
    return min(depth, default=0) >= 0 and (not text or depth[-1] == 0)


short = [text for text in texts if matched(text) and len(text) <= 4]
ones = [update_case(house, fresh(text), *edit) for text in short for edit in edits_of(len(text), 4, 2)]
alike(f"every edit of {len(short)} short texts that puts in at most two tokens", ones)
alike("their reading lists", [list_case(case) for case in ones])
pairs = [
    update_case(house, fresh(text), a[0] + b[0], a[1] + b[1])
    for text in short
    if len(text) < 4
    for a, b in itertools.product(edits_of(len(text), 2, 1), repeat=2)
]
alike("every pair of small edits of texts below 4 tokens, right or not", pairs)
trees = [fresh(text) for text in ([], [1], [2, 3], [1, 2, 1, 3])]
words = (0, 1, 2, 3, 4, 5, 255, 256, 257, 258, 259, 260, 261, 2048, 2049, 4294967295)
rows = [row[:i] + [word] + row[i + 1 :] for row in trees for i in range(len(row)) for word in words]
alike("every word of four old trees changed", [update_case(house, row, [0, 0, 1], [1]) for row in rows])
alike("four old trees cut at every length", [update_case(house, row[:i]) for row in trees for i in range(len(row) + 1)])
sys.exit(tally.end())
