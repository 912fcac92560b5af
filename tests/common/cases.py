"""Cases for the program judge and the lines it prints for them, made from the stored vectors; shared by the tests of readings and updates."""
import json
import os
import struct
import subprocess

here = os.path.dirname(os.path.dirname(os.path.dirname(os.path.abspath(__file__))))
judge = [os.path.join(here, "target", "bin", "judge")]
built = os.path.join(here, "target", "second")
second = os.path.join(built, "release", "second")

TREE, ROOM = 6146, 16384
M, OPENS, CLOSES = 1, 2, 3
# the fields of each kind of case: b a length and bytes, w a length and words, n a number
FIELDS = {b"T": "b", b"R": "bwnnn", b"N": "nbwnnn", b"U": "bwwwnn", b"V": "nbwwwnn", b"L": "bwww"}


def table(name):
    """The bytes of a table to try."""
    return open(os.path.join(here, "tables", name), "rb").read()


def vectors(name):
    """The stored cases of one kind."""
    return [json.loads(line) for line in open(os.path.join(here, "vectors", name), encoding="utf-8")]


def number(n):
    return struct.pack(">I", n)


def words(row):
    """A row of 32-bit words behind its length."""
    return struct.pack(f">I{len(row)}I", len(row), *row)


def from_hex(digits):
    """A row of words, eight hex digits a word."""
    return [int(digits[i : i + 8], 16) for i in range(0, len(digits), 8)]


def read_case(sheet, codes, first=1, tree=TREE, room=ROOM):
    """A case of kind R."""
    return b"R" + number(len(sheet)) + sheet + words(codes) + number(first) + number(tree) + number(room)


def update_case(sheet, row, edits=(), put=(), tree=TREE, room=ROOM):
    """A case of kind U; `edits` is the row of edit words."""
    return b"U" + number(len(sheet)) + sheet + words(row) + words(edits) + words(put) + number(tree) + number(room)


def list_case(update):
    """The case of kind L for the reading list of a case of kind U."""
    return b"L" + update[1:-8]


def lines(no, place=0, counts=(0, 0, 0, 0, 0), tree=None, room="zero"):
    """What the judge prints for a reading or an update; `tree` is the row written, or None: as lent."""
    said = "tree as lent" if tree is None else " ".join(["tree"] + [str(w) for w in tree])
    return f"{' '.join(str(n) for n in (no, place, *counts))}\n{said}\nroom {'as lent' if room == 'lent' else room}\n"


def of_read(v):
    """A stored case of kind read: the judge's case, and the lines that it has to print."""
    e = v["expect"]
    tree = None if e["tree"] is None else from_hex(e["tree"])
    case = read_case(bytes.fromhex(v["table"]), from_hex(v["codes"]), int(v["first"], 16), v["tree_len"], v["room_len"])
    return case, lines(e["no"], e["place"], e["counts"], tree, e["room"])


def of_update(v):
    """A stored case of kind update: the judge's case, and the lines that it has to print."""
    e = v["expect"]
    tree = None if e["tree"] is None else from_hex(e["tree"])
    case = update_case(bytes.fromhex(v["table"]), from_hex(v["row"]), from_hex(v["edits"]), from_hex(v["codes"]), v["tree_len"], v["room_len"])
    return case, lines(e["no"], e["place"], e["counts"], tree, e["room"])


def split(cases):
    """The single cases of a row of them."""
    at, found = 0, []
    while at < len(cases):
        start = at
        at += 1
        for field in FIELDS[cases[start : start + 1]]:
            count = struct.unpack_from(">I", cases, at)[0]
            at += 4 + {"b": count, "w": 4 * count, "n": 0}[field]
        found.append(cases[start:at])
    return found


def nodes(codes):
    """The records of a text of the house grammar, by recursion on its brackets: kind and size in written order."""
    out, at = [], 0

    def walk():
        nonlocal at
        out.append((257, 1))
        size = 1
        while at < len(codes) and codes[at] != CLOSES:
            if codes[at] == M:
                out.extend([(M, 1), (259, 2)])
                at, entry = at + 1, 2
            else:
                out.append((OPENS, 1))
                at += 1
                inner = walk()
                out.extend([(CLOSES, 1), (260, inner + 3)])
                at, entry = at + 1, inner + 3
            size += entry + 1
            out.append((258, size))
        return size

    walk()
    return out


def row_of(records, numbers, after):
    """The row of a tree: its records' kinds and sizes with their numbers, and the next number."""
    row = [len(records), after]
    for (kind, size), number in zip(records, numbers):
        row += [kind, number, size]
    return row


def fresh(codes, first=1):
    """The row of a text of the house grammar, numbered upward."""
    records = nodes(codes)
    return row_of(records, range(first, first + len(records)), first + len(records))


def run(program, given):
    """What a program writes, as text."""
    return subprocess.run(program, input=given, capture_output=True).stdout.decode()


def build_second():
    """Builds the second program; false where it cannot be built."""
    where = {**os.environ, "CARGO_TARGET_DIR": built}
    try:
        done = subprocess.run(["cargo", "build", "--release", "--offline"], cwd=os.path.join(here, "second"), env=where, capture_output=True)
    except FileNotFoundError:
        return False
    return done.returncode == 0


class Tally:
    """Counts what passed and what failed, and says so a line a group."""

    def __init__(self):
        self.passed = self.failed = 0

    def group(self, what, wanted, got):
        """Compares two lists, item by item."""
        wrong = [i for i in range(max(len(wanted), len(got))) if wanted[i : i + 1] != got[i : i + 1]]
        self.passed += len(wanted) - min(len(wrong), len(wanted))
        self.failed += len(wrong)
        shown = "".join(f"\n  case {i}: {got[i : i + 1]!r:.300} for {wanted[i : i + 1]!r:.300}" for i in wrong[:3])
        print(f"{what}: {len(wanted) - min(len(wrong), len(wanted))} of {len(wanted)}{shown}")

    def end(self):
        """The last line of a test, and its exit status."""
        print(f"{self.passed} passed, {self.failed} failed")
        return 1 if self.failed or not self.passed else 0


def threes(text):
    """The judge's output, cut into its three lines a case."""
    cut = text.splitlines(keepends=True)
    return ["".join(cut[i : i + 3]) for i in range(0, len(cut), 3)]
