"""What the judge writes where standard output takes no more: each piece of a case's lines is tried, one that does not fit is lost, and the
run stops behind a case whose last piece was lost. Standard output is a full pipe of one page with a few bytes left, which never waits; a piece
goes into it whole or not at all."""
import fcntl
import os
import subprocess
import sys

sys.path.insert(0, os.path.join(os.path.dirname(os.path.abspath(__file__)), "common"))
from cases import M, Tally, fresh, judge, list_case, number, read_case, table, update_case

PAGE, SET_SIZE, GET_SIZE = 4096, 1031, 1032
house = table("house.lrt")
update = update_case(house, fresh([M, M]), [1, 0, 1], [M])
# a case, and the pieces that are written for it
check = b"T" + number(0), ["2", "\n"]
broken = house[:61] + bytes(2) + house[63:]
named = b"C" + number(len(broken)) + broken, ["4", "\n"] * 2 + ["0", "\n"]
refused = read_case(b"", []), ["2", *[" ", "0"] * 6, "\n", "tree as lent\n", "room zero\n"]
listed = list_case(update), ["list", " ", "3", "/", "4", " +", "1", " ", "5", "/", "2", "\n"]


def pieces(line):
    """The pieces of a line of numbers: each number, and each space before one."""
    return [piece for i, number in enumerate(line.split()) for piece in ([" ", number] if i else [number])]


def of_update():
    """The update's pieces, from what the judge writes where there is room: its lines are those of a case of kind U."""
    answer, tree, room = subprocess.run(judge, input=update, capture_output=True).stdout.decode().splitlines()
    return [*pieces(answer), "\n", *pieces(tree), "\n", room + "\n"]


def fits(cases, free):
    """What comes out where so many bytes are left."""
    out = ""
    for _, tried in cases:
        for piece in tried:
            last = len(out) + len(piece) <= free
            if last:
                out += piece
        if not last:
            break
    return out


def written(given, free):
    """What the judge writes, and its exit status."""
    reads, writes = os.pipe()
    fcntl.fcntl(writes, SET_SIZE, PAGE)
    os.set_blocking(writes, False)
    os.write(writes, b"#" * (fcntl.fcntl(writes, GET_SIZE) - free))
    status = subprocess.run(judge, input=given, stdout=writes).returncode
    os.close(writes)
    with os.fdopen(reads, "rb") as out:
        return out.read().lstrip(b"#").decode(), status


tally = Tally()
for name, case, most in (("a named condition", named, 14), ("a refusal", refused, 45), ("a list", listed, 45), ("an update", (update, of_update()), 160)):
    cases = [case, check, check]
    given = b"".join(lent for lent, _ in cases)
    whole = "".join("".join(tried) for _, tried in cases)
    tally.group(f"{name}, written whole", [whole], [subprocess.run(judge, input=given, capture_output=True).stdout.decode()])
    tally.group(f"{name}, where so many bytes are left", [(fits(cases, free), 0) for free in range(most)], [written(given, free) for free in range(most)])
sys.exit(tally.end())
