"""The small program, byte for byte: document 01's example, inputs too short and too long, every refusal that an input can meet, texts of
several tables, and the stored vectors that fit its input; each also as the second program prints it."""
import os
import random
import sys

sys.path.insert(0, os.path.join(os.path.dirname(os.path.abspath(__file__)), "common"))
from cases import Tally, build_second, from_hex, here, run, second, table, vectors

program = [os.path.join(here, "target", "bin", "small_program")]
house = table("house.lrt")
m, opens, closes = 1, 2, 3
tally = Tally()


def given(sheet, codes, first=1):
    """The program's standard input."""
    return len(sheet).to_bytes(2, "big") + sheet + len(codes).to_bytes(2, "big") + bytes(codes) + first.to_bytes(4, "big")


def expect(what, pairs):
    """Runs inputs and compares what is printed."""
    tally.group(what, [wanted for _, wanted in pairs], [run(program, data) for data, _ in pairs])


example = given(house, [m])
expect("the example", [(example, "ok 4 5\n257 1 1\n1 2 1\n259 3 2\n258 4 4\n")])
cut = [example[:i] for i in (0, 1, 2, 3, 100, 321, 322, 323, 324, 325, len(example) - 1)]
long = [example + b"\0", example + example, given(house, [m] * 65535) + b"\0", given(bytes(65535), [m] * 65535) + b"\0", bytes(200000)]
expect("input too short", [(data, "no 0 0\n") for data in cut])
expect("input too long", [(data, "no 0 0\n") for data in long])
expect("refusals", [
    (given(b"", [m]), "no 2 0\n"),
    (given(house[:-1], [m]), "no 2 0\n"),
    (given(bytes(65535), [m] * 65535), "no 2 0\n"),
    (given(house[:9] + b"\1" + house[10:], [m]), "no 3 0\n"),
    (given(house[:59] + b"\1\0" + house[61:], [m]), "no 4 0\n"),
    (given(house, [m], 0), "no 6 0\n"),
    (given(house, [4]), "no 6 0\n"),
    (given(house, [m] * 2049), "no 6 0\n"),
    (given(house, [m] * 65535), "no 6 0\n"),
    (given(house, [closes]), "no 7 0\n"),
    (given(house, [opens, m]), "no 7 2\n"),
    (given(house, [m] * 682 + [closes]), "no 7 682\n"),
    (given(house, [m] * 683), "no 8 0\n"),
    (given(house, [m], 4294967292), "no 9 0\n"),
    (given(house, [], 4294967295), "no 9 0\n"),
])

# ---- beside the second program
pick = random.Random(4)
texts = [[], [m, m], [opens, closes], [m] * 682, [opens, closes] * 2 + [m] * 679, [opens] * 409 + [closes] * 409, [opens, m, m, closes] * 186]
same = [given(house, codes, first) for codes in texts for first in (1, 4294965000)]
same += [given(house, [pick.randint(1, 3) for _ in range(pick.randint(0, 12))], pick.choice([1, 77, 4294967280])) for _ in range(40)]
same += [given(table("house.canonical.lrt"), [m] * 683 + [closes]), given(table("minimal.lrt"), []), given(table("large.lrt"), [1, 2, 3])]
for _ in range(40):
    data = bytearray(example)
    data[pick.randrange(len(data))] = pick.randrange(256)
    same.append(bytes(data))
for v in vectors("read.jsonl"):
    codes = from_hex(v["codes"])
    if v["tree_len"] >= 6146 and v["room_len"] >= 16384 and all(c < 256 for c in codes):
        same.append(given(bytes.fromhex(v["table"]), codes, int(v["first"], 16)))
if build_second():
    tally.group("as the second program prints it", [run([second, "small"], data) for data in same], [run(program, data) for data in same])
else:
    tally.group("the second program is built", [True], [False])
sys.exit(tally.end())
