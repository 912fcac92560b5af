"""The worked examples of document 01, in its own words and with its own values, run on the library and on the second program. Those marked *
are proved as well (crates/theory/specs/Starred.antt); the others are shown by running alone."""
import os
import sys

sys.path.insert(0, os.path.join(os.path.dirname(os.path.abspath(__file__)), "common"))
from cases import CLOSES, M, OPENS, Tally, build_second, here, judge, number, read_case, run, second, table, update_case
from compare import answers, need_programs
from sheets import parts, sheet

house = table("house.lrt")
m, opens, closes = M, OPENS, CLOSES
nothing = [1, 2, 257, 1, 1]
one = [4, 5, 257, 1, 1, 1, 2, 1, 259, 3, 2, 258, 4, 4]
two = [7, 8, 257, 1, 1, 1, 2, 1, 259, 3, 2, 258, 4, 4, 1, 5, 1, 259, 6, 2, 258, 7, 7]
pair = [6, 7, 257, 1, 1, 2, 2, 1, 257, 3, 1, 3, 4, 1, 260, 5, 4, 258, 6, 6]
tally = Tally()


def row(words):
    return " ".join(["tree"] + [str(word) for word in words])


def numbered(old, kinds_and_sizes, numbers):
    """The written row for a tree whose numbers the document gives."""
    return row(old + [word for (kind, size), n in zip(kinds_and_sizes, numbers) for word in (kind, n, size)])


def checked(data):
    return b"T" + number(len(data)) + data


# the words of document 01; the case; how the lines of the answer begin
house_parts = parts(house)
defaults = sheet(*house_parts[:5], [[513 if w == 0 and 513 in actions else w for w in actions] for actions in house_parts[5]], *house_parts[6:])
accepted, refused = "room zero", "tree as lent"
bracketed = [(257, 1), (2, 1), (257, 1), (1, 1), (259, 2), (258, 4), (3, 1), (260, 7), (258, 9)]
single = [(257, 1), (1, 1), (259, 2), (258, 4)]
examples = [
    ("Merged (LALR) tables pass", checked(house), ["0"]),
    ("Default reductions fail 5", checked(defaults), ["4"]),
    ("682 m's: 2,047 nodes", read_case(house, [m] * 682), ["0 0", "tree 2047 2048 257 1 1", accepted]),
    ("683: refusal 8", read_case(house, [m] * 683), ["8 0 0 0 0 0 0", refused, accepted]),
    ("m with first number 4,294,967,291 is accepted", read_case(house, [m], 4294967291), ["0 0", "tree 4 4294967295 257 4294967291 1", accepted]),
    ("4,294,967,292 is 9", read_case(house, [m], 4294967292), ["9 0 0 0 0 0 0", refused, accepted]),
    ("* Nothing: 1 2, 257 1 1", read_case(house, []), ["0 0", row(nothing), accepted]),
    ("* m: 4 5, 257 1 1, 1 2 1, 259 3 2, 258 4 4; 1 token shift, 3 reductions", read_case(house, [m]), ["0 0 0 0 0 1 3", row(one), accepted]),
    ("* m m: 7 nodes, next 8", read_case(house, [m, m]), ["0 0", "tree 7 8", accepted]),
    ("* [ ]: 6 nodes, the bracket entry numbered 5, next 7", read_case(house, [opens, closes]),
     ["0 0", "tree 6 7 257 1 1 2 2 1 257 3 1 3 4 1 260 5", accepted]),
    ("* ]: 7 at 0", read_case(house, [closes]), ["7 0 0 0 0 0 0", refused, accepted]),
    ("* [ m: 7 at 2", read_case(house, [opens, m]), ["7 2 0 0 0 0 0", refused, accepted]),
    ("* m, no edits: same tree; left 1, right 1, whole 1, token 0, reductions 3", update_case(house, one), ["0 0 1 1 1 0 3", row(one), accepted]),
    ("* m, an m put in at 1: numbers 1 to 4 stand, then 5, 6, 7, next 8; left 1, right 1, whole 1, token 1, reductions 5, as afresh",
     update_case(house, one, [1, 0, 1], [m]), ["0 0 1 1 1 1 5", row(two), accepted]),
    ("* m m, first removed: 4 10, 257 8 1, 1 5 1, 259 6 2, 258 9 4", update_case(house, two, [0, 1, 0]),
     ["0 0", "tree 4 10 257 8 1 1 5 1 259 6 2 258 9 4", accepted]),
    ("* m, replaced by m: numbers 5 to 8", update_case(house, one, [0, 1, 1], [m]), ["0 0", numbered([4, 9], single, [5, 6, 7, 8]), accepted]),
    ("* [ ], an m put in at 1: 9 nodes numbered 7 2 8 9 10 11 4 12 13, next 14", update_case(house, pair, [1, 0, 1], [m]),
     ["0 0", numbered([9, 14], bracketed, [7, 2, 8, 9, 10, 11, 4, 12, 13]), accepted]),
]


def begins(said, wanted):
    """Whether each line begins as it has to; a line that names a whole row is that row."""
    lines = said.splitlines()
    return len(lines) == len(wanted) and all((line + " ").startswith(start + " ") for line, start in zip(lines, wanted))


need_programs(build_second)
t, n, p, s, _, _, _, states = house_parts
tally.group("Its merged table has 7 states and 17 items, 320 bytes", [(7, 17, 320)], [(s, sum(map(len, states)), len(house))])
for who, program in (("library", judge), ("second program", [second, "judge"])):
    told = answers(program, [case for _, case, _ in examples])
    wrong = [(words, said) for (words, _, wanted), said in zip(examples, told) if not begins(said, wanted)]
    tally.group(f"the examples on the {who}", [None] * len(examples), [None] * (len(examples) - len(wrong)) + wrong)

tally.group("the condition that the library names for default reductions", ["4\n5\n0\n"], [run(judge, b"C" + checked(defaults)[1:])])

# the small program
given = number(len(house))[2:] + house + b"\0\1" + bytes([m]) + number(1)
printed = "ok 4 5\n257 1 1\n1 2 1\n259 3 2\n258 4 4\n"
programs = [
    ("For m it prints whole", given, printed),
    ("Input too short prints no 0 0", given[:-1], "no 0 0\n"),
    ("Input too long prints no 0 0", given + b"\0", "no 0 0\n"),
]
for who, program in (("library", [os.path.join(here, "target", "bin", "small_program")]), ("second program", [second, "small"])):
    tally.group(f"the small program of the {who}", [wanted for _, _, wanted in programs], [run(program, data) for _, data, _ in programs])
for words, _, _ in examples + programs:
    print(f"  {words}")
sys.exit(tally.end())
