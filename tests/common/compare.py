"""The same cases through the library's judge and the second program's, and where they differ. Shared by tools/compare, tools/plant and the
tests of both."""
import os
import subprocess
import sys

from cases import here, judge, second, split
from showing import shown
from shrink import smallest

library, other = judge, [second, "judge"]
batch = 2000
kinds = {"T": "table", "R": "reading", "U": "update", "L": "reading list"}
once = {"N": "R", "V": "U"}
# the numbers that each kind answers; 10 never arises under the conditions, and a reading list is made and not read
numbers = {"T": "0 2 3 4", "R": "0 1 2 3 4 6 7 8 9", "U": "0 1 2 3 4 5 6 7 8 9", "L": "list 2 3 4 5 6"}


def made(seed, count):
    """Cases that the second program makes, the same for the same seed."""
    run = [second, "cases", str(seed), str(count), "--tables", os.path.join(here, "tables")]
    return subprocess.run(run, capture_output=True, check=True).stdout


def said(program, given, patience):
    """What a program writes until it ends; one that takes too long is ended."""
    try:
        return subprocess.run(program, input=given, stdout=subprocess.PIPE, stderr=subprocess.DEVNULL, timeout=patience).stdout.decode()
    except subprocess.TimeoutExpired as late:
        return (late.stdout or b"").decode()


def lines_of(case):
    """How many lines are answered to a case."""
    return 1 if case[:1] in b"TL" else 3


def cut(text, cases):
    """The answers to the first cases, as far as they are whole."""
    lines, at, found = text.splitlines(keepends=True), 0, []
    for case in cases:
        end = at + lines_of(case)
        if end > len(lines) or not lines[end - 1].endswith("\n"):
            break
        found.append("".join(lines[at:end]))
        at = end
    return found


def answers(program, cases, patience=120):
    """What a program answers to each case; `stopped` where it ends, or takes too long, before it has answered."""
    found = []
    while len(found) < len(cases):
        rest = cases[len(found) :]
        found += cut(said(program, b"".join(rest), patience), rest)
        if len(found) < len(cases):
            found.append("stopped\n")
    return found


class Covered:
    """How often each number was answered to each kind of case, and what `second spread` counts."""

    def __init__(self):
        self.met, self.shown = {}, {}

    def add(self, cases, told):
        for case, answer in zip(cases, told):
            kind = chr(case[0])
            key = once.get(kind, kind), answer.split(None, 1)[0]
            self.met[key] = self.met.get(key, 0) + 1

    def spread(self, given):
        """Counts what the cases show; this reads every case once more."""
        for line in subprocess.run([second, "spread"], input=given, capture_output=True, check=True).stdout.decode().splitlines():
            count, name = line.split(" ", 1)
            self.shown[name] = self.shown.get(name, 0) + int(count)

    def missing(self):
        """What ought to have come and did not, and answers that ought not to come at all."""
        wanted = [(kind, number) for kind in kinds for number in numbers[kind].split()]
        gone = [f"{kinds[kind]}: {number}" for kind, number in wanted if not self.met.get((kind, number))]
        strange = [f"{kinds[kind]}: {number} came" for kind, number in sorted(self.met.keys() - wanted)]
        return gone + strange + [name for name, count in self.shown.items() if not count]

    def rarest(self, most):
        """The things met least, with their counts."""
        return [f"{name} ({count})" for name, count in sorted(self.shown.items(), key=lambda pair: pair[1])[:most]]

    def table(self):
        """A line for each kind of case: how often each number was answered."""
        heads = ["0", "1", "2", "3", "4", "5", "6", "7", "8", "9", "list"]
        rows = [f"{'':18}" + "".join(f"{head:>8}" for head in heads)]
        for kind, name in kinds.items():
            cells = [self.met.get((kind, head), 0) for head in heads]
            rows.append(f"{name:18}" + "".join(f"{cell or '-':>8}" for cell in cells))
        return rows


class Difference:
    """Two answers to one case, with its place among others and the seed that they were made from, if there is one."""

    def __init__(self, case, seed, place, one, two):
        self.case, self.seed, self.place, self.one, self.two = case, seed, place, one, two


def differing(given, seed, covered, one=library, two=other):
    """The differences among the cases of one batch, which are counted."""
    cases = split(given)
    told, again = said(one, given, 600), said(two, given, 600)
    whole = cut(told, cases)
    if len(whole) == len(cases) and told == again:
        covered.add(cases, whole)
        return []
    told, again = answers(one, cases), answers(two, cases)
    covered.add(cases, told)
    return [Difference(case, seed, i, a, b) for i, (case, a, b) in enumerate(zip(cases, told, again)) if a != b]


def compare(seed, count, covered, progress=None):
    """Compares so many made cases, batch by batch; ends early with the first batch that has differences."""
    done = 0
    while done < count:
        given = made(seed, min(batch, count - done))
        covered.spread(given)
        found = differing(given, seed, covered)
        done += min(batch, count - done)
        if progress:
            progress(done)
        if found:
            return done, found
        seed += 1
    return done, []


def smallest_difference(found, one=library, two=other, seconds=60):
    """The smallest case that can be made of some differences, told in lines."""

    def differ(cases):
        return [a != b for a, b in zip(answers(one, cases, 20), answers(two, cases, 20))]

    begin = min(found, key=lambda difference: len(difference.case))
    made_of = f"seed {begin.seed}, case {begin.place} of it" if begin.seed else f"case {begin.place}"
    if not differ([begin.case])[0]:
        return [f"{made_of}: alone it is answered alike, the two differ behind the cases before it"] + shown(begin.case, begin.one, begin.two)
    case = smallest(begin.case, differ, seconds)
    lines = [f"{made_of}, {len(begin.case)} bytes, made {len(case)} bytes small"]
    return lines + shown(case, answers(one, [case])[0], answers(two, [case])[0])


def need_programs(build):
    """Ends the run where one of the two programs is not there."""
    if not os.path.exists(library[0]):
        sys.exit("target/bin/judge is not there: `sh tools/build judge` proves and builds it")
    if not build():
        sys.exit("the second program cannot be built: cargo is needed")
