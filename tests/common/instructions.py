"""Where a call's instructions go, counted by valgrind's callgrind. Parts of a call are found by differences: the same call, refused at a later
and later point, makes more and more of it. What the compiler keeps apart is counted below its function: the call itself, the table check and
the making of the list. Used by tools/bench."""
import functools
import os
import re
import subprocess
import tempfile

from cases import CLOSES, fresh, number, read_case, update_case
from rows import house

# Valgrind counts each byte of a block that the processor fills or copies in one instruction; with these, stores are counted instead.
tunables = "glibc.cpu.x86_rep_stosb_threshold=100000000:glibc.cpu.x86_rep_movsb_threshold=100000000"


def below(path):
    """For each function the instructions below its calls, over their number, by a callgrind file."""
    names, called, times, counts, costs = {}, None, 0, {}, {}
    for line in open(path, encoding="utf-8"):
        found = re.match(r"c?fn=\((\d+)\)(?: (.*))?", line)
        if found:
            if found.group(2):
                names[found.group(1)] = found.group(2)
            if line.startswith("c"):
                called = names[found.group(1)]
        elif line.startswith("calls="):
            times = int(line.split()[0][len("calls=") :])
        elif called is not None and re.match(r"[+\-*0-9]", line):
            counts[called] = counts.get(called, 0) + times
            costs[called] = costs.get(called, 0) + int(line.split()[-1])
            called = None
    return {name: costs[name] / counts[name] for name in costs}


def counted(valgrind, program, given, begins):
    """What callgrind counts of a program's run: all instructions, and those below each function, for each call of it."""
    with tempfile.NamedTemporaryFile() as out:
        command = [valgrind, "--tool=callgrind", f"--callgrind-out-file={out.name}"] + program
        done = subprocess.run(command, input=given, capture_output=True, env={**os.environ, "GLIBC_TUNABLES": tunables})
        if not done.stdout.startswith(begins):
            raise SystemExit(f"{program[0]}: {done.stdout[:40]!r} where {begins!r} is due")
        return int(re.search(rb"Collected : (\d+)", done.stderr).group(1)), below(out.name)


def of_second(valgrind, program, kind, case):
    """The instructions of one call of the second program: of four calls, less those of one, over three."""
    four, one = (counted(valgrind, program, kind + number(times) + case[1:], b"0 0 ")[0] for times in (4, 1))
    return (four - one) / 3


class Library:
    """The library's program under valgrind."""

    def __init__(self, valgrind, program):
        self.valgrind, self.program = valgrind, program

    @functools.lru_cache(maxsize=None)
    def call(self, case, begins):
        """The instructions of one call: all, those of the table check, those of the making of the list."""
        found = counted(self.valgrind, self.program, case, begins)[1]
        # the closure that the judge makes of the call, which has the call in it
        method = "read" if case.startswith(b"R") else "update"
        name = f"judge::fn::Rows::{method}::call_and_tell+FnMut::call_mut"
        if name not in found or "table::check_table" not in found:
            raise SystemExit(f"the compiler has not kept {name} and the table check apart")
        made = next((found[name] for name in found if name.startswith("edits::make_list")), None)
        return found[name], found["table::check_table"], made

    def update(self, row):
        """The parts of an update. It is refused for a tree of no nodes (5), for half an edit (6), for a last code that is no terminal (6), for
        a bracket behind the last token (7), and not at all."""
        old = fresh(row.codes)
        bare, checked, _ = self.call(update_case(house, [0] + old[1:], [0]), b"5 ")
        judged = self.call(update_case(house, old, [0]), b"6 ")[0]
        edits = self.call(row.case([0]), b"6 ")[0]
        moved, _, made = self.call(row.case([CLOSES]), b"7 ")
        whole = self.call(row.case(), b"0 0 ")[0]
        return whole, {
            "table": checked,
            "old tree": judged - bare,
            "edits": edits - judged,
            "list": made,
            "moves": moved - edits - (made or 0),
            "numbers": whole - moved,
            "room": bare - checked,
        }

    def reading(self, codes):
        """The parts of a fresh reading. It is refused for first number 0 (6), for a last code that is no terminal (6), for a bracket behind the
        last token (7), and not at all."""
        bare, checked, _ = self.call(read_case(house, codes, 0), b"6 ")
        text = self.call(read_case(house, codes + [0]), b"6 ")[0]
        moved = self.call(read_case(house, codes + [CLOSES]), b"7 ")[0]
        whole = self.call(read_case(house, codes), b"0 0 ")[0]
        parts = {"table": checked, "text": text - bare, "moves": moved - text}
        return whole, {**parts, "tree": whole - moved, "room": bare - checked}
