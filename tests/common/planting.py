"""A copy of the second program with one fault at a time, and the comparison with the library that has to catch it; shared by tools/plant and
its test."""
import os
import shutil
import subprocess

from cases import here, split
from compare import answers, cut, library, made, said
from shrink import smallest

seed, batch, batches = 1, 1000, 20


class Copy:
    """A copy of the second program's source, built anew after each change, without optimisation so that this is quick."""

    def __init__(self, where):
        self.where = where
        for name in ("src", "Cargo.toml", "Cargo.lock"):
            source = os.path.join(here, "second", name)
            (shutil.copytree if os.path.isdir(source) else shutil.copy)(source, os.path.join(where, name))
        self.program = [os.path.join(where, "target", "debug", "second"), "judge"]

    def build(self):
        """What the compiler says where it fails; nothing where it builds."""
        plain = {"DEBUG": "0", "OPT_LEVEL": "0", "OVERFLOW_CHECKS": "false", "DEBUG_ASSERTIONS": "false"}
        where = {**os.environ, "CARGO_TARGET_DIR": os.path.join(self.where, "target"), "CARGO_INCREMENTAL": "1"}
        where.update({f"CARGO_PROFILE_DEV_{name}": value for name, value in plain.items()})
        run = subprocess.run(["cargo", "build", "--offline"], cwd=self.where, env=where, capture_output=True, text=True, errors="replace")
        return "" if run.returncode == 0 else run.stderr

    def plant(self, file, old, new):
        """Builds the copy with one change, which is taken back in the source; what is wrong, or nothing."""
        path = os.path.join(self.where, "src", file)
        source = open(path, encoding="utf-8").read()
        if source.count(old) != 1:
            return f"the text to change stands {source.count(old)} times in {file}"
        try:
            open(path, "w", encoding="utf-8").write(source.replace(old, new))
            return self.build()
        finally:
            open(path, "w", encoding="utf-8").write(source)


class Made:
    """Batches of made cases with what the library answers, worked out once."""

    def __init__(self):
        self.kept = []

    def each(self):
        for at in range(batches):
            if at == len(self.kept):
                given = made(seed + at, batch)
                self.kept.append((given, split(given), said(library, given, 600)))
            yield self.kept[at]


class Caught:
    """After how many cases a program is caught, and a case that shows it, with both answers."""

    def __init__(self, cases, case, program):
        self.cases, self.case = cases, case
        self.one, self.two = answers(library, [case])[0], answers(program, [case])[0]


def caught(program, lots, seconds):
    """How a program is caught, its case made smaller for so many seconds; None where it is not."""

    def differ(cases):
        return [a != b for a, b in zip(answers(library, cases, 20), answers(program, cases, 20))]

    for at, (given, cases, told) in enumerate(lots.each()):
        again = said(program, given, 60)
        if again == told:
            continue
        one, two = cut(told, cases), cut(again, cases)
        first = next(i for i in range(len(cases)) if one[i : i + 1] != two[i : i + 1])
        differing = [cases[i] for i in range(min(len(one), len(two))) if one[i] != two[i]] or [cases[first]]
        return Caught(at * batch + first + 1, smallest(min(differing, key=len), differ, seconds), program)
    return None
