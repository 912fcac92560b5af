"""Wrong definitions are refused. Each tests/wrong/*.edit changes one place of a crate that has no theorem of its own; the crates
above it must then fail to check, at the place the edit names. (The kit's must-fail edits re-check only the edited crate.)

An edit: `file:` a path under crates/, `old:` and `new:` one line each (the old text stands there once), `at:` the file and the
declaration that must be refused; `crate:` what to check, theory where it is not said."""
import os
import re
import shutil
import subprocess
import sys
import tempfile
from concurrent.futures import ThreadPoolExecutor

here = os.path.dirname(os.path.dirname(os.path.abspath(__file__)))
folder = os.path.join(here, "tests", "wrong")


def field(text, name, default=None):
    found = re.search(rf"^{name}: (.*)$", text, re.M)
    return found[1] if found else default


def needs(crate):
    """The crate and those it stands on, with their lines of crates.txt."""
    lines = {}
    for line in open(os.path.join(here, "crates.txt"), encoding="utf-8"):
        line = line.split("#")[0].strip()
        if line:
            name, deps = line.split(":")
            lines[name.strip()] = deps.split()
    found, queue = {}, [crate]
    while queue:
        name = queue.pop()
        if name in lines and name not in found:
            found[name] = lines[name]
            queue += lines[name]
    return found


def tried(name):
    text = open(os.path.join(folder, name), encoding="utf-8").read()
    crate = field(text, "crate", "theory")
    at, declared = field(text, "at").split()
    with tempfile.TemporaryDirectory() as where:
        os.makedirs(os.path.join(where, "crates"))
        wanted = needs(crate)
        with open(os.path.join(where, "crates.txt"), "w", encoding="utf-8") as out:
            for one, deps in wanted.items():
                out.write(f"{one}: {' '.join(deps)}\n")
        for one in wanted:
            shutil.copytree(os.path.join(here, "crates", one), os.path.join(where, "crates", one), ignore=shutil.ignore_patterns("must-fail"))
        path = os.path.join(where, "crates", field(text, "file"))
        source = open(path, encoding="utf-8").read()
        old, new = field(text, "old"), field(text, "new")
        if source.count(old) != 1:
            return f"{name}: the old text stands {source.count(old)} times in {field(text, 'file')}"
        open(path, "w", encoding="utf-8").write(source.replace(old, new))
        run = subprocess.run(["rt", "check"], cwd=os.path.join(where, "crates", crate), capture_output=True, text=True, errors="replace", env={**os.environ, "RT_CUT": "0"})
        said = run.stdout + run.stderr
        if run.returncode == 0:
            return f"{name}: not refused"
        refused = [line for line in said.split("\n") if re.search(rf"{re.escape(at)}:\d+:\d+: error: `{re.escape(declared)}`", line)]
        if not refused:
            errors = [line for line in said.split("\n") if ": error" in line][:4]
            return f"{name}: refused, but not at {at} `{declared}`: " + " | ".join(errors)
        if "was not admitted" in refused[0]:
            return f"{name}: `{declared}` only follows from another refusal"
        return ""


names = sorted(n for n in os.listdir(folder) if n.endswith(".edit"))
with ThreadPoolExecutor(max_workers=os.cpu_count() or 1) as pool:
    results = list(pool.map(tried, names))
for name, why in zip(names, results):
    print(why or f"{name}: refused, as it must be")
bad = sum(1 for why in results if why)
print(f"{len(names) - bad} passed, {bad} failed")
sys.exit(1 if bad else 0)
