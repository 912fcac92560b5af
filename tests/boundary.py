"""The boundary: the static library linked into C and into the Rust wrapper. The header's examples and the example program are compiled, run
and compared; the wrapper runs its own tests and every stored vector. The archive links only into x86-64 programs: on another machine the C is
compiled and not linked, and what stands in for the rest is said."""
import os
import platform
import re
import subprocess
import sys
import tempfile

sys.path.insert(0, os.path.join(os.path.dirname(os.path.abspath(__file__)), "common"))
from cases import Tally, here, judge, number, of_read, of_update, run, threes, vectors

archive = os.path.join(here, "target", "staticlib", "libboundary.a")
refusals = "ACCEPTED SMALL LAYOUT GRAMMAR STATES OLD_TREE TEXT NO_ACTION NO_ROOM NO_NUMBER NO_GOTO"
fixed = {"BLENKYSNOW_" + name: no for no, name in enumerate(refusals.split())}
fixed |= {"sizeof(struct blenkysnow_broken)": 8, "sizeof(struct blenkysnow_told)": 24, "sizeof(struct blenkysnow_edit)": 12}
fixed |= {"BLENKYSNOW_TREE_WORDS": 6146, "BLENKYSNOW_ROOM_WORDS": 16384, "BLENKYSNOW_WORDS_OF(2048)": 6146, "BLENKYSNOW_HOUSE_BYTES": 320}
fixed |= {"BLENKYSNOW_SHEET_BYTES": 9 + 10 * 200 + 2 * 200 * 64 + 200 * 64 + 2 * 200 + 10 * 2400}
fixed |= {"BLENKYSNOW_MOST_NODES": 2048, "BLENKYSNOW_MOST_TOKENS": 2048}
counts = "left_breaks right_breaks whole_shifts token_shifts reductions"
for struct, fields in ("broken", "condition state"), ("told", "place " + counts), ("edit", "place removed put_in"):
    fixed |= {f"offsetof(struct blenkysnow_{struct}, {field})": 4 * i for i, field in enumerate(fields.split())}
tally = Tally()
scratch = tempfile.TemporaryDirectory()


def text(path):
    """A file of the repository."""
    return open(os.path.join(here, path), encoding="utf-8").read()


header = text("include/blenkysnow.h")


def called(command, **more):
    """A command's exit status and all that it prints."""
    try:
        done = subprocess.run(command, cwd=here, capture_output=True, text=True, errors="replace", **more)
    except FileNotFoundError:
        return 127, f"{command[0]} is not here\n"
    return done.returncode, done.stdout + done.stderr


def gcc(*rest):
    return called(["gcc", "-std=c99", "-pedantic", "-Wall", "-Wextra", "-Werror", "-O2", "-I", "include", *rest])


def compiled(source, *args):
    """Compiles a C program against the archive and runs it: its exit status and what it prints."""
    program = os.path.join(scratch.name, "program")
    status, said = gcc(source, archive, "-o", program)
    return called([program, *args]) if status == 0 else (status, said)


def written(name, program):
    """A file of the scratch folder."""
    path = os.path.join(scratch.name, name)
    with open(path, "w", encoding="utf-8") as file:
        file.write(program)
    return path


def examples():
    """The example above each function of the header, by the function's name: the program and what it prints."""
    found = {}
    for comment, name in re.findall(r"/\*((?:(?!\*/).)*)\*/\n(?:uint32_t|void) (\w+)\(", header, re.S):
        lines = [line.removeprefix(" *").removeprefix("     ") for line in comment.split("\n")]
        if " Example:" in lines and " It prints:" in lines:
            first, second = lines.index(" Example:"), lines.index(" It prints:")
            found[name] = "\n".join(lines[first + 1 : second]), "\n".join(lines[second + 1 :]).strip() + "\n"
    return found


def declared():
    """The functions that the header declares."""
    return set(re.findall(r"\b(blenkysnow_\w+)\(", re.sub(r"/\*.*?\*/", "", header, flags=re.S)))


def broken(printed):
    """The answers of kind C, a table each: the number, and with 4 the condition and the state."""
    said, found = printed.split(), []
    while said:
        many = 3 if said[0] == "4" else 1
        found, said = [*found, said[:many]], said[many:]
    return found


def wrapper():
    """The wrapper: its own tests, and the judge's cases through it."""
    where = {**os.environ, "CARGO_TARGET_DIR": os.path.join(here, "target", "wrapper"), "BLENKYSNOW_LIB": os.path.dirname(archive)}
    manifest = ["--release", "--offline", "--manifest-path", "wrapper/Cargo.toml"]
    status, said = called(["cargo", "test", *manifest], env=where)
    tests = re.findall(r"^test .* \.\.\. (\w+)$", said, re.M)
    tally.group("the wrapper's own tests", ["ok"] * len(tests) or ["tests"], tests)
    status, more = called(["cargo", "build", "--examples", *manifest], env=where)
    tally.group("the wrapper's examples are built", [0], [status])
    if status:
        print(said[-2000:], more[-2000:])
        return
    built = os.path.join(where["CARGO_TARGET_DIR"], "release", "examples")
    picture = re.findall(r"^```\n\$ cargo run [^\n]* --example weights\n(.*?)^```$", text("docs/USERS.md"), re.M | re.S)
    tally.group("the weights of docs/USERS.md", picture or ["a picture"], [run([os.path.join(built, "weights")], b"")])
    program = [os.path.join(built, "judge")]
    tables = vectors("table.jsonl")
    cases = [number(len(t)) + t for t in (bytes.fromhex(v["table"]) for v in tables)]
    answers = run(program, b"".join(b"T" + case for case in cases)).split()
    tally.group("tables of the stored vectors", [str(v["expect"]["no"]) for v in tables], answers)
    named = b"".join(b"C" + case for case in cases)
    tally.group("conditions and states as the judge names them", broken(run(judge, named)), broken(run(program, named)))
    readings, updates = [of_read(v) for v in vectors("read.jsonl")], [of_update(v) for v in vectors("update.jsonl")]
    whole = [len(v["edits"]) % 24 == 0 for v in vectors("update.jsonl")]
    structs = [(b"E" + case[1:], wanted) for (case, wanted), all_three in zip(updates, whole) if all_three]
    for what, pairs in ("readings", readings), ("updates", updates), ("updates, edits as structs,", structs):
        given = b"".join(case for case, _ in pairs)
        tally.group(f"{what} of the stored vectors", [wanted for _, wanted in pairs], threes(run(program, given)))


drawn = called([sys.executable, "tools/show", "m [ m m ]", "3", "0", "m"])
shown = text("examples/update.txt")
tally.group("the example's trees as the judge makes them", [(0, shown)], [drawn])
names = declared()
found = examples()
tally.group("each function of the header has an example", sorted(names), sorted(found))
exported = set(re.findall(r'^pub extern "C" fn (\w+)', text("crates/boundary_c/src/lib.rt"), re.M))
library = set(re.findall(r'^pub extern "C" fn (\w+)', text("crates/boundary/src/lib.rt"), re.M))
tally.group("the static library exports what the crate boundary has", sorted(library), sorted(exported))
tally.group("the header declares what the crate exports", sorted(exported), sorted(names))
tally.group("so does the wrapper", sorted(exported), sorted(set(re.findall(r"\bfn (blenkysnow_\w+)", text("wrapper/src/boundary.rs")))))
sources = {name: written(name + ".c", program) for name, (program, _) in found.items()}

status, said = called(["sh", "tools/build", "boundary"])
tally.group("the static library is proved and built", [0], [status])
if status:
    print(said[-2000:])

if platform.machine() == "x86_64":
    symbols = re.findall(r" T (\S+)$", called(["nm", "-g", archive])[1], re.M)
    tally.group("the archive defines them and no more", sorted(exported), sorted(symbols))
    tally.group("the header's examples", [(0, prints) for _, prints in found.values()], [compiled(source) for source in sources.values()])
    program = "#include <stdio.h>\n#include \"blenkysnow.h\"\n\nint main(void)\n{\n"
    program += "".join(f'    printf("%d\\n", (int)({value}));\n' for value in fixed) + "    return 0;\n}\n"
    status, said = compiled(written("fixed.c", program))
    tally.group("structs and constants of the header", [f"{value}" for value in fixed.values()], said.splitlines())
    tally.group("the example program", [(0, shown)], [compiled("examples/update.c", "tables/house.lrt")])
    wrapper()
else:
    print(f"{platform.machine()}: the archive links only into x86-64 programs, so nothing is linked here. The same library is run on every")
    print("vector by tests/tables.py, tests/readings.py and tests/updates.py, through the program judge")
    compiles = [gcc("-c", source, "-o", os.devnull) for source in [*sources.values(), "examples/update.c"]]
    tally.group("the header's examples and the example program compile", [(0, "")] * 6, compiles)
sys.exit(tally.end())
