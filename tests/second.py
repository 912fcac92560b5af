"""The second program, in plain Rust, agrees with every stored vector and with its own tests."""
import os
import re
import shutil
import subprocess
import sys

here = os.path.dirname(os.path.dirname(os.path.abspath(__file__)))
if not shutil.which("cargo"):
    print("cargo is not here: the second program cannot be built")
    print("0 passed, 1 failed")
    sys.exit(1)
where = {
    **os.environ,
    "VECTORS": os.path.join(here, "vectors"),
    "TABLES": os.path.join(here, "tables"),
    "CARGO_TARGET_DIR": os.path.join(here, "target", "second"),
}
run = subprocess.run(["cargo", "test", "--release", "--offline"], cwd=os.path.join(here, "second"), env=where, capture_output=True, text=True, errors="replace")
said = run.stdout + run.stderr
counts = re.findall(r"^test result: \w+\. (\d+) passed; (\d+) failed", said, re.M)
passed, failed = sum(int(p) for p, _ in counts), sum(int(f) for _, f in counts)
if run.returncode != 0 or not passed:
    print(said[-4000:])
    failed = failed or 1
print(f"the second program: {passed} tests")
print(f"{passed} passed, {failed} failed")
sys.exit(1 if failed else 0)
