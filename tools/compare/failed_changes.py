"""Fails each allocation of `resume` in turn, on an input that changes the plant, and checks what is answered.

    tools/run compare/failed_changes [PROGRAM]     Needs gcc; takes less than 10 seconds.

In the first run the first allocation fails, in the second run the second, up to the last. Each run is one of these:

  - The service does not begin. The status is 5, and `fault: memory` is all that it prints, or nothing.
  - The line `P` is answered by `fault: memory`, and all else is as if that line had been refused: the plant is as it was.
  - One other line is answered by `fault: memory`.
  - The output is that of a run without a failure.

Prints how many runs were of each kind; exits with 1 if one is of no kind.
"""

import os
import pathlib
import subprocess
import sys
import tempfile
from collections import Counter

from tools import EXAMPLES, ROOT, show_help
from tools.compare.program import PROGRAM

PLANT = (EXAMPLES / "plant_p2.toml").read_text()
NEW_PLANT = PLANT.replace('["020000000003"]', '["020000000003", "020000000004"]')
ADDED = "0F0007180A010200010601060F0102"
BEFORE = f"M 020000000001 {ADDED}\nT A\nT B\n"
BEHIND = f"M 020000000004 {ADDED}\nT A\nT B\nK\n"
REFUSED, FULL = b"fault: line 4\n", b"fault: memory\n"


def script(file):
    """Returns the input that changes the plant to a plant file."""
    return f"{PLANT}---\n{BEFORE}P\n{file}---\n{BEHIND}".encode()


def answer(program, data, extra=None):
    """Returns the exit status and the output of `resume`."""
    done = subprocess.run([program, "resume"], input=data, capture_output=True, env=os.environ | (extra or {}), timeout=60, check=False)
    return done.returncode, done.stdout


def kind_of(got, right, unchanged):
    """Returns of which kind a run is, or None."""
    if got == right:
        return "the usual output"
    if got in ((5, b""), (5, FULL)):
        return "the service does not begin"
    if got == unchanged:
        return "the plant is not changed"
    return "another line is out of memory" if got[0] == 0 and got[1].count(FULL) == 1 else None


def failures(program, folder):
    """Yields the number of each allocation, and the status and output of the run in which it failed."""
    library, spare = folder / "fail_allocation.so", folder / "spare"
    subprocess.run(["gcc", "-shared", "-fPIC", "-O1", "-o", library, ROOT / "tools/compare/fail_allocation.c"], check=True)
    number = 1
    while True:
        failing = {"LD_PRELOAD": str(library), "FAIL_ALLOCATION": str(number), "FAIL_MARK": f"LD_PRELOAD= touch {spare}"}
        got = answer(program, script(NEW_PLANT), failing)
        if spare.exists():
            return
        yield number, got
        number += 1


def main():
    show_help(__doc__)
    program = sys.argv[1] if sys.argv[1:] else PROGRAM
    right = answer(program, script(NEW_PLANT))
    # As many lines as the plant file has, which are none.
    refused = answer(program, script("x = 1\n" * NEW_PLANT.count("\n")))
    if right[0] != 0 or b"P frame 1\n" not in right[1] or REFUSED not in refused[1]:
        sys.exit("without a failure the plant is not changed, or it is not refused")
    unchanged = refused[0], refused[1].replace(REFUSED, FULL)
    kinds = Counter()
    with tempfile.TemporaryDirectory() as folder:
        for number, got in failures(program, pathlib.Path(folder)):
            kind = kind_of(got, right, unchanged)
            if kind is None:
                sys.exit(f"allocation {number} failed: status {got[0]}, and it printed {got[1][-200:]!r}")
            kinds[kind] += 1
    for kind, count in sorted(kinds.items()):
        print(f"{count:9} {kind}")


if __name__ == "__main__":
    main()
