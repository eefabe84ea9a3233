"""Prints which proofs of a crate took how long, from the times of the files that its last check kept.

    tools/run measure/proof_times CRATE [LEAST]     Prints the seconds of each function or file of lemmas that took LEAST or more, 5 by default.

A check keeps what it has proved file by file in the crate's out/incremental, one after the other. The time from one file to the next is
what the next one took. So the crate has to be checked from nothing (no out/ before) with `--jobs 1`. A name without a function is the
crate as a whole: what it takes before the first function and after the last. The seconds are those of the clock, and include what else
the machine did.
"""

import collections
import pathlib
import re
import sys

CRATES = pathlib.Path(__file__).resolve().parents[2] / "crates"


def kept(crate):
    """The files that the check of a crate kept, with their times, the first one first."""
    files = (CRATES / crate / "out/incremental").glob("*/Rattle-*.oantt")
    return sorted((path.stat().st_mtime, path.name.removesuffix(".oantt")) for path in files)


def seconds(files):
    """The seconds of each function: all of its files together."""
    taken = collections.Counter()
    for (before, _), (time, name) in zip(files, files[1:]):
        taken[re.sub(r"(\.[A-Z][\w-]*)?$", "", name)] += time - before
    return taken


def main():
    if sys.argv[1:] in (["-h"], ["--help"]):
        print(__doc__.strip())
        return
    if len(sys.argv) not in (2, 3):
        sys.exit(__doc__)
    files = kept(sys.argv[1])
    if not files:
        sys.exit(f"{sys.argv[1]} has no out/incremental: check it first")
    least = float(sys.argv[2]) if len(sys.argv) == 3 else 5
    for name, time in seconds(files).most_common():
        if time >= least:
            print(f"{time:7.1f}  {name}")
    print(f"{files[-1][0] - files[0][0]:7.1f}  from the first file to the last")


if __name__ == "__main__":
    main()
