"""Builds the library for C, crates/channel_c/out/libchannel_c.a. Its proof is part of the build.

    tools/ci/build_channel_c [--libraries FOLDER] [--jobs N]

All crates below channel_c have to be built: run `rt ci` first, or name a folder of crates where it was run. If one is missing, this says so,
builds nothing, and exits with 1. N is how many processors the proof takes, 1 if not given.
"""

import argparse
import pathlib
import subprocess
import sys

from tools import ROOT
from tools.proving.prover import Prover, crates_of, kit_folder

CRATE = "channel_c"
ARCHIVE = f"out/lib{CRATE}.a"


def missing(prover):
    """Returns the crates below that are not built."""
    return [name for name in prover.below(CRATE) if not (prover.libraries / name / f"out/rlib/{name}.rlib/format").is_file()]


def words(prover, jobs):
    """Returns the command that builds the library."""
    found = prover.words(CRATE, "src/lib.rt")
    found[found.index("check")] = "build"
    found[found.index("--jobs") + 1] = str(jobs)
    return [*found, "--crate-type", "staticlib", "--toolchain", f"{prover.kit}/toolchain", "--backend", "llvm", "-o", ARCHIVE]


def main():
    parser = argparse.ArgumentParser("build_channel_c", description=__doc__, formatter_class=argparse.RawDescriptionHelpFormatter)
    parser.add_argument("--libraries", type=pathlib.Path, default=ROOT / "crates", metavar="FOLDER", help="the folder of crates that are built")
    parser.add_argument("--jobs", type=int, default=1, metavar="N", help="how many processors the proof takes")
    options = parser.parse_args()
    prover = Prover(kit_folder(), options.libraries.resolve(), crates_of(ROOT))
    if absent := missing(prover):
        sys.exit("the library for C is not built: these crates below it are not: " + ", ".join(absent))
    folder = ROOT / "crates" / CRATE
    (folder / ARCHIVE).unlink(missing_ok=True)
    (folder / "out").mkdir(exist_ok=True)
    done = subprocess.run(words(prover, options.jobs), cwd=folder, stdout=subprocess.PIPE, stderr=subprocess.STDOUT, text=True, errors="replace")
    if done.returncode:
        sys.exit(f"{done.stdout}the library for C was not built")
    print(next((line for line in reversed(done.stdout.splitlines()) if line.startswith("logic=")), "built"))


if __name__ == "__main__":
    main()
