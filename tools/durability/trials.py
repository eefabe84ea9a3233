"""Tries a service with a folder (`serve --state`): kills it, lets calls fail, takes the power away, and damages its journal.

    tools/run ci/crash_trials [--times N] [--kinds KIND,..] [--seed N] [--step N] [--keep FOLDER] [PROGRAM ..]

PROGRAM is the program with its first arguments, or the built program. Without one, the second implementation is tried. In each trial the
program is given lines, and what it prints is compared with what `serve` prints for all lines in one run that is not interrupted. Each kind
of trial has a row of the table:

    kill         the program is killed (SIGKILL) at a random moment under load, and started again
    beginning    it is killed while it begins: it opens the folder, restores the state, and does lines again
    fail         one of its calls on the folder fails (EIO, ENOSPC) or writes less than asked, each call in turn
    power        the folder is what a disk has when the power is lost: what was not synced is there, is not, or in part
    full         the disk is full (a file system in memory of one to eight pages)
    limit        files may have so many bytes (RLIMIT_FSIZE), so that a write fails or ends at any byte
    folder       the folder is missing, read-only or not a folder
    cut          the journal is cut at each of its last 4,096 bytes
    change       one byte of the journal is another one
    two          two processes have the same folder
    both         the program and the second implementation are killed in turn, and the other goes on with the folder

After each, the program has to go on with a line after the last one that was answered, and to answer all lines that are left. With cut and
change it has to do what the second implementation does. These are wrong, and the command exits with 1 if there is one:

    lost         lines that were answered, and that the journal does not have
    wrong        answers that differ, or lines that nobody gave
    dead ends    a restart that is not possible although nothing damaged the folder
    other        another status, or standard error does not name the folder

--times 2000 tries kills for an hour; with `serve` in Python, 200 take some minutes. --step N tries each Nth call and each Nth cut only. Needs
gcc, and for full and read-only disks root and the right to mount.
"""

import argparse
import pathlib
import shutil
import sys
import tempfile
import time

from tools.compare.program import PROGRAM

from .alternation import try_both
from .damage import try_changes, try_cuts
from .disks import try_bad_folders, try_full_disks, try_limits, try_two_processes
from .failures import try_failures
from .judging import Tally
from .kills import try_kills, try_kills_of_beginnings
from .power import try_power

REFERENCE = [sys.executable, "-P", "-m", "service.reference"]
KINDS = {"kill": try_kills, "beginning": try_kills_of_beginnings, "fail": try_failures, "power": try_power, "full": try_full_disks, "limit": try_limits,
         "folder": try_bad_folders, "cut": try_cuts, "change": try_changes, "two": try_two_processes, "both": try_both}
COLUMNS = ("trial", "times", "answered lines", "lost", "wrong", "dead ends", "other", "seconds")


def read_arguments():
    ask = argparse.ArgumentParser("crash_trials", description=__doc__, formatter_class=argparse.RawDescriptionHelpFormatter)
    ask.add_argument("--times", metavar="N", type=int, default=200, help="how often the program is killed, and how many others are random (200)")
    ask.add_argument("--kinds", metavar="KIND,..", default=",".join(KINDS), help="the kinds of trials (all)")
    ask.add_argument("--seed", metavar="N", type=int, default=1, help="the seed of scripts and moments (1)")
    ask.add_argument("--step", metavar="N", type=int, default=1, help="try each Nth call and each Nth cut (1)")
    ask.add_argument("--keep", metavar="FOLDER", help="work in this new folder, and keep it")
    ask.add_argument("program", metavar="PROGRAM", nargs=argparse.REMAINDER, help="the program, with its first arguments")
    asked = ask.parse_args()
    asked.reference = REFERENCE
    asked.program = asked.program or ([PROGRAM] if pathlib.Path(PROGRAM).exists() else REFERENCE)
    unknown = set(asked.kinds.split(",")) - set(KINDS)
    if unknown:
        ask.error(f"no such kind: {', '.join(sorted(unknown))}")
    return asked


def try_kind(asked, folder, kind):
    """Does all trials of a kind, and prints a row of the table. Returns whether nothing was wrong."""
    tally, begun = Tally(), time.monotonic()
    (folder / kind).mkdir(parents=True)
    KINDS[kind](tally, asked, folder / kind)
    print(f"| {kind} | {tally.trials:,} | {tally.answered:,} | {tally.lost} | {tally.wrong} | {tally.dead_ends} | {tally.other} "
          f"| {time.monotonic() - begun:.0f} |", flush=True)
    for note in tally.notes:
        print(f"{kind}: {note}", file=sys.stderr, flush=True)
    return tally.is_right()


def main():
    asked = read_arguments()
    # Without links, as the library that is preloaded sees it.
    folder = pathlib.Path(asked.keep or tempfile.mkdtemp(prefix="crash_trials", dir="/var/tmp")).resolve()
    print(f"| {' | '.join(COLUMNS)} |", "|" + "---|" * len(COLUMNS), sep="\n", flush=True)
    try:
        is_right = all([try_kind(asked, folder, kind) for kind in asked.kinds.split(",")])
    finally:
        if not asked.keep:
            shutil.rmtree(folder, ignore_errors=True)
    sys.exit(0 if is_right else 1)


if __name__ == "__main__":
    main()
