"""Runs a command that proves crates, and prints what each crate took of the processors: its proof, its tests and its must-fail edits.

    tools/run measure/ci_costs [COMMAND ..]

The command is `rt ci` if none is given, and runs where this one is started. All checks of the machine are counted, so let no others run.
Prints processor seconds of each crate, the dearest first; then the dearest checks of edits, and what all took by the clock and by the
processors. A check of `tools/ci/edits` tries several edits: it is named by the functions that they change. A check that begins or ends
what `rt` does for a crate's edits is in the column `before`. What was proved by an earlier run takes no time: for a run from nothing,
remove what `rt` has kept.

Reads /proc twice a second, so that up to half a second of a check is not seen. The last line is exact. Exits as the command does.
"""

import argparse
import collections
import dataclasses
import os
import pathlib
import re
import subprocess
import sys
import time

CRATES = pathlib.Path(__file__).resolve().parents[2] / "crates"
PROC = pathlib.Path("/proc")
PARTS = ("proof", "tests", "before", "edits")
TICKS = os.sysconf("SC_CLK_TCK")
DEAREST = 20


@dataclasses.dataclass(frozen=True)
class Check:
    """What a check is for: a crate, a part of what is done for it, and of which edit: its number, or the functions that are changed."""

    crate: str
    part: str
    edit: int | str | None = None


def word_after(words, name):
    """Returns the word after an option, or nothing where the option is not there."""
    return words[words.index(name) + 1] if name in words[:-1] else ""


def words_after(words, name):
    """Returns the words after an option that is given several times."""
    return [word for before, word in zip(words, words[1:]) if before == name]


def check_of(words, folder):
    """Returns what a command does in a folder, or nothing where it is no check of a crate."""
    crate = word_after(words, "--crate-name")
    if os.path.basename(words[0]) != "rattle" or words[1:2] not in (["check"], ["build"]) or not crate:
        return None
    kept = re.search(r"/rt-edits-[^/]*/(\w+)$", word_after(words, "--incremental"))
    if kept:
        return Check(crate, "edits", int(kept[1])) if kept[1].isdigit() else Check(crate, "before")
    if os.path.basename(folder).startswith("rt-edit-"):
        return Check(crate, "edits")
    if os.path.basename(folder).startswith("edits-"):
        return Check(crate, "edits", ", ".join(words_after(words, "--only")))
    return Check(crate, "tests" if "--test" in words else "proof")


def seconds_of(stat):
    """Returns the processor seconds of a process and of those that it has waited for, and what tells it from a later one of its number."""
    fields = stat.rpartition(")")[2].split()
    return sum(map(int, fields[11:15])) / TICKS, fields[19]


def parent_of(stat):
    """Returns the number of a process's parent."""
    return stat.rpartition(")")[2].split()[1]


def words_of(process):
    """Returns the words of a process's command."""
    return (process / "cmdline").read_bytes().decode(errors="replace").split("\0")[:-1] or [""]


def look(seen):
    """Notes what each check that runs has taken so far. Copies that a check makes of itself count as part of it once they have ended."""
    for process in PROC.glob("[0-9]*"):
        try:
            check = check_of(words_of(process), os.readlink(process / "cwd"))
            stat = (process / "stat").read_text()
            if check is None or os.path.basename(words_of(PROC / parent_of(stat))[0]) == "rattle":
                continue
        except OSError:
            continue
        seconds, begun = seconds_of(stat)
        seen[process.name, begun] = check, seconds


def watch(command):
    """Runs a command, and returns its status and what each check took."""
    seen = {}
    running = subprocess.Popen(command)
    while running.poll() is None:
        look(seen)
        time.sleep(0.5)
    return running.returncode, list(seen.values())


def by_crate(checks):
    """Returns the seconds of each part of each crate, and how many checks tried edits, the dearest crate first."""
    crates = collections.defaultdict(lambda: (collections.Counter(), set()))
    for check, seconds in checks:
        parts, edits = crates[check.crate]
        parts[check.part] += seconds
        if check.part == "edits":
            edits.add(check.edit)
    return sorted(((name, parts, len(edits)) for name, (parts, edits) in crates.items()), key=lambda row: -sum(row[1].values()))


def edit_name(check):
    """Returns the functions that a check changes, or the name of an edit: the one of its number in the order of names."""
    if isinstance(check.edit, str):
        return f"{check.crate}: {check.edit}"
    names = sorted(path.name for path in (CRATES / check.crate / "must-fail").glob("*.edit"))
    known = check.edit is not None and check.edit < len(names)
    return f"{check.crate}/{names[check.edit] if known else '?'}"


def table(checks):
    """Returns the lines of the tables."""
    rows = by_crate(checks)
    yield f"{'crate':20}" + "".join(f"{part:>8}" for part in PARTS) + f"{'tried':>8}"
    for name, parts, edits in rows:
        yield f"{name:20}" + "".join(f"{parts[part]:8.0f}" for part in PARTS) + f"{edits:8}"
    totals = [sum(parts[part] for _name, parts, _edits in rows) for part in PARTS]
    yield f"{'all':20}" + "".join(f"{total:8.0f}" for total in totals) + f"{sum(edits for *_parts, edits in rows):8}"
    dearest = sorted(((seconds, edit_name(check)) for check, seconds in checks if check.part == "edits"), reverse=True)
    yield from (f"{seconds:8.0f} {name}" for seconds, name in dearest[:DEAREST])


def main():
    parser = argparse.ArgumentParser(prog="ci_costs", description=__doc__, formatter_class=argparse.RawDescriptionHelpFormatter, allow_abbrev=False)
    parser.add_argument("command", nargs=argparse.REMAINDER, metavar="COMMAND")
    command = parser.parse_args().command or ["rt", "ci"]
    begun = time.monotonic()
    try:
        status, checks = watch(command)
    except FileNotFoundError:
        sys.exit(f"ci_costs: there is no command {command[0]}")
    print(*table(checks), sep="\n")
    taken = os.times()
    processor = taken.children_user + taken.children_system
    print(f"{(time.monotonic() - begun) / 60:.0f} minutes by the clock, {processor / 60:.0f} of the processors")
    sys.exit(status if status >= 0 else 128 - status)


if __name__ == "__main__":
    main()
