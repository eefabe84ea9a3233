"""Checks the faults that `check` lists on standard error, on plant files with random changes. Exits with 1 where a list is wrong.

    tools/run ci/fault_lists [FIRST [COUNT [PROGRAM]]]     numbers FIRST to FIRST + COUNT - 1, by default 0 and 200

Each number makes a file from examples/every_key with one to three changed keys. The list is right if

    - it is empty exactly where standard output is `ok`
    - it has the first fault, which standard output names
    - its keys are those of each change alone: the changed key and no other if that is invalid, or else all that are listed
    - each line number is that of a line that writes the key, or of the first line of its table if the key is missing
"""

import random
import re
import subprocess
import sys

from tools import ROOT
from tools.compare.program import PROGRAM

VALUES = """0 -1 1 255 256 65536 4097 1000001 "x" "strict" "aged" true 1.5 [] [1] [0,5] [8,0] [8,48] [5,4] [1,9000] [1,5000000000] {} ""
    "North" "Voip" "0F" "060107" "0701" ["020000000001"] ["02"] ["02:00:00:00:00:01"] "020000000001" "02.00" 1979-05-27 {a=1}""".split()
HEADS = {"[plant]": "plant", "[[class]]": "class", "[[operator]]": "operator", "[[operator.flow]]": "flow"}
MESSAGE = re.compile(r"(plant|class\[\d+\]|operator\[\d+\](?:\.flow\[\d+\])?)(?: \(\w+\))?, line (\d+): (\w+)")


def lines_of_plant():
    """Returns the lines of the plant file without comments, and the place of each line."""
    text = (ROOT / "examples/every_key/check.txt").read_text()
    lines, places, counts, place = [], [], dict.fromkeys(HEADS.values(), -1), ""
    for line in re.sub(r"(^|\s+)#.*$", "", text, flags=re.M).split("\n"):
        if line in HEADS:
            counts[HEADS[line]] += 1
            if line == "[[operator]]":
                counts["flow"] = -1
            place = {"plant": "plant", "class": "class[{class}]", "operator": "operator[{operator}]",
                     "flow": "operator[{operator}].flow[{flow}]"}[HEADS[line]].format(**counts)
        lines.append(line)
        places.append(place)
    return lines, places


LINES, PLACES = lines_of_plant()
KEYS = [at for at, line in enumerate(LINES) if " = " in line]


def key_at(at):
    return f"{PLACES[at]}.{LINES[at].split(' = ')[0]}"


def changed(changes):
    """Returns the lines with some changes: the value of a key, or no such key."""
    lines = list(LINES)
    for at, value in changes.items():
        lines[at] = f"{LINES[at].split(' = ')[0]} = {value}" if value else ""
    return lines


def check(program, lines):
    """Returns standard output, and the list on standard error, which has no warnings."""
    done = subprocess.run([program, "check"], input="\n".join(lines).encode(), capture_output=True, timeout=60, check=False)
    listed = (line for line in done.stderr.decode().splitlines(keepends=True) if not line.startswith("warning: "))
    return done.stdout.decode(), "".join(listed)


def first_fault(output):
    """Returns the key of a fault of one key."""
    found = re.fullmatch(r"fault: plant [23] (\S+)\n", output)
    return found and found[1]


def faults_in(errors):
    """Returns place, line and key of each fault in a list. `None` stands for a message without them."""
    return [MESSAGE.match(line) for line in errors.splitlines()]


def keys_of(found):
    return {f"{it[1]}.{it[3]}" for it in found if it}


def keys_alone(program, at, value):
    """Returns the keys that are invalid in a file with one change."""
    output, errors = check(program, changed({at: value}))
    if first_fault(output) == key_at(at):
        return {key_at(at)}
    return keys_of(faults_in(errors)) if first_fault(output) else set()


def has_line(lines, fault, changes):
    """Returns whether the line of a fault writes the key, or is the first of the table that lacks it."""
    line = lines[int(fault[2]) - 1]
    missing = {key_at(at) for at, value in changes.items() if value is None}
    return line in HEADS if f"{fault[1]}.{fault[3]}" in missing else line.startswith(f"{fault[3]} =")


def wrong(program, changes):
    """Returns what is wrong with the list of a file with some changes, if something is."""
    lines = changed(changes)
    output, errors = check(program, lines)
    if (output == "ok\n") != (errors == ""):
        return "it is empty where there is a fault, or not where there is none"
    if first_fault(output) is None:
        return None
    found = faults_in(errors)
    listed = keys_of(found)
    alone = set().union(*(keys_alone(program, at, value) for at, value in changes.items()))
    if None in found or first_fault(output) not in listed:
        return "a message has no place or no line, or the first fault is not in it"
    if listed != alone:
        return f"it has {sorted(listed)}, and not {sorted(alone)}"
    if not all(has_line(lines, it, changes) for it in found):
        return "a line number is wrong"
    return None


def main():
    if sys.argv[1:] in (["-h"], ["--help"]):
        print(__doc__.strip())
        return
    first = int(sys.argv[1]) if len(sys.argv) > 1 else 0
    count = int(sys.argv[2]) if len(sys.argv) > 2 else 200
    program = sys.argv[3] if len(sys.argv) > 3 else PROGRAM
    faults = 0
    for number in range(first, first + count):
        of_number = random.Random(number)
        changes = {of_number.choice(KEYS): of_number.choice([*VALUES, None]) for _ in range(of_number.randint(1, 3))}
        reason = wrong(program, changes)
        if reason:
            faults += 1
            print(f"# {number}: {[(key_at(at), value) for at, value in changes.items()]}\n{reason}")
    print(f"{count} files, {faults} wrong lists")
    sys.exit(1 if faults else 0)


if __name__ == "__main__":
    main()
