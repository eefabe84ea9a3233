"""Measures what a line costs `serve`, whatever else the machine does: instructions, allocations and system calls.

    tools/run measure/line_costs [PROGRAM [LINES]]

Prints for each kind of line the median and the most of instructions and of allocations, and the system calls of a line, and then the
dearest line. The plant and the lines are those of tools/run measure/latency; 3,200 lines, the default, are ten lives of a flow of each of 32
operators, and take some minutes. Each line is written when the one before is answered, so the program reads each by itself. A message
without a reply is written together with an invalid line, whose cost is in its own row: take it off.

Instructions and allocations are counted by valgrind's callgrind, from after a line is read until the next read. System calls are counted
by strace in a second run. Needs both. Exits with 1 if a line got another answer than is meant.
"""

import argparse
import collections
import math
import pathlib
import re
import sys
import tempfile

from tools.compare.program import PROGRAM
from tools.measure.latency import INVALID, SILENT, Served, lines

ALLOCATING = re.compile(r"(malloc|calloc|realloc|memalign|aligned_alloc|posix_memalign)(@.*)?$")
TYPES = {"0F": "DSA-REQ", "11": "DSA-ACK", "12": "DSC-REQ", "14": "DSC-ACK", "15": "DSD-REQ"}
INVALID_LINE, TICK_LINE, REQUEST_LINE = "invalid line", "tick of all operators", "bandwidth request"


def name_of(line):
    """Returns what a line is called in the table."""
    words = line.decode().split()
    if line == INVALID:
        return INVALID_LINE
    return {"T": TICK_LINE, "Q": REQUEST_LINE}.get(words[0]) or TYPES[words[2][:2]]


def measured_lines(count):
    """Returns the lines, each with its kind: those of latency, and then a tenth as many invalid ones."""
    chosen = [line for _place, line in zip(range(count), lines())]
    return chosen + [(INVALID, None)] * (count // 10 + 1)


def answer_all(command, program, chosen):
    """Answers lines by the program under a command, and returns whether each answer was as meant."""
    served = Served(program, command)
    for line, kind in chosen:
        if kind is None:
            served.answer_invalid()
        else:
            served.nanoseconds(line, kind)
    return served.end() == 0 and not served.wrong


def counted_parts(profile):
    """Returns instructions and allocations of each part of a profile of callgrind."""
    parts, is_allocation = [], False
    names = {}
    for line in profile.splitlines():
        if line.startswith("part:"):
            parts.append([0, 0])
        elif line.startswith(("summary:", "totals:")):
            parts[-1][0] = int(line.split()[1])
        elif line.startswith(("cfn=", "fn=")):
            number, _, name = line.partition("=")[2].partition(" ")
            name = names.setdefault(number, name)
            is_allocation = line.startswith("c") and bool(ALLOCATING.match(name))
        elif line.startswith("calls=") and is_allocation:
            parts[-1][1] += int(line[6:].split()[0])
    return [tuple(part) for part in parts]


def by_callgrind(program, chosen, folder):
    """Returns instructions and allocations of each line, and whether each answer was as meant."""
    profile = folder / "profile"
    command = ["valgrind", "-q", "--tool=callgrind", f"--callgrind-out-file={profile}", "--combine-dumps=yes", "--dump-before=read"]
    is_right = answer_all(command, program, chosen)
    # (the last part is after the end of the input was read)
    return counted_parts(profile.read_text())[-1 - len(chosen):-1], is_right


def by_strace(program, chosen, folder):
    """Returns the system calls of each line, by name, and whether each answer was as meant."""
    log = folder / "calls"
    is_right = answer_all(["strace", "-f", "-qq", "-o", str(log)], program, chosen)
    groups = []
    for call in re.findall(r"^\d+ +(\w+)\((\d*)", log.read_text(), re.MULTILINE):
        if call == ("read", "0"):
            groups.append([])
        if groups:
            groups[-1].append(call[0])
    # (the last group is that of the end of the input)
    return groups[-1 - len(chosen):-1], is_right


def row(name, costs, calls):
    instructions, allocations = (sorted(each) for each in zip(*costs))
    middle = math.ceil(len(costs) / 2) - 1
    usual, _ = collections.Counter(" ".join(sorted(each)) for each in calls).most_common(1)[0]
    most = max(map(len, calls))
    return (f"| {name} | {len(costs):,} | {instructions[middle]:,} | {instructions[-1]:,} | {allocations[middle]} | {allocations[-1]} "
            f"| {usual} | {most} |")


def main():
    parser = argparse.ArgumentParser("line_costs", description=__doc__, formatter_class=argparse.RawDescriptionHelpFormatter)
    parser.add_argument("program", nargs="?", default=PROGRAM)
    parser.add_argument("lines", nargs="?", type=int, default=3_200)
    options = parser.parse_args()
    chosen = measured_lines(options.lines)
    with tempfile.TemporaryDirectory() as folder:
        costs, is_right = by_callgrind(options.program, chosen, pathlib.Path(folder))
        calls, is_right_again = by_strace(options.program, chosen, pathlib.Path(folder))
    print("| line | lines | instructions, median | most | allocations, median | most | system calls, usually | most |")
    print("|---|---|---|---|---|---|---|---|")
    names = [name_of(line) for line, _kind in chosen]
    for name in dict.fromkeys(names):
        places = [place for place, other in enumerate(names) if other == name]
        print(row(name, [costs[place] for place in places], [calls[place] for place in places]))
    dearest = max(range(len(costs)), key=lambda place: costs[place])
    print(f"the dearest: line {dearest + 1}, {chosen[dearest][0].decode().strip()!r}, {costs[dearest][0]:,} instructions, "
          f"{costs[dearest][1]} allocations")
    if not (is_right and is_right_again):
        sys.exit("a line got another answer than is meant")


if __name__ == "__main__":
    main()
