"""Measures the seconds that `resume` takes to read a snapshot, to write one and to change the plant: five runs each in turn.
Prints a table with the machine's load.

    tools/run measure/snapshots [--program PROGRAM]

A snapshot has 32 operators or fewer, each with 16 modems, so many flows and 256 cached responses. A run that ends after the snapshot reads it,
and one with a line `K` writes it too. The snapshot that is written has to be the one that was read. The time of a start with the plant file
alone is taken off the reading. A run with twenty lines `P` changes the plant twenty times, each time to a file with another limit of elements.
"""

import argparse
import os
import statistics
import time

from service.reference.saving import end_of
from tools.compare.program import PROGRAM, program_answer

RUNS, CHANGES = 5, 20
SIZES = ((2, 16), (8, 128), (32, 16), (32, 1024))
RESPONSES, MODEMS = 256, 16
LENGTH = 124


def address(op, number=0):
    return f"{op * MODEMS + number:012X}"


def plant_of(operators, flows, elements=4):
    """Returns a plant file whose operators have a slice, some modems, and room for as many flows."""
    head = f"[plant]\nframe_minislots = 4096\nhead = 8\nframe_us = 2000\nbytes_per_minislot = 16\nshort_max = 4\nchannel = 1\nucd_count = 1\nhold = 60000\n"
    rows = [head]
    for op in range(operators):
        first, modems = 1 + op * 1024, ", ".join(f'"{address(op, number)}"' for number in range(MODEMS))
        rows.append(f'[[operator]]\nname = "Op{op}"\nslice = [{8 + op * LENGTH}, {LENGTH}]\nsfids = [{first}, {first + 1023}]\n'
                    f"sids = [{1 + op * 200}, {200 + op * 200}]\nflows = {flows}\ntransactions = {RESPONSES}\ninbox = 256\nbudget = {LENGTH}\nelements = {elements}\n"
                    f'policy = "strict"\nmodems = [{modems}]\n')
    return "\n".join(rows)


def snapshot_of(operators, flows):
    """Returns a snapshot whose flows have no set, with cached responses that are held."""
    plant = plant_of(operators, flows)
    rows = [f"melfjits-snapshot 1 {len(plant)}\n{plant}---\nframe 7 {operators}\n"]
    for op in range(operators):
        rows.append(f"operator Op{op} {flows} {RESPONSES} 0\nslice {8 + op * LENGTH} {LENGTH} {LENGTH}\nnext -\n")
        rows += [f"flow {1 + op * 1024 + flow} {address(op)} - - - - - 0 0 0\n" for flow in range(flows)]
        rows += [f"response {address(op)} {tid} dsd 0 held 59000 0 16{tid:04X}0000\n" for tid in range(RESPONSES)]
    text = "".join(rows)
    return plant, text + end_of(text.encode())


def changes_of(operators, flows):
    """Returns lines that change the plant of a snapshot to files with another limit of elements in turn."""
    return "".join(f"P\n{plant_of(operators, flows, 5 - turn % 2)}---\n" for turn in range(CHANGES))


def seconds(program, data):
    began = time.perf_counter()
    answer = program_answer(program, ["resume"], data.encode())
    return time.perf_counter() - began, answer


def measure(program, operators, flows):
    """Returns the seconds of a reading, a writing and a change, and how many bytes the snapshot has."""
    plant, text = snapshot_of(operators, flows)
    inputs = (f"{plant}---\n", f"{text}---\n", f"{text}---\nK\n", f"{text}---\n{changes_of(operators, flows)}")
    turns = [[seconds(program, data) for data in inputs] for _ in range(RUNS)]
    for turn in turns:
        assert turn[2][1][:2] == (0, text.encode()), turn[2][1][1][:200]
        assert turn[3][1][:2] == (0, b"P frame 7\n" * CHANGES), turn[3][1][1][:200]
    alone, read, write, changed = (statistics.median(turn[kind][0] for turn in turns) for kind in range(len(inputs)))
    return read - alone, write - read, (changed - read) / CHANGES, len(text)


def main():
    parser = argparse.ArgumentParser("snapshots", description=__doc__)
    parser.add_argument("--program", default=PROGRAM)
    options = parser.parse_args()
    print("| operators | flows of each | bytes | read, seconds | write, seconds | change, seconds | load |")
    print("|---|---|---|---|---|---|---|")
    for operators, flows in SIZES:
        load = os.getloadavg()[0]
        read, write, change, size = measure(options.program, operators, flows)
        print(f"| {operators} | {flows} | {size} | {read:.4f} | {write:.4f} | {change:.4f} | {load:.1f} |")


if __name__ == "__main__":
    main()
