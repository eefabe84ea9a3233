"""Measures the seconds of `threads` and of `run`, five runs each in turn, and prints a table with the machine's load.

    tools/run measure/threads [--program PROGRAM] [INPUT ..]

Without INPUT it measures 20,000 lines on 2, 8 and 32 operators, and 110 ticks of one operator with 1,024 flows. The load of a row is
the system's average of the last minute, taken before its runs: what else the machine did then. `taskset -c 0,1` in front measures on two
processors; the number that is printed is of those that the tool may use.
"""

import argparse
import os
import pathlib
import statistics
import time

from tools.compare.program import PROGRAM, program_answer
from tools.measure.large_script import of_flows, of_operators

RUNS = 5


def seconds(program, word, data):
    began = time.perf_counter()
    program_answer(program, [word], data)
    return time.perf_counter() - began


def inputs(paths):
    """Returns each input with its name."""
    if paths:
        return [(path.stem, path.read_bytes()) for path in paths]
    scripts = [(f"20,000 lines, {operators} operators", of_operators(operators).encode()) for operators in (2, 8, 32)]
    return [*scripts, ("110 ticks, 1,024 flows", of_flows(110).encode())]


def main():
    parser = argparse.ArgumentParser("threads", description=__doc__)
    parser.add_argument("--program", default=PROGRAM)
    parser.add_argument("inputs", nargs="*", type=pathlib.Path)
    options = parser.parse_args()
    print(f"{len(os.sched_getaffinity(0))} processors\n")
    print("| input | `run`, seconds | `threads`, seconds | times | load |")
    print("|---|---|---|---|---|")
    for name, data in inputs(options.inputs):
        load = os.getloadavg()[0]
        turns = [(seconds(options.program, "run", data), seconds(options.program, "threads", data)) for _ in range(RUNS)]
        run, threads = (statistics.median(turn[kind] for turn in turns) for kind in (0, 1))
        print(f"| {name} | {run:.3f} | {threads:.3f} | {threads / run:.1f} | {load:.1f} |")


if __name__ == "__main__":
    main()
