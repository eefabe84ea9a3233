"""Measures what calls of the library for C take, and the same lines through the pipes of `serve`.

    tools/run measure/library [--lines N] [--counted N] [--program PROGRAM]

Plant and lines are those of tools/run measure/latency: 32 operators with 80 flows each. A call is one line, with its outputs fetched: a message
that is replied to, an acknowledgement, a bandwidth request, or a tick of all operators with their frames and the MAP. Prints for each kind
the nanoseconds of 100,000 lines (or of --lines), the mean of instructions of 3,200 lines (or of --counted), and the allocations of a call.
The row `clock` is what the measurement itself takes. The second table begins with the library's call for a request, and has below each
function the callee that takes most. So what the library adds to the step of the core is seen there.

Then the program answers the lines through two pipes, each after the answer to the one before. There a line without a reply is written
together with an invalid line, whose answer ends its time. Without a built program that is left out, and without valgrind the instructions.

Needs gcc and the library that tools/ci/build_channel_c builds. Exits with 1 if a line has other outputs than are meant.
"""

import argparse
import collections
import itertools
import math
import os
import pathlib
import re
import shutil
import subprocess
import sys
import tempfile

from tools import ROOT
from tools.compare import c_library
from tools.compare.program import PROGRAM
from tools.measure.latency import MESSAGES_BEFORE_TICK, OPERATORS, REPLY, TICK, Served, lines, machine, plant_text

SOURCE = ROOT / "tools/measure/library_calls.c"
KINDS = {"-": "clock", "R": "message with a reply", "S": "acknowledgement", "Q": "bandwidth request", "T": "tick of 32 operators"}
HANDLERS = {"R": "handle_message", "S": "handle_acknowledgement", "Q": "handle_request", "T": "handle_tick"}
REQUEST = "melfjits_request"
COUNTS_ALLOCATIONS = ("-Wl,--wrap=malloc,--wrap=realloc",)
CHAIN = 6
LEAST_LINES = MESSAGES_BEFORE_TICK * OPERATORS  # so many have each kind


def kind_of(line, kind):
    """Returns the letter of a line of latency."""
    return "T" if kind == TICK else "Q" if line.startswith(b"Q") else "R" if kind == REPLY else "S"


def build(folder):
    """Builds the program that makes the calls in a folder, next to its plant file, and returns its path."""
    pathlib.Path(folder, "plant.toml").write_text(plant_text())
    return c_library.build_program(SOURCE, folder, *COUNTS_ALLOCATIONS)


def command(program, folder, count):
    """Returns the command that performs so many lines, which are written for it."""
    path = pathlib.Path(folder, f"{count}.txt")
    path.write_bytes(b"".join(line for line, _kind in itertools.islice(lines(), count)))
    return [str(program), f"{folder}/plant.toml", str(path)]


def costs_of(printed):
    """Returns nanoseconds and allocations of each kind of call, in the order of KINDS."""
    found = {kind: [] for kind in KINDS}
    for kind, nanoseconds, allocations in map(str.split, printed.splitlines()):
        found[kind].append((int(nanoseconds), int(allocations)))
    return found


# Instructions

class Profile:
    """What calls of functions took, by callgrind: `calls` and `instructions` by the names of caller and callee."""

    CALL = re.compile(r"^calls=(\d+) .*\n\S+ (\d+)", re.MULTILINE)

    def __init__(self, text):
        self.calls, self.instructions = collections.Counter(), collections.Counter()
        names, caller, callee = {}, "", ""
        text = self.CALL.sub(r"call=\1 \2", text)
        for line in text.splitlines():
            word, _, rest = line.partition("=")
            if word in ("fn", "cfn"):
                number, _, name = rest.partition(" ")
                name = names.setdefault(number, name)
                caller, callee = (name, callee) if word == "fn" else (caller, name)
            elif word == "call":
                count, instructions = map(int, rest.split())
                self.calls[caller, callee] += count
                self.instructions[caller, callee] += instructions

    def of(self, name):
        """Returns how often a function was called, and the instructions of all its calls."""
        return [sum(count for (_caller, callee), count in found.items() if callee == name) for found in (self.calls, self.instructions)]

    def chain(self, name):
        """Yields a function with its instructions, and then below each the callee that takes most."""
        instructions = self.of(name)[1]
        for _ in range(CHAIN):
            yield name, instructions
            below = {callee: count for (caller, callee), count in self.instructions.items() if caller == name and callee != name}
            name = max(below, key=below.get, default=None)
            if name is None or below[name] > instructions:  # (it has other callers, too)
                return
            instructions = below[name]


def profile_of(words, folder, *options):
    """Returns the profile of a command."""
    path = pathlib.Path(folder, "profile")
    valgrind = ["valgrind", "-q", "--tool=callgrind", f"--callgrind-out-file={path}", *options]
    subprocess.run([*valgrind, *words], stdout=subprocess.DEVNULL, check=True)
    return Profile(path.read_text())


def mean_instructions(words, folder):
    """Returns the mean of instructions of each kind of call of a command."""
    profile = profile_of(words, folder)
    return {kind: instructions / count for kind, (count, instructions) in ((kind, profile.of(name)) for kind, name in HANDLERS.items())}


# Tables

def at(ordered, part):
    return ordered[math.ceil(part * len(ordered)) - 1]


def row(kind, costs, instructions):
    nanoseconds, allocations = (sorted(each) for each in zip(*costs))
    times = " | ".join(f"{at(nanoseconds, part):,}" for part in (0.5, 0.999, 1))
    counted = f"{instructions[kind]:,.0f}" if kind in instructions else "-"
    return f"| {KINDS[kind]} | {len(costs):,} | {times} | {counted} | {at(allocations, 0.5)}, {allocations[-1]} |"


def print_library(costs, instructions):
    print("| call of the library | number | nanoseconds, median | 99.9 % | most | instructions, mean | allocations, median and most |")
    print("|---|---|---|---|---|---|---|")
    for kind, found in costs.items():
        print(row(kind, found, instructions))


def print_chain(profile):
    """Prints the functions of a request. The profile is of requests alone."""
    count, _ = profile.of(REQUEST)
    print("\n| function of a bandwidth request | instructions, mean |\n|---|---|")
    for name, instructions in profile.chain(REQUEST):
        print(f"| `{name}` | {instructions / count:,.0f} |")


def print_served(program, count):
    """Lets the program answer the lines, and prints its times. Exits with 1 if an answer was wrong."""
    served, took = Served(program), {kind: [] for kind in "RSQT"}
    for line, kind in itertools.islice(lines(), count):
        took[kind_of(line, kind)].append(served.nanoseconds(line, kind))
    status = served.end()
    print("\n| line of `serve` | number | nanoseconds, median | 99.9 % | most |\n|---|---|---|---|---|")
    for kind, found in took.items():
        print(f"| {KINDS[kind]} | {len(found):,} | " + " | ".join(f"{at(sorted(found), part):,}" for part in (0.5, 0.999, 1)) + " |")
    if status or served.wrong:
        sys.exit(f"{served.wrong} answers of the program are wrong; its status is {status}")


def read_arguments():
    parser = argparse.ArgumentParser("library", description=__doc__, formatter_class=argparse.RawDescriptionHelpFormatter)
    parser.add_argument("--lines", type=int, default=100_000, metavar="N", help="how many lines are timed")
    parser.add_argument("--counted", type=int, default=3_200, metavar="N", help="of how many lines the instructions are counted")
    parser.add_argument("--program", default=PROGRAM, metavar="PROGRAM", help="the program that is built")
    options = parser.parse_args()
    options.lines, options.counted = (max(count, LEAST_LINES) for count in (options.lines, options.counted))
    return options


def main():
    options = read_arguments()
    if not c_library.is_built():
        sys.exit("the library for C is not built (tools/ci/build_channel_c)")
    print(f"{machine()}, load {os.getloadavg()[0]:.1f}\n")
    with tempfile.TemporaryDirectory(prefix="library-") as folder:
        program = build(folder)
        done = subprocess.run(command(program, folder, options.lines), stdout=subprocess.PIPE, text=True, check=False)
        if done.returncode:
            sys.exit(done.returncode)
        words, is_counted = command(program, folder, options.counted), shutil.which("valgrind") is not None
        print_library(costs_of(done.stdout), mean_instructions(words, folder) if is_counted else {})
        if is_counted:
            print_chain(profile_of(words, folder, f"--toggle-collect={HANDLERS['Q']}"))
    if os.access(options.program, os.X_OK):
        print_served(options.program, options.lines)
    else:
        print(f"\n{options.program} is not built: `serve` was not measured")


if __name__ == "__main__":
    main()
