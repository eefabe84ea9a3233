"""Measures whether a channel of the library for C takes more memory from hour to hour.

    tools/run measure/library_memory [--hours N] [--operators N] [--every SECONDS]

A process opens a channel of two operators (or of --operators) with 80 flows each, as tools/run measure/latency has them, and makes the frames
of 24 hours (or of --hours), of 2 milliseconds each, as fast as it can. Before every fourth frame a modem of each operator adds, changes or
deletes a flow, or requests minislots. Prints the resident memory after the frames of each hour (or of --every seconds).

Exits with 1 if it has grown by more than 64 kilobytes from the middle of these to the last, or a call has other outputs than are meant. (In the
first frames lists grow to the length that they need.) 24 hours of two operators take some minutes. Needs gcc and the library that tools/ci/build_channel_c builds.
"""

import argparse
import pathlib
import subprocess
import sys
import tempfile

from tools.compare import c_library
from tools.measure.latency import cycle, plant_text
from tools.measure.library import COUNTS_ALLOCATIONS, SOURCE

FRAMES_A_SECOND = 500
# A turn has three transactions, and a response is cached for 1,500 ticks: so never more than 256 of an operator, the most that a plant of
# latency keeps. After all turns come the first ones again, when none of their transactions is cached any more.
TICKS_BETWEEN, TURNS = 4, 64
MOST_GROWTH_KB = 64


def lines(operators):
    """Returns lines that can be repeated without an end: at their end, each operator has the flows that it had before them."""
    found = []
    for turn in range(TURNS):
        for steps in zip(*(cycle(place, turn) for place in range(operators))):
            found += [line for line, _kind in steps] + ["T"] * TICKS_BETWEEN
    return "".join(line + "\n" for line in found)


def growth(rows):
    """Returns by how many kilobytes the memory has grown from the middle row to the last. A row has frames and kilobytes."""
    return rows[-1][1] - rows[(len(rows) - 1) // 2][1]


def memory_rows(process):
    """Yields the rows that the process prints, and prints them with their time."""
    print("| hours | frames | resident memory, KB |\n|---|---|---|")
    for line in process.stdout:
        frames, kilobytes = map(int, line.split())
        print(f"| {frames / FRAMES_A_SECOND / 3600:.2f} | {frames:,} | {kilobytes:,} |", flush=True)
        yield frames, kilobytes


def read_arguments():
    parser = argparse.ArgumentParser("library_memory", description=__doc__, formatter_class=argparse.RawDescriptionHelpFormatter)
    parser.add_argument("--hours", type=float, default=24, metavar="N", help="of how many hours the frames are made")
    parser.add_argument("--operators", type=int, default=2, metavar="N", help="how many operators the channel has, 1 to 32")
    parser.add_argument("--every", type=float, default=3600, metavar="SECONDS", help="after which time the memory is printed")
    return parser.parse_args()


def main():
    options = read_arguments()
    if not c_library.is_built():
        sys.exit("the library for C is not built (tools/ci/build_channel_c)")
    frames, every = (round(seconds * FRAMES_A_SECOND) for seconds in (options.hours * 3600, options.every))
    with tempfile.TemporaryDirectory(prefix="library-memory-") as folder:
        program, plant, script = c_library.build_program(SOURCE, folder, *COUNTS_ALLOCATIONS), f"{folder}/plant.toml", f"{folder}/lines.txt"
        pathlib.Path(plant).write_text(plant_text(options.operators))
        pathlib.Path(script).write_text(lines(options.operators))
        with subprocess.Popen([str(program), plant, script, str(frames), str(every)], stdout=subprocess.PIPE, text=True) as process:
            rows = list(memory_rows(process))
    if process.returncode or len(rows) < 2:
        sys.exit(f"the process ended with status {process.returncode} after {len(rows)} rows, where two are needed")
    if growth(rows) > MOST_GROWTH_KB:
        sys.exit(f"the memory has grown by {growth(rows)} KB in the second half")
    print(f"the memory has grown by {growth(rows)} KB in the second half")


if __name__ == "__main__":
    main()
