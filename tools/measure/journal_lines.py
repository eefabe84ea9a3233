"""Measures how many lines a second `serve --state` processes: compared with `serve` and with plain appends to a file of the same disk.

    tools/run measure/journal_lines [--lines N] [--single N] [--folder FOLDER] [PROGRAM ..]

Each line is the same request, which gets the cached response. They are given all at once, so that the program reads as many as it can, and one
at a time, each after the answer to the one before. The appends add the same line to a file, each with as many fdatasync as it says: a batch of
the journal needs two. FOLDER is on the disk that is measured, /var/tmp by default. Prints a table, and the machine with its load.
"""

import argparse
import os
import pathlib
import subprocess
import tempfile
import threading
import time

from tools.compare.program import PROGRAM
from tools.durability.load import PLANT
from tools.measure.latency import machine

LINE = b"M 020000000001 0F0001180A010200010601060F0102\n"
ANSWER = b"R 020000000001 10000100180E0102000102040000010103020101\n"


def read_until(stream, size):
    """Returns what comes of a stream, at least so many bytes."""
    data = b""
    while len(data) < size:
        more = os.read(stream.fileno(), 1 << 20)
        if not more:
            raise SystemExit(f"the program has ended after {data[-200:]!r}")
        data += more
    return data


def begun(words):
    """Starts the program, and waits until it has answered a line."""
    process = subprocess.Popen(words, stdin=subprocess.PIPE, stdout=subprocess.PIPE, bufsize=0)
    process.stdin.write(PLANT + b"---\n" + LINE)
    data = b""
    while not data.endswith(ANSWER):
        data += read_until(process.stdout, 1)
    return process


def seconds_at_once(words, count):
    """Returns how long lines take that are given all at once."""
    process = begun(words)
    writer = threading.Thread(target=process.stdin.write, args=(count * LINE,))
    started = time.perf_counter()
    writer.start()
    text = read_until(process.stdout, count * len(ANSWER))
    took = time.perf_counter() - started
    writer.join()
    process.communicate()
    assert text == count * ANSWER, text[-200:]
    return took


def seconds_one_by_one(words, count):
    """Returns how long lines take of which each is given after the answer to the one before."""
    process = begun(words)
    started = time.perf_counter()
    for _ in range(count):
        process.stdin.write(LINE)
        text = read_until(process.stdout, len(ANSWER))
        assert text == ANSWER, text
    took = time.perf_counter() - started
    process.communicate()
    return took


def seconds_of_appends(folder, count, syncs):
    """Returns how long appends of a line take, each with so many fdatasync."""
    with (folder / f"append{syncs}").open("wb", buffering=0) as file:
        started = time.perf_counter()
        for _ in range(count):
            file.write(LINE)
            for _ in range(syncs):
                os.fdatasync(file.fileno())
        return time.perf_counter() - started


def row(what, count, seconds):
    print(f"| {what} | {count:,} | {seconds:.2f} | {count / seconds:,.0f} | {1e6 * seconds / count:,.0f} |", flush=True)


def main():
    parser = argparse.ArgumentParser("journal_lines", description=__doc__, formatter_class=argparse.RawDescriptionHelpFormatter)
    parser.add_argument("--lines", metavar="N", type=int, default=100_000, help="lines that are given all at once (100000)")
    parser.add_argument("--single", metavar="N", type=int, default=2_000, help="lines that are given one at a time (2000)")
    parser.add_argument("--folder", metavar="FOLDER", default="/var/tmp", help="a folder on the disk that is measured (/var/tmp)")
    parser.add_argument("program", metavar="PROGRAM", nargs=argparse.REMAINDER, help="the program, with its first arguments")
    asked = parser.parse_args()
    program = asked.program or [PROGRAM]
    print(f"{machine()}, load {os.getloadavg()[0]:.1f}\n")
    print("| what | lines | seconds | lines a second | microseconds a line |", "|---|---|---|---|---|", sep="\n", flush=True)
    with tempfile.TemporaryDirectory(prefix="journal_lines", dir=asked.folder) as place:
        folder = pathlib.Path(place)
        for name, words in (("`serve --state`", ["--state", str(folder)]), ("`serve`", [])):
            row(f"{name}, all at once", asked.lines, seconds_at_once([*program, "serve", *words], asked.lines))
            row(f"{name}, one at a time", asked.single, seconds_one_by_one([*program, "serve", *words], asked.single))
        for syncs in (2, 1, 0):
            row(f"append with {syncs} fdatasync", asked.single, seconds_of_appends(folder, asked.single, syncs))


if __name__ == "__main__":
    main()
