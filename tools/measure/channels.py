"""Measures how long many channels on one machine take to answer a line T, the frame of all operators.

    tools/run measure/channels [--channels N[,N..]] [--seconds N] [--state FOLDER] [--writers N] [--plant FILE] [PROGRAM]

Each channel is a process of `serve`, and with --state one of `serve --state` with a folder of its own in FOLDER, on the disk that is
measured. A line T comes each frame (frame_us of the plant file, 2 ms by default), whether or not the one before is answered. The channels
begin one after the other within a frame. Writers are processes, each for its part of the channels: they sleep, write and read. An answer
takes from before its line is written until its MAP is read.

Prints for each number of channels the median, the 99.9th percentile and the worst in microseconds, how late the latest line was written,
and how much of a processor a channel and its writer took. Exits with 1 if a channel ended early.
"""

import argparse
import array
import collections
import heapq
import math
import multiprocessing
import os
import pathlib
import re
import select
import subprocess
import sys
import tempfile
import time

from tools.compare.program import PROGRAM
from tools.measure.latency import machine

PLANT = pathlib.Path(__file__).resolve().parents[2] / "examples/plant_p2.toml"
TICKS_PER_SECOND = os.sysconf("SC_CLK_TCK")


def frame_seconds(plant):
    return int(re.search(r"^frame_us\s*=\s*(\d+)", plant, re.MULTILINE).group(1)) / 1e6


class Channel:
    """A process of the program, with the times at which lines were written that are not answered yet."""

    def __init__(self, words, plant):
        self.process = subprocess.Popen(words, stdin=subprocess.PIPE, stdout=subprocess.PIPE, bufsize=0)
        self.to, self.back = self.process.stdin.fileno(), self.process.stdout.fileno()
        self.written, self.rest = collections.deque(), b""
        self.process.stdin.write(plant.encode() + b"---\nT\n")
        while b"MAP " not in self.rest or not self.rest.endswith(b"\n"):
            self.rest += os.read(self.back, 65_536)
        self.rest = b""

    def write(self):
        self.written.append(time.perf_counter())
        os.write(self.to, b"T\n")

    def read(self, took):
        """Reads what there is, and notes how long the answers took that end with it."""
        data = os.read(self.back, 65_536)
        now = time.perf_counter()
        if not data:
            raise SystemExit(f"a channel has ended after {self.rest.decode()!r}")
        lines = (self.rest + data).split(b"\n")
        self.rest = lines.pop()
        for line in lines:
            if line.startswith(b"MAP "):
                took.append(int(1e9 * (now - self.written.popleft())))

    def processor_seconds(self):
        """Returns the processor time that the process has taken so far."""
        fields = pathlib.Path(f"/proc/{self.process.pid}/stat").read_text().rsplit(")", 1)[1].split()
        return (int(fields[11]) + int(fields[12])) / TICKS_PER_SECOND

    def end(self):
        self.process.stdin.close()
        while os.read(self.back, 65_536):
            pass
        return self.process.wait(60)


def drive(channels, frame, seconds):
    """Writes the lines of channels at their times, and reads their answers. Returns how long these took, and the latest line."""
    took, latest = array.array("Q"), 0.0
    by_file = {channel.back: channel for channel in channels}
    began = time.perf_counter() + 0.01
    due = [(began + frame * place / len(channels), place) for place in range(len(channels))]
    while due or any(channel.written for channel in channels):
        wait = due[0][0] - time.perf_counter() if due else 1
        if due and wait <= 0:
            at, place = heapq.heappop(due)
            channels[place].write()
            latest = max(latest, -wait)
            if at + frame < began + seconds:
                heapq.heappush(due, (at + frame, place))
            continue
        # (poll and epoll wait for whole milliseconds)
        for file in select.select(list(by_file), [], [], wait)[0]:
            by_file[file].read(took)
    return took, latest


def write_part(words, plant, frame, seconds, barrier, results):
    """The work of one writer: starts its channels, waits for the other writers, drives the channels, and reports."""
    channels = [Channel(each, plant) for each in words]
    barrier.wait()
    before = sum(channel.processor_seconds() for channel in channels), time.process_time()
    took, latest = drive(channels, frame, seconds)
    spent = sum(channel.processor_seconds() for channel in channels) - before[0], time.process_time() - before[1]
    failed = sum(channel.end() != 0 for channel in channels)
    results.put((took, latest, spent, failed))


def measure(words, plant, seconds, writers):
    """Returns how long all answers took, the latest line, and the shares of a processor of a channel and of its writer."""
    frame = frame_seconds(plant)
    writers = min(writers, len(words))
    barrier, results = multiprocessing.Barrier(writers), multiprocessing.Queue()
    parts = [multiprocessing.Process(target=write_part, args=(words[place::writers], plant, frame, seconds, barrier, results)) for place in range(writers)]
    for part in parts:
        part.start()
    reported = [results.get(timeout=60 + 10 * seconds) for _ in parts]
    for part in parts:
        part.join()
    took = sorted(nanoseconds for each in reported for nanoseconds in each[0])
    if any(failed for *_, failed in reported):
        sys.exit("a channel ended with another status than 0")
    return took, max(each[1] for each in reported), [sum(each[2][of] for each in reported) / len(words) / seconds for of in range(2)]


def row(channels, took, latest, shares):
    median, seldom, worst = (took[math.ceil(part * len(took)) - 1] / 1000 for part in (0.5, 0.999, 1))
    return f"| {channels} | {len(took):,} | {median:,.0f} | {seldom:,.0f} | {worst:,.0f} | {1e6 * latest:,.0f} | {100 * shares[0]:.1f} % | {100 * shares[1]:.1f} % |"


def main():
    parser = argparse.ArgumentParser("channels", description=__doc__, formatter_class=argparse.RawDescriptionHelpFormatter)
    parser.add_argument("--channels", default="1,10,100", help="how many channels, one number after the other")
    parser.add_argument("--seconds", type=float, default=20)
    parser.add_argument("--state", help="a folder for the journals, one for each channel")
    parser.add_argument("--writers", type=int, default=2)
    parser.add_argument("--plant", default=PLANT)
    parser.add_argument("program", nargs="?", default=PROGRAM)
    options = parser.parse_args()
    plant = pathlib.Path(options.plant).read_text()
    print(f"{machine()}, load {os.getloadavg()[0]:.1f} before")
    print("| channels | ticks | median, microseconds | 99.9 % | worst | latest line | a channel | its writer |")
    print("|---|---|---|---|---|---|---|---|")
    for count in map(int, options.channels.split(",")):
        with tempfile.TemporaryDirectory(dir=options.state) as folder:
            words = [[options.program, "serve"] for _ in range(count)]
            if options.state:
                for place, each in enumerate(words):
                    (pathlib.Path(folder) / str(place)).mkdir()
                    each += ["--state", str(pathlib.Path(folder) / str(place))]
            print(row(count, *measure(words, plant, options.seconds, options.writers)), flush=True)
    print(f"load {os.getloadavg()[0]:.1f} after")


if __name__ == "__main__":
    main()
