"""Measures what plant_bridge adds to the time of an answer, and how many lines a second it passes on.

    tools/run measure/bridge [--echo] [--single N] [--lines N] [PROGRAM ..]

A channel runs service/systemd/serve_channel with PROGRAM, or with the proved program if it is built, otherwise with the second implementation. With
--echo, a process that answers each line at once takes its place, so that nearly all of the time is that of the bridge. Each line is the same
request, which gets the cached response.

"Pipe and file" is a client that writes into the pipe and reads the answers by `tail --follow=name`, as the bridge does. Lines are given one at
a time, each after the answer to the one before, in turns of 100 by each way. Then they are given all at once. With a flood, a client of
operator B writes bandwidth requests as fast as the bridge takes them. Prints tables, and the machine with its load.
"""

import argparse
import contextlib
import math
import os
import pathlib
import signal
import socket
import subprocess
import sys
import tempfile
import threading
import time

from tools import EXAMPLES, ROOT
from tools.compare.program import PROGRAM
from tools.measure.latency import machine

REQUEST = b"0F0001180A010200010601060F0102\n"
REPLY = b"10000100180E0102000102040000010103020101\n"
# A flow of operator B, and requests for it. They are accepted, so they have no answer.
FLOW_OF_B, FLOOD = b"M 020000000003 0F0001180A010200010601060F0102\nM 020000000003 11000100\n", b"Q 020000000003 513 1\n" * 200
TURN, SECONDS_TO_START = 100, 60


def echo(pipe, answers):
    """Answers the lines of a pipe until it is killed: each M by the reply, and nothing else."""
    source, target, rest = os.open(pipe, os.O_RDWR), os.open(answers, os.O_WRONLY | os.O_APPEND), b""
    os.write(target, b"S line 1 frame 0\n")
    while True:
        *lines, rest = (rest + os.read(source, 65_536)).split(b"\n")
        if found := b"".join(b"R" + line[1:15] + REPLY for line in lines if line.startswith(b"M")):
            os.write(target, found)


class Way:
    """A way to a channel: where lines are written, and where answers are read. Each way has a modem of its own, so that it knows its answers."""

    def __init__(self, name, modem, write, read):
        self.name, self.write, self.read, self.rest = name, write, read, b""
        self.line, self.answer = b"M " + modem + b" " + REQUEST, b"R " + modem

    def answers(self, count):
        """Reads until so many replies have come."""
        while count > 0:
            *lines, self.rest = (self.rest + self.read(1 << 18)).split(b"\n")
            count -= sum(self.answer in line for line in lines)


class Place:
    """A folder with a channel and a bridge. `with` ends both."""

    def __init__(self, folder, program):
        self.folder, self.program, self.processes = pathlib.Path(folder), program, []

    def __enter__(self):
        (self.folder / "operators").mkdir()
        os.mkfifo(self.folder / "in")
        (self.folder / "answers").touch()
        (self.folder / "plant.toml").write_text((EXAMPLES / "plant_p2.toml").read_text())
        (self.folder / "program").write_text(f'#!/bin/sh\nexec {" ".join(self.program)} "$@"\n')
        (self.folder / "program").chmod(0o755)
        self.pipe = os.open(self.folder / "in", os.O_RDWR)
        self.start([ROOT / "tools/run", "plant_bridge", "plant.toml", "in", "control.sock", "operators"])
        if self.program:
            self.start([ROOT / "service/systemd/serve_channel", "plant.toml"], stdin=self.pipe)
        else:
            self.start([sys.executable, "-P", "-m", "tools.measure.bridge", "--echo-channel", "in", "answers"])
        end = time.monotonic() + SECONDS_TO_START
        while not ((self.folder / "operators/B.sock").exists() and (self.folder / "answers").stat().st_size):
            if time.monotonic() > end:
                raise SystemExit("the channel has not started: " + (self.folder / "errors").read_text())
            time.sleep(0.05)
        return self

    def start(self, words, **how):
        environment = {**os.environ, "PYTHONPATH": str(ROOT), "PLANT_SCRIPT": str(self.folder / "program"), "ANSWERS": str(self.folder / "answers"),
                       "FOLDER": str(self.folder / "folder")}
        with (self.folder / "errors").open("ab") as errors:
            process = subprocess.Popen(words, cwd=self.folder, env=environment, stderr=errors, stdout=how.pop("stdout", errors), start_new_session=True, **how)
        self.processes.append(process)
        return process

    def __exit__(self, *_):
        for process in self.processes:
            with contextlib.suppress(ProcessLookupError):
                os.killpg(process.pid, signal.SIGKILL)
            process.wait()

    def direct(self):
        place = (self.folder / "answers").stat().st_size
        tail = self.start(["tail", f"--bytes=+{place + 1}", "--follow=name", "--", "answers"], stdout=subprocess.PIPE)
        file = tail.stdout.fileno()

        return Way("pipe and file", b"020000000001", lambda data: os.write(self.pipe, data), lambda size: os.read(file, size))

    def through(self, operator):
        client = socket.socket(socket.AF_UNIX)
        client.connect(str(self.folder / f"operators/{operator}.sock"))
        return Way("bridge", b"020000000002", client.sendall, client.recv)

    def processor_seconds(self):
        """Returns the processor time of the bridge, without that of its process tail."""
        fields = pathlib.Path(f"/proc/{self.processes[0].pid}/stat").read_text().rpartition(")")[2].split()
        return (int(fields[11]) + int(fields[12])) / os.sysconf("SC_CLK_TCK")


def seconds_one_by_one(way, count):
    """Returns how long each of some lines takes."""
    took = []
    for _ in range(count):
        began = time.perf_counter()
        way.write(way.line)
        way.answers(1)
        took.append(time.perf_counter() - began)
    return took


def seconds_at_once(way, count):
    """Returns how long lines take that are given all at once."""
    began = time.perf_counter()
    writer = threading.Thread(target=lambda: [way.write(way.line * 50) for _ in range(count // 50)])
    writer.start()
    way.answers(count // 50 * 50)
    took = time.perf_counter() - began
    writer.join()
    return took


def print_latency(name, took):
    of_all = sorted(took)
    median, seldom, worst = (of_all[math.ceil(part * len(of_all)) - 1] * 1e6 for part in (0.5, 0.99, 1))
    print(f"| {name} | {len(of_all):,} | {median:,.0f} | {seldom:,.0f} | {worst:,.0f} |", flush=True)


def flood_until(client, ended):
    """Writes lines of operator B."""
    client.settimeout(0.1)
    client.sendall(FLOW_OF_B)
    while not ended.is_set():
        with contextlib.suppress(TimeoutError):
            client.sendall(FLOOD)


def measure_one_by_one(place, ways, single):
    took = {way: [] for way in ways}
    for way in ways:
        way.write(way.line)
        way.answers(1)
    for _ in range(max(1, single // TURN)):
        for way in ways:
            took[way] += seconds_one_by_one(way, TURN)
    for way in ways:
        print_latency(way.name, took[way])
    ended = threading.Event()
    client = socket.socket(socket.AF_UNIX)
    client.connect(str(place.folder / "operators/B.sock"))
    reader = threading.Thread(target=read_to_end, args=(client,), daemon=True)
    flood = threading.Thread(target=flood_until, args=(client, ended))
    reader.start()
    flood.start()
    time.sleep(1)
    print_latency("bridge, with a flood of B", seconds_one_by_one(ways[1], max(20, single // 10)))
    ended.set()
    flood.join()
    client.shutdown(socket.SHUT_RDWR)


def read_to_end(client):
    with contextlib.suppress(OSError):
        while client.recv(1 << 18):
            pass


def main():
    parser = argparse.ArgumentParser("bridge", description=__doc__, formatter_class=argparse.RawDescriptionHelpFormatter)
    parser.add_argument("--echo", action="store_true", help="a process that answers each line at once takes the place of the channel")
    parser.add_argument("--single", metavar="N", type=int, default=2_000, help="lines that are given one at a time (2000)")
    parser.add_argument("--lines", metavar="N", type=int, default=20_000, help="lines that are given all at once (20000)")
    parser.add_argument("--echo-channel", nargs=2, metavar=("PIPE", "ANSWERS"), help=argparse.SUPPRESS)
    parser.add_argument("program", metavar="PROGRAM", nargs=argparse.REMAINDER, help="the program, with its first arguments")
    asked = parser.parse_args()
    if asked.echo_channel:
        echo(*asked.echo_channel)
    built = [PROGRAM] if os.access(PROGRAM, os.X_OK) else [sys.executable, "-B", str(ROOT / "service/reference")]
    program = [] if asked.echo else asked.program or built
    before = os.getloadavg()[0]
    print(f"behind the bridge: {'a process that answers at once' if asked.echo else ' '.join(program)}\n")
    print("| way | lines one at a time | median, microseconds | 99 % | worst |", "|---|---|---|---|---|", sep="\n", flush=True)
    with tempfile.TemporaryDirectory() as folder, Place(folder, program) as place:
        ways = [place.direct(), place.through("A")]
        measure_one_by_one(place, ways, asked.single)
        print("\n| way | lines at once | lines a second |", "|---|---|---|", sep="\n", flush=True)
        # (the bridge comes first: it would have to read the answers of the other way as well)
        began = place.processor_seconds()
        seconds = seconds_at_once(ways[1], asked.lines)
        took = (place.processor_seconds() - began) / asked.lines
        print(f"| bridge | {asked.lines:,} | {asked.lines / seconds:,.0f} |", flush=True)
        print(f"| pipe and file | {asked.lines:,} | {asked.lines / seconds_at_once(place.direct(), asked.lines):,.0f} |\n", flush=True)
        print(f"The bridge took {took * 1e6:,.0f} microseconds of a processor for a line and its answer, {100 * took * asked.lines / seconds:,.0f} % of a processor.")
    print(f"{machine()}, load {before:.1f} before and {os.getloadavg()[0]:.1f} after")


if __name__ == "__main__":
    main()
