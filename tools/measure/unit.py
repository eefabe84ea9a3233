"""Measures how long a channel takes to answer through its unit: from before a line is written into its pipe until its answer is read from `answers`.

    tools/measure/unit [--command [PROGRAM]] [--channels N[,N..]] [--operators N[,N..]] [--seconds N] [--flood N] [--folder FOLDER] [--json]

Each channel is plant@measureN of the installed package, which needs root and systemd. With --command it is a process that is started as the unit
starts it: the same command line, variables and limits, a pipe of the same size, and a folder with its journal on the disk of FOLDER.

A client writes a line T each 2 ms, whether or not the one before is answered. In the middle of each fourth frame it writes a line of a modem of
the first operator, in turn DSA-REQ, DSA-ACK, a bandwidth request, DSC-REQ and so on. A quiet neighbour writes nothing. A flooding one is a modem
of the second operator, for which as many lines a second are written (--flood), twice in a frame, right before the client's lines: so these wait
for them. They request all minislots, add flows without an acknowledgement, and are malformed. Each operator has 80 flows (tools/run measure/latency).

Prints a row for each number of channels and of operators, with both neighbours: of the ticks, until the MAP is read, and of the requests with a
reply, how many there were, and the median, the 99th percentile and the worst in microseconds. Besides, how late the latest line was written, and
how much of a processor a channel took with all its processes, and its copier alone. A line that finds no room in the pipe is written
when there is room, and its time has begun before; such lines of a neighbour are dropped, and counted. With --json it prints one object. Exits
with 1 if a line has no answer within a minute, a request another code than 0, or a channel has ended.
"""

import argparse
import array
import collections
import ctypes
import hashlib
import heapq
import itertools
import json
import math
import multiprocessing
import os
import pathlib
import re
import select
import signal
import struct
import subprocess
import sys
import tempfile
import time

from tools import ROOT
from tools.compare.program import PROGRAM
from tools.generator.message_bytes import dsa, flow
from tools.measure.channels import frame_seconds
from tools.measure.journal_lines import seconds_of_appends
from tools.measure.latency import PROVISIONED, SILENT, address, cycle, first_of, machine, message, plant_text
from tools.measure.unit_channels import CannotStart, CommandChannel, UnitChannel, processor_seconds

FRAMES_OF_A_LINE = 4
AT_ONCE = 4_096
LATE_SECONDS = 60
RETRY_SECONDS = 0.0005
QUIET, FLOODING = "quiet", "flooding"
ANSWER = re.compile(rb"^(?:MAP \d+ |R (02010000\w{4}) \w\w(\w{4})(\w\w))", re.MULTILINE)
BUILT = pathlib.Path("/usr/share/doc/plant-script/build.txt")


class Growth:
    """Waits until some files grow, by inotify."""

    MODIFIED, EVENT, OVERFLOWED = 2, struct.Struct("iIII"), -1

    def __init__(self, paths):
        library = ctypes.CDLL(None, use_errno=True)
        self.file = library.inotify_init1(os.O_CLOEXEC | os.O_NONBLOCK)
        self.places = {library.inotify_add_watch(self.file, os.fsencode(path), self.MODIFIED): place for place, path in enumerate(paths)}
        if self.file < 0 or -1 in self.places:
            raise CannotStart(f"inotify: {os.strerror(ctypes.get_errno())}")

    def wait(self, seconds):
        """Returns the places of the files that have grown since the last call, after some seconds at most."""
        # (poll and epoll wait for whole milliseconds)
        if not select.select([self.file], [], [], seconds)[0]:
            return set()
        numbers = {number for number, _, _, _ in self.EVENT.iter_unpack(os.read(self.file, 65_536))}
        return set(self.places.values()) if self.OVERFLOWED in numbers else {self.places[number] for number in numbers}


def client_lines():
    """Yields the lines of the first operator without end, each with the address and the transaction ID if it has a reply."""
    for turn in itertools.count():
        for line, kind in cycle(0, turn):
            _, modem, rest = line.split(maxsplit=2)
            yield line.encode() + b"\n", None if kind == SILENT else (modem.encode(), rest[2:6].encode())


def flood_lines():
    """Yields the lines of a neighbour that floods the channel, without end."""
    modem, sid = address(1, 0), first_of(1)
    for turn in itertools.count():
        request = dsa(turn % 0x8000, flow({1: 1, 6: 6, 7: turn % 8, 15: 2}))
        for line in (f"Q {modem} {sid} 65535", f"M {modem} FFFFFFFF", f"Q {modem} {sid + PROVISIONED} 65535", message(address(1, 1 + turn % 15), request)):
            yield line.encode() + b"\n"


class Client:
    """The client of a channel, with its lines that are not answered yet, and the neighbour."""

    def __init__(self, pipe, answers, flood, frame):
        self.pipe, self.answers = os.open(pipe, os.O_WRONLY | os.O_NONBLOCK), os.open(answers, os.O_RDONLY)
        os.lseek(self.answers, 0, os.SEEK_END)
        self.ticks, self.requests, self.rest = collections.deque(), {}, b""
        self.took, self.wrong, self.latest = (array.array("Q"), array.array("Q")), 0, 0.0
        self.lines, self.flood, self.flood_due = client_lines(), flood_lines(), 0.0
        self.flood_of_half, self.dropped, self.began = flood * frame / 2, 0, None

    def write_flood(self):
        """Writes the neighbour's lines of half a frame. Those for which there is no room are dropped."""
        self.flood_due += self.flood_of_half
        lines = list(itertools.islice(self.flood, int(self.flood_due)))
        self.flood_due -= len(lines)
        while lines:
            part = [lines.pop(0)]
            while lines and sum(map(len, part)) + len(lines[0]) <= AT_ONCE:
                part.append(lines.pop(0))
            try:
                os.write(self.pipe, b"".join(part))
            except BlockingIOError:
                self.dropped += len(part)

    def write(self, half):
        """Writes what is due in the half of a frame. Returns whether there was room for it."""
        is_tick = half % 2 == 0
        if self.began is None:
            self.write_flood()
            if not is_tick and half // 2 % FRAMES_OF_A_LINE:
                return True
            self.due = (b"T\n", None) if is_tick else next(self.lines)
            self.began = time.perf_counter_ns()
        line, key = self.due
        try:
            os.write(self.pipe, line)
        except BlockingIOError:
            return False
        if is_tick:
            self.ticks.append(self.began)
        elif key is not None:
            self.requests[key] = self.began
        self.began = None
        return True

    def read(self):
        """Reads what the file of the answers has more, and notes how long the answers in it took."""
        while data := os.read(self.answers, 1 << 20):
            self.take(data, time.perf_counter_ns())

    def take(self, data, now):
        whole, _, self.rest = (self.rest + data).rpartition(b"\n")
        for found in ANSWER.finditer(whole):
            modem, transaction, code = found.groups()
            if modem is None:
                self.took[0].append(now - self.ticks.popleft())
            elif (began := self.requests.pop((modem, transaction), None)) is not None:
                self.took[1].append(now - began)
                self.wrong += code != b"00"

    def is_waiting(self):
        return bool(self.ticks or self.requests)


def drive(clients, growth, frame, seconds):
    """Writes the lines of clients at their times, and reads their answers. Returns how late the latest line was written."""
    latest, half, began = 0.0, frame / 2, time.perf_counter() + 0.05
    count = int(seconds / half)
    due = [(began + frame * place / len(clients), place, 0) for place in range(len(clients))]
    end = began + seconds + LATE_SECONDS
    while due or any(client.is_waiting() for client in clients):
        wait = due[0][0] - time.perf_counter() if due else end - time.perf_counter()
        if due and wait <= 0:
            at, place, number = heapq.heappop(due)
            is_first = clients[place].began is None
            if not clients[place].write(number):
                heapq.heappush(due, (time.perf_counter() + RETRY_SECONDS, place, number))
            elif number + 1 < count:
                heapq.heappush(due, (began + frame * place / len(clients) + (number + 1) * half, place, number + 1))
            latest = max(latest, -wait * is_first)
        elif wait <= 0 or time.perf_counter() > end:
            break
        else:
            for place in growth.wait(wait):
                clients[place].read()
    return latest


def write_part(files, frame, seconds, flood, barrier, results):
    """The work of one process: drives its part of the channels, and reports."""
    clients = [Client(pipe, answers, flood, frame) for pipe, answers in files]
    growth = Growth([answers for _, answers in files])
    barrier.wait()
    latest = drive(clients, growth, frame, seconds)
    took = [array.array("Q", itertools.chain(*(client.took[kind] for client in clients))) for kind in range(2)]
    missing = sum(len(client.ticks) + len(client.requests) for client in clients)
    results.put((took, latest, missing, sum(client.wrong for client in clients), sum(client.dropped for client in clients)))


def wait_for_map(channel):
    """Lets a channel tick, and waits for the MAP: then all its processes run."""
    with open(channel.pipe, "wb", buffering=0) as pipe:
        pipe.write(b"T\n")
    end = time.monotonic() + LATE_SECONDS
    while not channel.answers.exists() or b"MAP " not in channel.answers.read_bytes():
        channel.main_process()
        if time.monotonic() > end:
            raise CannotStart("a channel does not answer a line T")
        time.sleep(0.01)


def of_samples(took):
    """Returns how many samples there are, and their median, 99th percentile and worst in microseconds."""
    took = sorted(took)
    parts = {name: round(took[math.ceil(part * len(took)) - 1] / 1000, 1) if took else None for name, part in (("median", 0.5), ("p99", 0.99), ("worst", 1))}
    return {"samples": len(took), **parts}


def measure(channels, frame, seconds, flood, writers):
    """Returns the row of channels that run."""
    writers = min(writers, len(channels))
    files = [(channel.pipe, channel.answers) for channel in channels]
    barrier, results = multiprocessing.Barrier(writers + 1), multiprocessing.Queue()
    parts = [multiprocessing.Process(target=write_part, args=(files[place::writers], frame, seconds, flood, barrier, results)) for place in range(writers)]
    for part in parts:
        part.start()
    barrier.wait()
    before, begun = [processor_seconds(channel.main_process()) for channel in channels], time.monotonic()
    reported = [results.get(timeout=2 * LATE_SECONDS + 2 * seconds) for _ in parts]
    for part in parts:
        part.join()
    lasted = time.monotonic() - begun
    spent = [processor_seconds(channel.main_process()) for channel in channels]
    share, copier = (sum(after[of] - first[of] for after, first in zip(spent, before)) / lasted / len(channels) for of in range(2))
    took = [itertools.chain(*(each[0][kind] for each in reported)) for kind in range(2)]
    missing, wrong, dropped = (sum(each[of] for each in reported) for of in (2, 3, 4))
    return {"ticks": of_samples(took[0]), "requests": of_samples(took[1]), "latest_line": round(1e6 * max(each[1] for each in reported), 1),
            "processor_of_a_channel": round(share, 4), "processor_of_its_copier": round(copier, 4), "missing": missing, "wrong": wrong, "dropped": dropped}


def start(asked, place, count, operators):
    """Starts channels one after the other, and returns them."""
    channels, plant = [], plant_text(operators)
    try:
        for number in range(count):
            if asked.command:
                folder = pathlib.Path(place) / str(number)
                folder.mkdir()
                channels.append(CommandChannel(folder, plant, asked.command))
            else:
                channels.append(UnitChannel(f"measure{number}", plant))
        for channel in channels:
            wait_for_map(channel)
    except BaseException:
        end(channels)
        raise
    return channels


def end(channels):
    for channel in channels:
        channel.end()


def git(*words):
    return subprocess.run(["git", "-C", ROOT, *words], capture_output=True, text=True, check=False).stdout.strip()


def revision(asked):
    """Returns what is measured: the commit of the package, or that of this checkout, with the sum of the program."""
    if not asked.command:
        return re.search(r"^commit: (.*)$", BUILT.read_text(), re.MULTILINE)[1] if BUILT.exists() else "unknown"
    sum_of = hashlib.sha256(pathlib.Path(asked.command).read_bytes()).hexdigest()
    return f"{git('rev-parse', 'HEAD')[:12]}{' with changes' * bool(git('status', '--porcelain'))}, program {sum_of[:12]}"


def disk(folder):
    """Returns the file system and the device of a folder."""
    found = subprocess.run(["findmnt", "--noheadings", "--output", "FSTYPE,SOURCE", "--target", folder], capture_output=True, text=True, check=False).stdout
    return " on ".join(found.split()) or "unknown"


def about(asked):
    """Returns what the figures are of: revision, machine and disk."""
    folder = pathlib.Path(asked.folder if asked.command else "/var/lib/plant_script")
    with tempfile.TemporaryDirectory(prefix="unit", dir=folder) as place:
        sync = seconds_of_appends(pathlib.Path(place), 200, 1) / 200
    return {"revision": revision(asked), "unit": "as started by the unit" if asked.command else "plant@.service", "machine": machine(), "kernel": os.uname().release,
            "disk": disk(folder), "sync": round(1e6 * sync, 1), "load": round(os.getloadavg()[0], 1), "seconds": asked.seconds, "flood": asked.flood}


def print_about(found):
    print(f"Revision {found['revision']} ({found['unit']}). {found['machine']}, Linux {found['kernel']}, load {found['load']} before. "
          f"Disk: {found['disk']}, {found['sync']:,.0f} microseconds for a line with a sync. {found['seconds']:g} seconds each; "
          f"a neighbour that floods writes {found['flood']:,} lines a second. Times are in microseconds.\n")
    print("| channels | operators | neighbour | ticks | median | 99 % | worst | requests | median | 99 % | worst | latest line | a channel | its copier |")
    print("|" + "---|" * 14, flush=True)


def number(value):
    return "-" if value is None else f"{value:,.0f}"


def print_row(row):
    cells = [row["channels"], row["operators"], row["neighbour"]]
    cells += [number(row[kind][key]) for kind in ("ticks", "requests") for key in ("samples", "median", "p99", "worst")]
    cells += [number(row["latest_line"]), *(f"{100 * row[key]:.1f} %" for key in ("processor_of_a_channel", "processor_of_its_copier"))]
    print("| " + " | ".join(map(str, cells)) + " |", flush=True)


def faults(row):
    """Returns what is wrong with a row, or what the table does not say of it."""
    where = f"{row['channels']} channels, {row['operators']} operators, {row['neighbour']}"
    texts = ((row["missing"], "lines have no answer"), (row["wrong"], "requests have another code than 0"), (row["dropped"], "lines of the neighbour found no room in the pipe"))
    return [f"{where}: {count:,} {text}" for count, text in texts if count]


def numbers(text):
    return [int(part) for part in text.split(",")]


def read_arguments():
    parser = argparse.ArgumentParser("unit", description=__doc__, formatter_class=argparse.RawDescriptionHelpFormatter)
    parser.add_argument("--command", metavar="PROGRAM", nargs="?", const=PROGRAM, help="start channels as the unit does, with this program (the proved one)")
    parser.add_argument("--channels", metavar="N[,N..]", type=numbers, default=[1, 10, 30], help="how many channels, one number after the other (1,10,30)")
    parser.add_argument("--operators", metavar="N[,N..]", type=numbers, default=[2, 32], help="how many operators a channel has (2,32)")
    parser.add_argument("--neighbours", metavar="WORD[,WORD]", default=f"{QUIET},{FLOODING}", help="which neighbours there are (quiet,flooding)")
    parser.add_argument("--seconds", metavar="N", type=float, default=20, help="how long each row is measured (20)")
    parser.add_argument("--flood", metavar="N", type=int, default=2_000, help="lines a second of a neighbour that floods (2000)")
    parser.add_argument("--writers", metavar="N", type=int, default=2, help="processes that write lines and read answers (2)")
    parser.add_argument("--folder", metavar="FOLDER", default="/var/tmp", help="with --command: a folder on the disk that is measured (/var/tmp)")
    parser.add_argument("--json", action="store_true", help="print one object in place of the table")
    return parser.parse_args()


def measured_rows(asked):
    """Measures row after row."""
    for count, operators, neighbour in itertools.product(asked.channels, asked.operators, asked.neighbours.split(",")):
        with tempfile.TemporaryDirectory(prefix="unit", dir=asked.folder) as place:
            channels = start(asked, place, count, operators)
            try:
                row = measure(channels, frame_seconds(plant_text(operators)), asked.seconds, asked.flood if neighbour == FLOODING else 0, asked.writers)
            finally:
                end(channels)
        yield {"channels": count, "operators": operators, "neighbour": neighbour, **row}


def main():
    asked, rows = read_arguments(), []
    # (so that channels are ended)
    signal.signal(signal.SIGTERM, lambda *_: sys.exit(128 + signal.SIGTERM))
    if not asked.command and not pathlib.Path("/run/systemd/system").exists():
        sys.exit("unit: systemd does not run here: give --command")
    found = about(asked)
    if not asked.json:
        print_about(found)
    try:
        for row in measured_rows(asked):
            rows.append(row)
            if not asked.json:
                print_row(row)
    except CannotStart as fault:
        sys.exit(f"unit: {fault}")
    if asked.json:
        print(json.dumps({**found, "rows": rows}))
    for text in itertools.chain(*map(faults, rows)):
        print(f"unit: {text}", file=sys.stderr)
    if any(row["missing"] or row["wrong"] for row in rows):
        sys.exit(1)


if __name__ == "__main__":
    main()
