"""Measures how long `serve` takes to answer a line: from before the line is written into a pipe until its answer is read from another.

    tools/run measure/latency [--fast] [PROGRAM [LINES]]

Prints the median, the 99.9th percentile and the worst in microseconds, of messages and of ticks, with the machine and its load.

The plant has 32 operators with 80 flows each: 79 provisioned ones, of which one is active, and one that is added, changed and deleted in
turn. A MAP has no room for more than two active ones of each. A line comes each 0.4 ms. Each fifth is `T`, a frame of all operators, so
there is one each 2 ms. The others are 2,000 messages a second: DSA-REQ, DSA-ACK, a bandwidth request, DSC-REQ, DSC-ACK, two requests,
DSD-REQ, operator after operator. A line is written at its time, or at once after the answer before it if that is late; with --fast all
are written at once. 1,000,000 lines, the default, take 400 seconds.

The answer to a tick ends with its MAP, and a reply is one line. A message without a reply is written together with an invalid line, and
the measure ends with the error line; such invalid lines do not count as LINES. Exits with 1 if a request got another code than 0, a
message without a reply got one, or a tick got other than 32 frames and a MAP: then other work was measured than is meant.
"""

import argparse
import array
import gc
import math
import os
import pathlib
import re
import subprocess
import sys
import time

from tools.compare.program import PROGRAM
from tools.generator.message_bytes import dsa, dsa_ack, dsc, dsc_ack, dsd, flow, spelled
from tools.generator.plant_text import channel_text, operator_text

OPERATORS, PROVISIONED, MODEMS = 32, 79, 16
# Of each operator's range: what comes with the plant takes the least SFIDs, the active one of them the least SID.
RANGE = 200
MESSAGES_BEFORE_TICK = 4
LINE_SECONDS = 0.002 / (MESSAGES_BEFORE_TICK + 1)
TIDS = 0x8000
REPLY, SILENT, TICK = "messages with a reply", "messages with none", "ticks"
INVALID = b"X\n"


def address(place, modem):
    return f"02{place + 1:02X}000000{modem + 1:02X}"


def first_of(place):
    return 1 + place * RANGE


def plant_text(operators=OPERATORS):
    text = channel_text(4096, 0)
    for place in range(operators):
        modems = [address(place, modem) for modem in range(MODEMS)]
        identifiers = (first_of(place), first_of(place) + RANGE - 1)
        text += operator_text(f"OP{place + 1}", modems, (place * 128, 128), identifiers, 5, flows=PROVISIONED + 1, transactions=256)
        for number in range(PROVISIONED):
            encoding = spelled([(6, 1 if number else 7), (7, number % 8), (15, 2)]).hex().upper()
            text += f'[[operator.flow]]\nmodem = "{modems[number % MODEMS]}"\nencoding = "{encoding}"\n'
    return text


def cycle(place, turn):
    """Returns the lines of the life of an operator's flow, each with its kind. They are three transactions of one modem."""
    modem, tid = address(place, turn % MODEMS), 3 * turn % TIDS
    sfid, sid = first_of(place) + PROVISIONED, first_of(place) + 1
    second, third = (tid + 1) % TIDS, (tid + 2) % TIDS
    changed = flow({2: sfid, 6: 6, 7: turn % 8, 10: 64_000 + turn % 1000, 15: 2})
    return (
        (message(modem, dsa(tid, flow({1: 1, 6: 6, 15: 2}))), REPLY),
        (message(modem, dsa_ack(tid)), SILENT),
        (f"Q {modem} {sid} {turn % 60 + 1}", SILENT),
        (message(modem, dsc(second, changed)), REPLY),
        (message(modem, dsc_ack(second)), SILENT),
        (f"Q {address(place, 0)} {first_of(place)} {turn % 200 + 1}", SILENT),
        (f"Q {modem} {sid} {turn % 90 + 40}", SILENT),
        (message(modem, dsd(third, sfid)), REPLY),
    )


def message(modem, data):
    return f"M {modem} {data.hex().upper()}"


def lines():
    """Yields lines without end, each with its kind."""
    turn = 0
    while True:
        in_turn = zip(*(cycle(place, turn) for place in range(OPERATORS)))
        for place, (line, kind) in enumerate((step for steps in in_turn for step in steps), 1):
            yield line.encode() + b"\n", kind
            if place % MESSAGES_BEFORE_TICK == 0:
                yield b"T\n", TICK
        turn += 1


class Served:
    """The program, as it answers line by line, run by a command if one is given."""

    def __init__(self, program, command=()):
        self.process = subprocess.Popen([*command, program, "serve"], stdin=subprocess.PIPE, stdout=subprocess.PIPE, bufsize=0)
        self.to, self.back = self.process.stdin.fileno(), self.process.stdout.fileno()
        self.number, self.wrong = 0, 0
        self.process.stdin.write((plant_text() + "---\n").encode())
        self.nanoseconds(b"T\n", TICK)  # (the plant is open)

    def nanoseconds(self, line, kind):
        """Writes a line, and returns how long its answer took."""
        self.number += 1 if kind != SILENT else 2
        last = {REPLY: b"R ", SILENT: b"fault: line %d\n" % self.number, TICK: b"MAP "}[kind]
        data = line + INVALID if kind == SILENT else line
        began = time.perf_counter_ns()
        os.write(self.to, data)
        answer = os.read(self.back, 65_536)
        while not is_whole(answer, kind, last):
            more = os.read(self.back, 65_536)
            if not more:
                sys.exit(f"the program has ended; it answered {line.decode().strip()} by {answer.decode()}")
            answer += more
        took = time.perf_counter_ns() - began
        self.wrong += not is_right(answer, kind, last)
        return took

    def answer_invalid(self):
        """Writes an invalid line, and reads its answer."""
        self.number += 1
        os.write(self.to, INVALID)
        self.wrong += os.read(self.back, 65_536) != b"fault: line %d\n" % self.number

    def end(self):
        self.process.stdin.close()
        return self.process.wait(60)


def is_whole(answer, kind, last):
    """Tests whether an answer is whole: its last line has its end, and is the one that ends an answer or says why there is none."""
    start = answer.rfind(b"\n", 0, len(answer) - 1) + 1
    return answer.endswith(b"\n") and answer.startswith(last if kind == SILENT else (last, b"S ", b"fault"), start)


def is_right(answer, kind, last):
    if kind == REPLY:
        return answer[21:23] == b"00"  # ("R", the address, then type, transaction ID and code)
    return answer == last if kind == SILENT else answer.count(b"\nF ") == OPERATORS - 1


def measure(served, count, fast):
    """Returns nanoseconds of each kind of line, all seconds, and by how many the latest line was written after its time."""
    took = {kind: array.array("Q") for kind in (REPLY, SILENT, TICK)}
    latest, began = 0.0, time.perf_counter()
    for place, (line, kind) in zip(range(count), lines()):
        early = began + place * LINE_SECONDS - time.perf_counter()
        if not fast:
            if early > 0:
                time.sleep(early)
            latest = max(latest, -early)
        took[kind].append(served.nanoseconds(line, kind))
    return took, time.perf_counter() - began, latest


def row(name, took):
    of_all = sorted(took)
    median, seldom, worst = (of_all[math.ceil(part * len(of_all)) - 1] / 1000 for part in (0.5, 0.999, 1))
    return f"| {name} | {len(of_all):,} | {median:,.1f} | {seldom:,.1f} | {worst:,.1f} |"


def machine():
    """Returns the model of the processors, and how many there are."""
    about = pathlib.Path("/proc/cpuinfo")
    found = re.search(r"^model name\s*: (.*)$", about.read_text(), re.MULTILINE) if about.exists() else None
    return f"{found.group(1) if found else os.uname().machine}, {os.cpu_count()} processors"


def main():
    parser = argparse.ArgumentParser("latency", description=__doc__, formatter_class=argparse.RawDescriptionHelpFormatter)
    parser.add_argument("--fast", action="store_true", help="write each line as soon as the one before is answered")
    parser.add_argument("program", nargs="?", default=PROGRAM)
    parser.add_argument("lines", nargs="?", type=int, default=1_000_000)
    options = parser.parse_args()
    before = os.getloadavg()[0]
    served = Served(options.program)
    gc.disable()
    took, seconds, latest = measure(served, max(options.lines, MESSAGES_BEFORE_TICK * OPERATORS), options.fast)
    status = served.end()
    print(f"{machine()}, load {before:.1f} before and {os.getloadavg()[0]:.1f} after")
    print(f"{sum(map(len, took.values())):,} lines in {seconds:,.1f} seconds, "
          + ("each after the answer before it" if options.fast else f"the latest {latest * 1e6:,.0f} microseconds after its time"))
    print("| lines | how many | median, microseconds | 99.9 % | worst |")
    print("|---|---|---|---|---|")
    print(row("messages", took[REPLY] + took[SILENT]))
    print(row(f"of these {REPLY}", took[REPLY]))
    print(row(f"of these {SILENT}, each with an invalid line", took[SILENT]))
    print(row(TICK, took[TICK]))
    if served.wrong or status:
        sys.exit(f"{served.wrong:,} lines got another answer than is meant; the program ended with status {status}")


if __name__ == "__main__":
    main()
