"""Measures how much of a processor `tools/run watch_channel` takes for a channel of 32 operators.

    tools/run measure/metrics_cost [--seconds N] [--frames N] [--load quiet|busy] [--tool WORD ..] [--program FILE]

The second implementation serves the plant of tools/run measure/latency: 32 operators with 80 flows each, four messages or requests to a tick. Its
answers and its journal are then written again and again, so many frames a second (500), into files that the command follows. With --load busy
each operator's frame has six elements with other lengths each time, which is nearly all that a MAP has room for.

The share is the processor time of the command and its processes, from 5 seconds after its first writing on. On a machine with other work the command may not
keep up, and then takes less: the MAPs that it has counted are printed. With --program, such as the proved program, the
state is computed once a minute as by the unit. Without it, the time to read a state is printed alone. Prints the machine and its load as well.
"""

import argparse
import itertools
import os
import pathlib
import random
import re
import subprocess
import sys
import tempfile
import threading
import time

from tools import ROOT
from tools.measure.latency import MESSAGES_BEFORE_TICK, OPERATORS, lines, machine, plant_text

TICKS = os.sysconf("SC_CLK_TCK")
RECORDED_FRAMES = 400
FRAMES_OF_A_STATE = 2_000
BEGIN_SECONDS = 5
WAKE_SECONDS = 0.002


def recorded(folder):
    """Returns the answers to each tick, and the lines up to it, of a channel that the second implementation serves."""
    given = [line for line, _ in itertools.islice(lines(), RECORDED_FRAMES * (MESSAGES_BEFORE_TICK + 1))]
    words = [sys.executable, ROOT / "service/reference", "serve", "--state", folder]
    text = (plant_text() + "---\n").encode() + b"".join(given)
    answers = subprocess.run(words, input=text, capture_output=True, check=True).stdout.partition(b"\n")[2]
    return whole_frames(answers), [b"".join(given[place:place + 5]) for place in range(0, len(given), 5)]


def whole_frames(answers):
    """Splits answers after each MAP."""
    found, place = [], 0
    while (start := answers.find(b"\nMAP ", place)) >= 0 and (end := answers.find(b"\n", start + 1)) >= 0:
        found.append(answers[place:end + 1])
        place = end + 1
    return found


def busy(frames):
    """Returns frames in which each operator has six elements with lengths that differ from frame to frame."""
    numbers = random.Random(1)
    return [b"".join(busy_line(line, numbers) for line in frame.splitlines(keepends=True)) for frame in frames]


def busy_line(line, numbers):
    if not line.startswith(b"F "):
        return line
    spans = ((numbers.randrange(1, 200), 5, numbers.randrange(1, 4_000), numbers.randrange(1, 120)) for _ in range(6))
    return b" ".join((*line.split()[:3], *(b"%d/%d/%d/%d" % span for span in spans))) + b"\n"


class Writer(threading.Thread):
    """Appends the answers of each frame and the lines of the journal, as a channel does."""

    def __init__(self, answers, folder, frames, batches, rate):
        super().__init__(daemon=True)
        self.answers, self.path, self.frames, self.batches, self.rate = answers, folder / "journal", frames, batches, rate
        self.saved = self.path.read_bytes().split(b"\n\n")[0].partition(b"\n")[2]
        self.count, self.is_done = 0, False

    def new_journal(self):
        """Puts a new journal in place of the old one, with the same state and no line since."""
        new = self.path.with_suffix(".new")
        new.write_bytes(b"=line %d\n%s\n\n-" % (self.count * 5, self.saved))
        new.replace(self.path)
        return open(self.path, "r+b", buffering=0)

    def run(self):
        begun, journal = time.monotonic(), self.new_journal()
        with open(self.answers, "ab", buffering=0) as file:
            while not self.is_done:
                time.sleep(WAKE_SECONDS)
                while self.count < (time.monotonic() - begun) * self.rate:
                    self.append(file, journal)
                    if self.count % FRAMES_OF_A_STATE == 0:
                        journal.close()
                        journal = self.new_journal()

    def append(self, file, journal):
        gate = journal.seek(0, 2) - 1
        journal.write(self.batches[self.count % len(self.batches)].replace(b"\n", b"\n+")[:-1] + b"-")
        os.pwrite(journal.fileno(), b"+", gate)
        file.write(self.frames[self.count % len(self.frames)])
        self.count += 1


def processes(parent):
    """Returns a process and those below it."""
    children = pathlib.Path(f"/proc/{parent}/task/{parent}/children").read_text().split()
    return [parent] + [process for child in children for process in processes(int(child))]


def processor_seconds(parent):
    """Returns the processor time of a process and those below it, and of those that it has waited for."""
    total = 0
    for process in processes(parent):
        fields = pathlib.Path(f"/proc/{process}/stat").read_text().rsplit(")", 1)[1].split()
        total += sum(map(int, fields[11:15] if process == parent else fields[11:13]))
    return total / TICKS


def maps_counted(path):
    """Returns how many MAPs the metrics have."""
    return float(re.search(r'answers_total\{.*type="map"\} (\S+)', path.read_text())[1])


def measured_share(tool, folder, environment, writer, seconds):
    """Returns the share of a processor, how many frames a second were written, what part of their MAPs was counted, and the memory in KB."""
    words, path = [*tool, "east", folder / "plant.toml", folder / "in"], folder / "melfjits_east.prom"
    with subprocess.Popen(words, env=environment) as process:
        while not path.exists():
            time.sleep(WAKE_SECONDS)
        time.sleep(BEGIN_SECONDS)
        begun, before, count, maps = time.monotonic(), processor_seconds(process.pid), writer.count, maps_counted(path)
        time.sleep(seconds)
        took, frames = time.monotonic() - begun, writer.count - count
        share, counted = (processor_seconds(process.pid) - before) / took, (maps_counted(path) - maps) / frames
        memory = pathlib.Path(f"/proc/{process.pid}/status").read_text().split("VmHWM:")[1].split()[0]
        process.terminate()
    return share, frames / took, counted, int(memory)


def print_time_of_a_state(journal):
    """Prints how long it takes to read the state that a journal has."""
    from service.watching.operator_state import read_state
    data = b"".join(line[1:] + b"\n" for line in journal.read_bytes().split(b"\n\n")[0].split(b"\n")[1:])
    begun = time.process_time()
    read_state(data)
    print(f"a state of {len(data)} bytes is read in {time.process_time() - begun:.2f} seconds")


def measure(asked, folder):
    (folder / "folder").mkdir()
    (folder / "plant.toml").write_text(plant_text())
    os.mkfifo(folder / "in")
    frames, batches = recorded(folder / "folder")
    frames = busy(frames) if asked.load == "busy" else frames
    environment = {**os.environ, "ANSWERS": str(folder / "answers"), "FOLDER": str(folder / "folder"), "METRICS": str(folder), "SNAPSHOT_SECONDS": "60" if asked.program else "0",
                   "PLANT_SCRIPT": asked.program or "/nowhere"}
    print_time_of_a_state(folder / "folder/journal")
    writer = Writer(folder / "answers", folder / "folder", frames, batches, asked.frames)
    writer.start()
    share, rate, counted, memory = measured_share(asked.tool, folder, environment, writer, asked.seconds)
    writer.is_done = True
    writer.join()
    size = sum(map(len, frames)) / len(frames)
    print(f"{100 * share:.1f} % of a processor and {memory / 1024:.0f} MB, load {asked.load}: {rate:.0f} frames a second of {OPERATORS} operators and {size:.0f} bytes, "
          f"{100 * counted:.0f} % of the MAPs counted")


def main():
    ask = argparse.ArgumentParser("metrics_cost", description=__doc__, formatter_class=argparse.RawDescriptionHelpFormatter)
    ask.add_argument("--seconds", type=int, default=30, help="how long it measures (30)")
    ask.add_argument("--frames", type=int, default=500, help="frames a second (500)")
    ask.add_argument("--load", choices=("quiet", "busy"), default="quiet", help="what the frames have")
    ask.add_argument("--tool", nargs="+", default=[ROOT / "tools/run", "watch_channel"], metavar="WORD", help="the command, such as that of another checkout")
    ask.add_argument("--program", help="the program that computes states")
    asked = ask.parse_args()
    with tempfile.TemporaryDirectory() as folder:
        measure(asked, pathlib.Path(folder))
    print(f"{machine()}, load {os.getloadavg()[0]:.1f}")


if __name__ == "__main__":
    main()
