"""Measures how long a channel with a folder takes for a reload: another plant file while it runs.

    tools/run measure/reload [--operators N] [--modems N] [--reloads N] [--folder FOLDER] [PROGRAM]

The channel is service/systemd/serve_channel, as the unit runs it, with a folder in FOLDER, on the disk that is measured. Each modem has a flow. Each
reload adds a modem or removes it again. It takes from before the call until `serve_channel --change` returns. The gap takes from the last
answer before the reload to the first one after it: a client writes a line T each 2 ms, which wait in the pipe meanwhile.

Prints the median and the longest of both in milliseconds, with the size of the journal. Exits with 1 if a reload is refused.
"""

import argparse
import os
import pathlib
import statistics
import subprocess
import sys
import tempfile
import threading
import time

from tools import ROOT
from tools.compare.program import PROGRAM
from tools.generator.plant_text import channel_text, operator_text
from tools.measure.latency import machine

SCRIPT = ROOT / "service/systemd/serve_channel"
FRAME_SECONDS = 0.002
MOST_SECONDS = 30


def addresses(place, count):
    return [f"02{place + 1:02X}000000{modem + 1:02X}" for modem in range(count)]


def plant_text(operators, modems, more=0):
    """Returns a plant file. The first operator has so many modems more."""
    text, part = channel_text(4096, 0), 4096 // operators
    for place in range(operators):
        listed = addresses(place, modems + (more if place == 0 else 0))
        text += operator_text(f"OP{place}", listed, (place * part, part), (1 + place * 100, 100 + place * 100), (237 - 2 * operators) // operators, flows=100, transactions=64)
    return text


class Channel:
    """A channel that runs, with a client that ticks it."""

    def __init__(self, folder, program, plant):
        self.folder, self.plant, self.answers = folder, folder / "plant.toml", folder / "answers"
        self.plant.write_text(plant)
        os.mkfifo(folder / "in")
        self.pipe = os.open(folder / "in", os.O_RDWR)
        self.environment = {"PATH": os.environ["PATH"], "PLANT_SCRIPT": str(program), "PASS_REASONS": str(ROOT / "service/systemd/pass_reasons"), "ANSWERS": str(self.answers),
                            "FOLDER": str(folder / "folder"), "STATE": str(folder / "state")}
        self.process = subprocess.Popen([SCRIPT, self.plant], stdin=self.pipe, stderr=subprocess.DEVNULL, env=self.environment, start_new_session=True, restore_signals=False)
        self.times, self.ends = [], threading.Event()

    def send(self, text):
        os.write(self.pipe, text.encode())

    def wait_for(self, count):
        """Waits until so many lines are answered by frames."""
        end = time.monotonic() + MOST_SECONDS
        while not self.answers.exists() or self.answers.read_text().count("MAP ") < count:
            if time.monotonic() > end:
                sys.exit("reload: the channel does not answer")
            time.sleep(0.01)

    def tick(self):
        """Writes a line T each frame."""
        while not self.ends.is_set():
            self.send("T\n")
            time.sleep(FRAME_SECONDS)

    def watch(self):
        """Notes when the file of answers has grown."""
        size = 0
        while not self.ends.is_set():
            now = self.answers.stat().st_size
            if now != size:
                size = now
                self.times.append(time.perf_counter())
            time.sleep(0.0002)

    def reload(self, plant):
        """Returns when a reload began and when it ended."""
        self.plant.write_text(plant)
        begun = time.perf_counter()
        subprocess.run([SCRIPT, "--change", self.plant, self.folder / "in"], env=self.environment, check=True, stderr=subprocess.DEVNULL)
        return begun, time.perf_counter()

    def longest_gap(self, begun, ended):
        """Returns the longest time without an answer around a reload, in seconds."""
        times = [at for at in self.times if begun - 0.1 <= at <= ended + 0.5]
        return max((after - before for before, after in zip(times, times[1:])), default=0.0)

    def end(self):
        self.ends.set()
        os.killpg(self.process.pid, 15)
        self.process.wait()
        os.close(self.pipe)


def measure(channel, operators, modems, reloads):
    """Returns how long each reload took, and how long no line was answered, in milliseconds."""
    for place in range(operators):
        for modem in addresses(place, modems):
            channel.send(f"M {modem} 0F0001180A010200010601060F0102\nM {modem} 11000100\n")
    channel.send("T\n")
    channel.wait_for(1)
    workers = [threading.Thread(target=work) for work in (channel.tick, channel.watch)]
    for worker in workers:
        worker.start()
    took, gaps = [], []
    for turn in range(reloads):
        time.sleep(0.3)
        begun, ended = channel.reload(plant_text(operators, modems, 1 - turn % 2))
        time.sleep(0.6)
        took.append(1000 * (ended - begun))
        gaps.append(1000 * channel.longest_gap(begun, ended))
    channel.ends.set()
    for worker in workers:
        worker.join()
    return took, gaps


def main():
    ask = argparse.ArgumentParser("reload", description=__doc__, formatter_class=argparse.RawDescriptionHelpFormatter)
    ask.add_argument("--operators", metavar="N", type=int, default=2, help="operators of the plant (2)")
    ask.add_argument("--modems", metavar="N", type=int, default=4, help="modems of each operator, each with a flow (4)")
    ask.add_argument("--reloads", metavar="N", type=int, default=20, help="reloads (20)")
    ask.add_argument("--folder", metavar="FOLDER", help="where the folder of the channel is made (a temporary folder)")
    ask.add_argument("program", metavar="PROGRAM", nargs="?", default=PROGRAM, help="the program")
    asked = ask.parse_args()
    with tempfile.TemporaryDirectory(dir=asked.folder) as name:
        channel = Channel(pathlib.Path(name), asked.program, plant_text(asked.operators, asked.modems))
        try:
            took, gaps = measure(channel, asked.operators, asked.modems, asked.reloads)
        except subprocess.CalledProcessError as fault:
            sys.exit(f"reload: a reload ended with status {fault.returncode}")
        finally:
            channel.end()
        journal = (pathlib.Path(name) / "folder/journal").stat().st_size
    print(machine())
    print(f"{asked.operators} operators, {asked.operators * asked.modems} modems with a flow each, a journal of {journal} bytes at the end")
    for what, values in (("reload", took), ("no answer", gaps)):
        print(f"{what:10} median {statistics.median(values):7.1f} ms, longest {max(values):7.1f} ms, of {len(values)}")


if __name__ == "__main__":
    main()
