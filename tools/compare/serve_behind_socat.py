"""Compares the answers of plants that are served behind a Unix socket with what `run` prints for the same lines.

    tools/run compare/serve_behind_socat [PROGRAM]     Needs bash, socat, flock and ps; takes less than 20 seconds.

examples/serving/serve_plant.sh serves each plant in a folder of its own. The lines are compared in the order in which they arrived:

  - two clients write in turn, then both at once, in pieces that end within lines
  - invalid lines are among them; each is reported by its number and changes nothing
  - a client is killed in the middle of a line, and so is one that writes the record; the rest of the line has no effect
  - the plant is stopped, by SIGTERM and by killing the program, and is started again from its record

Prints a line for each example and test; exits with 1 if one differs. Ends at once if an answer takes too long.
"""

import os
import pathlib
import runpy
import signal
import socket
import subprocess
import sys
import tempfile
import threading
import time

from tools import EXAMPLES, show_help
from tools.compare.program import PROGRAM, program_answer
from tools.compare.serve_as_run import INVALID, split

SERVING = EXAMPLES / "serving"
WHOLE_LINES = runpy.run_path(str(SERVING / "whole_lines.py"))
LONGEST, TOO_LONG, UNFINISHED = (WHOLE_LINES[name] for name in ("LONGEST", "TOO_LONG", "UNFINISHED"))

NAMES = ("isolation/run_flood", "changes/run", "deletions/run", "two_operators")
# What a killed writer of the record leaves of a line, and the line that is recorded in its place.
CUT = b"T"
CUT_OFF = CUT + UNFINISHED.rstrip(b"\n")
SECONDS = 6
PIECE = 1_001


class Late(Exception):
    pass


def wait_until(what, holds):
    end = time.monotonic() + SECONDS
    while not holds():
        if time.monotonic() > end:
            raise Late(what)
        time.sleep(0.002)


def children(process):
    """Returns the numbers and the command lines of the processes that a process has started."""
    listed = subprocess.run(["ps", "-o", "pid=,args=", "--ppid", str(process.pid)], stdout=subprocess.PIPE, text=True, timeout=SECONDS)
    return [(int(line.split()[0]), line) for line in listed.stdout.splitlines()]


class Plant:
    """A plant that is served in a folder, and the lines that it received."""

    def __init__(self, program, text, folder):
        self.program, self.folder = program, folder
        self.plant, self.script = split(text)
        self.script = [line for line in self.script if line]
        self.came, self.served = [], None
        (folder / "plant.toml").write_bytes(b"\n".join(self.plant[:-1]) + b"\n")

    def start(self):
        words = [SERVING / "serve_plant.sh", self.folder / "plant.toml", self.folder]
        environment = {**os.environ, "PLANT_SCRIPT": str(self.program)}
        self.served = subprocess.Popen(words, env=environment, stdin=subprocess.DEVNULL, stderr=subprocess.DEVNULL)
        wait_until("no socket", (self.folder / "socket").is_socket)

    def client(self):
        """Returns a client that is connected. The socket may be there a moment before it listens."""
        made = socket.socket(socket.AF_UNIX)
        made.settimeout(SECONDS)
        wait_until("no client is let in", lambda: made.connect_ex(str(self.folder / "socket")) == 0)
        return made

    def record(self):
        return (self.folder / "record").read_bytes()

    def wait_for(self, lines):
        """Waits until the record has so many lines."""
        wait_until("a line has not come", lambda: self.record().count(b"\n") >= lines)

    def has_answered(self):
        """Tests whether the record is what came, and the answers are those of `run` and of `serve` on it."""
        if self.record() != b"".join(line + b"\n" for line in self.came):
            return False
        bad = {CUT_OFF, *as_recorded(INVALID)}
        status, ran = program_answer(self.program, ["run"], b"\n".join(self.plant + [line for line in self.came if line not in bad]) + b"\n")
        got, right = program_answer(self.program, ["serve"], b"\n".join(self.plant + self.came) + b"\n")
        wait_until("a line is not answered", lambda: (self.folder / "answers").stat().st_size >= len(right))
        answers = (self.folder / "answers").read_bytes()
        faults = [b"fault: line %d\n" % place for place, line in enumerate(self.came, 1) if line in bad]
        printed = answers.splitlines(keepends=True)
        return (status, got) == (0, 0) and answers == right and [line for line in printed if line.startswith(b"fault: ")] == faults \
            and b"".join(line for line in printed if not line.startswith(b"fault: ")) == ran

    def stop(self, by_signal):
        """Ends the plant, and tests whether the status of its script says how it ended."""
        if by_signal:
            self.served.send_signal(signal.SIGTERM)
        else:
            for number in [number for number, words in children(self.served) if words.endswith(" serve")]:
                os.kill(number, signal.SIGKILL)
        return (self.served.wait(SECONDS) == 0) == by_signal and not (self.folder / "socket").exists()

    def end(self):
        """Ends all that is still there."""
        if self.served is not None and self.served.poll() is None:
            left = children(self.served)
            self.served.terminate()
            try:
                self.served.wait(SECONDS)
            except subprocess.TimeoutExpired:
                for number in [self.served.pid, *(number for number, _words in left)]:
                    os.kill(number, signal.SIGKILL)
                self.served.wait(SECONDS)


def as_recorded(lines):
    return [TOO_LONG if len(line) > LONGEST else line for line in lines]


def with_faults(lines, first):
    """Returns the lines, with an invalid line after every third."""
    mixed = []
    for place, line in enumerate(lines):
        mixed += [line, INVALID[(first + place // 3) % len(INVALID)]] if place % 3 == 0 else [line]
    return mixed


def are_merged(first, second, lines):
    """Tests whether the lines are those of two clients, of each in its order."""
    taken = {0}
    for place, line in enumerate(lines):
        of_first = {count + 1 for count in taken if first[count:count + 1] == [line]}
        taken = of_first | {count for count in taken if second[place - count:place - count + 1] == [line]}
    return len(lines) == len(first) + len(second) and len(first) in taken


def in_turn(plant):
    clients = [plant.client(), plant.client()]
    for place, line in enumerate(with_faults(plant.script, 0)):
        clients[place % 2].sendall(line + b"\n")
        plant.came += as_recorded([line])
        plant.wait_for(len(plant.came))
    for client in clients:
        client.close()
    return plant.has_answered()


def write_in_pieces(client, lines):
    data = b"".join(line + b"\n" for line in lines)
    for place in range(0, len(data), PIECE):
        client.sendall(data[place:place + PIECE])
        time.sleep(0.0001)
    client.close()


def at_once(plant):
    before = len(plant.came)
    written = [with_faults(plant.script[first::2] * 3, first + 4) for first in (0, 1)]
    writers = [threading.Thread(target=write_in_pieces, args=(plant.client(), lines)) for lines in written]
    for writer in writers:
        writer.start()
    for writer in writers:
        writer.join(SECONDS)
    plant.wait_for(before + sum(len(lines) for lines in written))
    plant.came = plant.record().split(b"\n")[:-1]
    return are_merged(*[as_recorded(lines) for lines in written], plant.came[before:]) and plant.has_answered()


def killed_within_a_line(plant):
    """Kills a client within a line. The rest would be a line if it were ended, by itself or with what comes next."""
    writing = ["socat", "-u", "STDIN", f"UNIX-CONNECT:{plant.folder}/socket"]
    with subprocess.Popen(writing, stdin=subprocess.PIPE) as client:
        client.stdin.write(plant.script[0] + b"\nT")
        client.stdin.flush()
        plant.came += plant.script[:1]
        plant.wait_for(len(plant.came))
        client.kill()
    with plant.client() as other:
        other.sendall(b"T\nX\n")
        plant.came += [b"T", b"X"]
        plant.wait_for(len(plant.came))
    return plant.has_answered()


def cut_within_a_line(plant):
    """Kills a writer of the record in the middle of a line, which would be one if it were ended."""
    with (plant.folder / "record").open("ab") as record:
        record.write(CUT)
    with plant.client() as client:
        client.sendall(b"T\n")
        plant.came += [CUT_OFF, b"T"]
        plant.wait_for(len(plant.came))
    return plant.has_answered()


def started_again(plant, by_signal):
    """Starts the plant again: it executes the record, writes none of its answers again, and continues."""
    ended = plant.stop(by_signal)
    before = (plant.folder / "answers").read_bytes()
    plant.start()
    with plant.client() as client:
        more = with_faults(plant.script, 2)
        client.sendall(b"".join(line + b"\n" for line in more))
        plant.came += as_recorded(more)
        plant.wait_for(len(plant.came))
    return ended and plant.has_answered() and (plant.folder / "answers").read_bytes().startswith(before)


def stopped(plant):
    return started_again(plant, True)


def program_killed(plant):
    return started_again(plant, False)


def tests_of(program, name):
    """Yields the name of each test of an example, and whether it passed."""
    with tempfile.TemporaryDirectory() as folder:
        plant = Plant(program, (EXAMPLES / f"{name}.txt").read_bytes(), pathlib.Path(folder))
        try:
            plant.start()
            for test in in_turn, at_once, killed_within_a_line, cut_within_a_line, stopped, program_killed:
                yield test.__name__, test(plant)
        finally:
            plant.end()


def main():
    show_help(__doc__)
    program = pathlib.Path(sys.argv[1] if len(sys.argv) == 2 else PROGRAM).resolve()
    wrong = 0
    for name in NAMES:
        try:
            for test, well in tests_of(program, name):
                wrong += not well
                print(f"{'same' if well else 'DIFFERS'}: {name}.txt ({test})", flush=True)
        except (Late, OSError, subprocess.TimeoutExpired) as fault:
            print(f"DIFFERS: {name}.txt ({fault})")
            return 1
    return 1 if wrong else 0


if __name__ == "__main__":
    sys.exit(main())
