"""Keeps a warm standby of a channel with a folder: a service on another machine that follows the journal of the active one (docs/STANDBY.md).

    standby send FOLDER
    standby follow FOLDER COMMAND ..

send writes the journal in FOLDER to standard output, and then each line that it gains. It looks each 2 ms. follow runs COMMAND, a send on the
active machine. It puts the journal that comes into its own FOLDER, unless that has more lines, runs `plant_script serve --state` on it, and hands
the lines on. Answers go to standard output. PLANT_SCRIPT is the program, /usr/bin/plant_script by default.

Exit status: 1 COMMAND has ended; 2 wrong arguments; 3 another plant file, a line K or N, or a folder that cannot be used; otherwise that of the
program. Start follow again after any but 2: it begins with a new copy of the journal.
"""

import contextlib
import fcntl
import itertools
import os
import pathlib
import re
import subprocess
import sys
import time

from service import show_help

WAIT_SECONDS = 0.002
HEAD = re.compile(rb"=line (\d{1,20})\n=.*\n((?:=.*\n)*?)=---\n(?:=.*\n)*\n")


class CannotGoOn(Exception):
    """A journal does not go on where the one before ended, or is none."""


class Journal:
    """A journal (docs/FORMATS.md, The journal), with how many lines were read, and its plant file."""

    def __init__(self, path):
        self.path, self.stream = path, open(path, "rb", buffering=0)
        if (found := HEAD.match(self.stream.read())) is None:
            raise CannotGoOn(f"{path} is not the journal of a service")
        self.state, self.place, self.saved = found[0], found.end(), int(found[1])
        self.plant, self.count = re.sub(rb"(?m)^=", b"", found[2]), self.saved

    def take(self):
        """Returns all lines that were added since the last call. Lines after a closed gate are not there yet."""
        self.stream.seek(self.place)
        lines = [line[1:] for line in itertools.takewhile(lambda line: line.startswith(b"+"), self.stream.read().split(b"\n")[:-1])]
        self.place, self.count = self.place + sum(map(len, lines)) + 2 * len(lines), self.count + len(lines)
        return lines

    def total(self):
        """Returns how many lines there are, and closes the journal."""
        with self.stream:
            return len(self.take()) + self.saved


def send(folder, out):
    """Writes the journal, after a line with its size, and then the lines that it gains."""
    journal = Journal(folder / "journal")
    copy = journal.state + b"".join(b"+%s\n" % line for line in journal.take()) + b"-"
    out.write(b"%d\n%s" % (len(copy), copy))
    while True:
        # (a journal has its last lines once another one has the name)
        is_replaced = not os.path.samestat(os.stat(journal.path), os.fstat(journal.stream.fileno()))
        lines = journal.take()
        if is_replaced:
            old, journal = journal, Journal(journal.path)
            old.stream.close()
            new = journal.take()
            # (a line K or N is in no journal: the state that it saved counts it)
            if journal.plant != old.plant or not journal.saved <= old.count <= journal.count:
                raise CannotGoOn(f"the journal has another plant file, or not all lines after {old.count}")
            lines += new[old.count - journal.saved:]
        out.write(b"".join(b"%s\n" % line for line in lines))
        out.flush()
        time.sleep(WAIT_SECONDS)


def put_journal(folder, copy):
    """Puts a journal into a folder that no service has open, and returns its plant file."""
    with open(folder / "lock", "ab") as lock, open(folder / "journal.sent", "wb") as file:
        try:
            fcntl.flock(lock, fcntl.LOCK_EX | fcntl.LOCK_NB)
        except BlockingIOError:
            raise CannotGoOn(f"{folder} is in use") from None
        file.write(copy)
        file.flush()
        os.fsync(file.fileno())
        sent = Journal(file.name)
        lines = sent.total()
        if (folder / "journal").exists() and Journal(folder / "journal").total() > lines:
            raise CannotGoOn(f"{folder} has more lines than the journal that comes: take over, or remove the journal there")
        os.replace(file.name, folder / "journal")
    return sent.plant


def hand_on(plant, source, target):
    """Writes the plant file and whole lines, as they come. A line without its end would be another line."""
    rest = b""
    with contextlib.suppress(BrokenPipeError), target:
        target.write(plant + b"---\n")
        while data := source.read1(65_536):
            whole, end, rest = (rest + data).rpartition(b"\n")
            target.write(whole + end)
            target.flush()


def follow(folder, words):
    """Serves the journal that a command sends, with the lines that follow. Returns the exit status."""
    with subprocess.Popen(words, stdout=subprocess.PIPE) as sender:
        try:
            size = int(sender.stdout.readline() or b"1")
            copy = sender.stdout.read(size)
            if len(copy) != size:
                raise CannotGoOn("no whole journal comes: is the active machine there?")
            plant = put_journal(folder, copy)
            program = [os.environ.get("PLANT_SCRIPT", "/usr/bin/plant_script"), "serve", "--state", folder]
            with subprocess.Popen(program, stdin=subprocess.PIPE) as service:
                hand_on(plant, sender.stdout, service.stdin)
            return service.returncode or 1
        finally:
            sender.terminate()


def main():
    show_help(__doc__)
    try:
        match sys.argv[1:]:
            case ["send", folder]:
                send(pathlib.Path(folder), open(1, "wb", closefd=False))
            case ["follow", folder, _, *_]:
                sys.exit(follow(pathlib.Path(folder), sys.argv[3:]))
        print("usage: standby send FOLDER, or standby follow FOLDER COMMAND ..", file=sys.stderr)
        sys.exit(2)
    except (CannotGoOn, OSError) as fault:
        print(f"standby: {fault}", file=sys.stderr)
        sys.exit(3)


if __name__ == "__main__":
    main()
