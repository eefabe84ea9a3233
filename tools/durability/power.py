"""Takes the power away: makes folders as a disk may have them at each moment of a run, and lets the program go on there.

The calls of a run are recorded by the library that is preloaded. A call that is not synced yet may have reached the disk or not. Of bytes that
were written since, the disk may have any, and of a file that was cut any length between. A file may have its old name until the folder
is synced. A killed process shows nothing of this, since the system still has what was written.
"""

import random
import shutil
from dataclasses import dataclass, field

from .failures import EVERY, LINES, built_library, prepare_folder
from .judging import History, go_on, judge_journal, lockstep
from .load import PLANT, Load, joined
from .state_process import FIRST, StateProcess

WAYS = ("nothing that is not synced", "all", *(6 * ["torn"]))
# What a range that is torn may have: the old bytes, the new ones, some of each, or any bytes.
SOURCES = ("old", "new", "some", "any")


@dataclass
class DiskFile:
    """The bytes of a file as they are read, those that are on the disk, and the ranges written since."""
    bytes: bytearray
    synced: bytes
    ranges: list = field(default_factory=list)

    def left(self, way, rng):
        """Returns what a crash leaves of the file."""
        if way == "all":
            return bytes(self.bytes)
        if way != "torn" or not self.ranges and len(self.bytes) == len(self.synced):
            return self.synced
        length = rng.randint(*sorted((len(self.bytes), len(self.synced))))
        left = bytearray(self.bytes.ljust(length, b"\0")[:length])
        left[len(self.bytes):] = self.synced[len(self.bytes):length]
        for start, end in self.ranges:
            source, bytes_of_marks = rng.choice(SOURCES), b"+-" if end - start == 1 else b"+-=\nT\0"
            for place in range(start, min(end, length)):
                old = self.synced[place] if place < len(self.synced) else 0
                left[place] = {"old": old, "new": left[place], "some": rng.choice((old, left[place])), "any": rng.choice(bytes_of_marks)}[source]
        return bytes(left)

    def is_pending(self):
        return bool(self.ranges) or len(self.bytes) != len(self.synced)


class Disk:
    """A folder on a disk, to which recorded calls are done."""

    def __init__(self, folder):
        self.folder, self.files, self.names = str(folder), {}, {}
        for path in folder.iterdir():
            data = path.read_bytes()
            self.names[path.name] = path.stat().st_ino
            self.files[path.stat().st_ino] = DiskFile(bytearray(data), data)
        self.synced_names, self.printed, self.read = dict(self.names), 0, 0

    def do(self, call, *fields):
        getattr(self, f"do_{call}")(*fields)

    def do_open(self, inode, path):
        name = path[len(self.folder) + 1:]
        if name and self.names.get(name) != int(inode):
            self.names[name] = int(inode)
            self.files[int(inode)] = DiskFile(bytearray(), b"")

    def do_write(self, inode, offset, digits):
        file, data, start = self.files[int(inode)], bytes.fromhex(digits), int(offset)
        file.bytes[start:start + len(data)] = data
        file.ranges.append((start, start + len(data)))

    def do_cut(self, inode, length):
        del self.files[int(inode)].bytes[int(length):]

    def do_sync(self, inode):
        file = self.files.get(int(inode))
        if file is None:
            self.synced_names = dict(self.names)
        else:
            file.synced, file.ranges = bytes(file.bytes), []

    def do_rename(self, old, new):
        names = [path[len(self.folder) + 1:] for path in (old, new)]
        self.names[names[1]] = self.names.pop(names[0])

    def do_out(self, size):
        self.printed += int(size)

    def do_in(self, size):
        self.read += int(size)

    def is_pending(self):
        """Returns whether anything is not synced."""
        return self.names != self.synced_names or any(file.is_pending() for file in self.files.values())

    def leave(self, way, rng, folder):
        """Makes a folder of what a crash leaves."""
        shutil.rmtree(folder, ignore_errors=True)
        folder.mkdir()
        names = {"all": self.names, "torn": rng.choice((self.names, self.synced_names))}.get(way, self.synced_names)
        for name, inode in names.items():
            (folder / name).write_bytes(self.files[inode].left(way, rng))


def recorded(asked, load, folder, library, history):
    """Runs the service on a folder, and returns the disk before it and the calls that it made, each as its words."""
    disk, record = Disk(folder), folder.with_name("record")
    record.unlink(missing_ok=True)
    process = StateProcess(asked.program, folder, EVERY, {"LD_PRELOAD": str(library), "CALLS_FOLDER": str(folder), "CALLS_RECORD": str(record)})
    first = FIRST.match(process.output) if process.first_line() else None
    if first is None:
        raise RuntimeError(f"the program does not begin: status {process.wait()}, {process.reason}")
    lockstep(load, history, process, random.Random(asked.seed), LINES)
    process.end()
    return disk, [line.split(" ") for line in record.read_text().splitlines()], (int(first[1]), first.end())


def try_moment(tally, asked, load, disk, first, known, way, rng, folder):
    """Lets the program go on after a crash at one moment."""
    tally.trials += 1
    number, size = first
    given = joined(load.lines[number - 1:])[:max(0, disk.read - len(PLANT + b"---\n"))].count(b"\n")
    history = History(max(known.answered, load.touched(number, max(0, disk.printed - size))), number - 1 + given)
    disk.leave(way, rng, folder)
    judge_journal(tally, load, history, folder, f"power lost, {way}")
    go_on(tally, asked, folder, load, history, f"power lost, {way}", every=EVERY)


def try_run(tally, asked, load, folder, library, known):
    """Takes the power away at the moments of one run at which something is not synced, or at as many as are asked."""
    rng, history = random.Random(asked.seed), History(known.answered, known.given)
    disk, calls, first = recorded(asked, load, folder, library, history)
    chosen = set(rng.sample(range(len(calls) * len(WAYS)), min(len(calls) * len(WAYS), max(1, 5 * asked.times))))
    for at, call in enumerate(calls):
        disk.do(*call)
        for turn, way in enumerate(WAYS if disk.is_pending() else WAYS[:1]):
            if at * len(WAYS) + turn in chosen:
                try_moment(tally, asked, load, disk, first, known, way, rng, folder.with_name("left"))


def try_power(tally, asked, folder):
    """Takes the power away in a run that begins a journal, and in one that goes on with a torn one."""
    load, library = Load(asked.program, asked.seed, LINES), built_library(folder)
    (folder / "empty").mkdir()
    try_run(tally, asked, load, folder / "empty", library, History())
    try_run(tally, asked, load, folder / "half", library, prepare_folder(tally, asked, folder / "half", load))
