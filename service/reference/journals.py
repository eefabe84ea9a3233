"""Keeps a snapshot and the lines since in the journal of a folder (docs/FORMATS.md, The journal)."""

import fcntl
import os

SNAPSHOT, OPEN, CLOSED = b"=", b"+", b"-"
MODE = 0o600


def marked_lines(mark, data, place):
    """Returns the whole lines from a place on that begin with a mark, each without it, and the place after them."""
    lines = []
    while data.startswith(mark, place) and (end := data.find(b"\n", place)) >= 0:
        lines.append(data[place + 1:end])
        place = end + 1
    return lines, place


def read_journal(data):
    """Returns the lines of the snapshot, the lines since, and the offset of the gate after them. It is None if this is not a journal."""
    snapshot, place = marked_lines(SNAPSHOT, data, 0)
    if not data.startswith(b"\n", place):
        return None
    lines, place = marked_lines(OPEN, data, place + 1)
    return snapshot, lines, place


def records(mark, lines):
    return b"".join(mark + line + b"\n" for line in lines)


def write_all(file, data, place):
    """Writes all of some bytes from an offset on."""
    while data:
        count = os.pwrite(file, data, place)
        data, place = data[count:], place + count


def read_all(file):
    return b"".join(iter(lambda: os.read(file, 1 << 20), b""))


class Journal:
    """The journal of a folder, which is locked until it is closed. Each call raises OSError if a call of the system fails."""

    def __init__(self, folder):
        self.files = {}
        try:
            self.open(folder)
        except OSError:
            self.close()
            raise

    def open(self, folder):
        """Locks the folder, and reads the journal. What was read is written anew, since an earlier sync may have failed."""
        self.files["folder"] = os.open(folder, os.O_RDONLY | os.O_DIRECTORY)
        self.path = os.path.join(folder, "journal")
        self.files["lock"] = os.open(os.path.join(folder, "lock"), os.O_RDWR | os.O_CREAT, MODE)
        fcntl.flock(self.files["lock"], fcntl.LOCK_EX | fcntl.LOCK_NB)
        self.files["old"] = os.open(self.path, os.O_RDWR | os.O_CREAT, MODE)
        self.found = read_all(self.files["old"])
        self.write_anew(self.found)

    def close(self):
        while self.files:
            os.close(self.files.popitem()[1])

    def __enter__(self):
        return self

    def __exit__(self, *_fault):
        self.close()

    def write_anew(self, data):
        """Puts a new file in the place of the journal: all of it or none of it after a crash."""
        self.files["new"] = file = os.open(self.path + ".new", os.O_RDWR | os.O_CREAT | os.O_TRUNC, MODE)
        write_all(file, data, 0)
        os.fsync(file)
        os.rename(self.path + ".new", self.path)
        os.fsync(self.files["folder"])
        if "journal" in self.files:
            os.close(self.files["journal"])
        self.files["journal"] = self.files.pop("new")

    def recover(self):
        """Cuts off what does not count, and returns the lines of the snapshot and the lines since. It is None if this is not a journal."""
        found = read_journal(self.found)
        if found is None:
            return None
        snapshot, lines, self.gate = found
        file = self.files["journal"]
        os.ftruncate(file, self.gate)
        os.fdatasync(file)
        write_all(file, CLOSED, self.gate)
        os.fdatasync(file)
        return snapshot, lines

    def replace(self, snapshot):
        """Puts a snapshot in the place of the old one and of all lines since."""
        text = records(SNAPSHOT, snapshot) + b"\n"
        self.write_anew(text + CLOSED)
        self.gate = len(text)

    def append(self, lines):
        """Adds lines: first all after the gate, then the mark of the first in the gate's place. Each is synced."""
        text, file = records(OPEN, lines), self.files["journal"]
        write_all(file, text[1:] + CLOSED, self.gate + 1)
        os.fdatasync(file)
        write_all(file, text[:1], self.gate)
        os.fdatasync(file)
        self.gate += len(text)
