"""Counts the lines that a channel with a folder takes, by operator and type, from its journal (docs/FORMATS.md, The journal)."""

import contextlib
import os
import re
from collections import Counter

FIRST = re.compile(rb"=line (\d{1,20})\n")
END_OF_STATE, OPEN = b"\n\n", b"+"
# A line of a modem begins with a letter, a space and 12 digits.
MOST_KEY = 14
OF_MODEM = re.compile(rb"([MQ]) ([0-9A-Fa-f]{12})")
OF_OPERATOR = re.compile(rb"T(?: (\w+))?")
SLICES = re.compile(rb"Z .*", re.DOTALL)
TYPES = {b"M": "message", b"Q": "request"}


def kind_of(key, operator_of):
    """Returns the operator and the type of a line, of which the beginning is given. A tick of all operators has no operator."""
    if found := OF_MODEM.fullmatch(key):
        return operator_of.get(found[2].decode().upper(), ""), TYPES[found[1]]
    if found := OF_OPERATOR.fullmatch(key):
        return (found[1] or b"").decode(), "tick"
    return "", "slices" if SLICES.fullmatch(key) else "other"


class JournalLines:
    """The journal of a folder. A line counts once, also if a journal that has it already takes the place of the one that had it first."""

    def __init__(self, folder):
        self.path, self.file, self.place = os.path.join(folder, "journal"), None, 0
        # The number of the last line that is counted or was there before, and how many lines are in the journal since its saved state.
        self.last, self.since, self.saved = None, 0, None

    def take(self):
        """Returns how many lines with each beginning were added since the last call."""
        counts = Counter()
        with contextlib.suppress(OSError):
            if self.file is not None:
                self.take_added(counts)
            if self.file is None or self.is_replaced():
                self.open(counts)
        return counts

    def is_replaced(self):
        return not os.path.samestat(os.stat(self.path), os.fstat(self.file))

    def size(self):
        """Returns how many bytes the journal has, or None if there is none."""
        return None if self.file is None else os.fstat(self.file).st_size

    def take_added(self, counts):
        """Counts what was added after the place. Lines after a closed gate do not count yet."""
        data = os.pread(self.file, max(0, os.fstat(self.file).st_size - self.place), self.place)
        if not data.startswith(OPEN) or (end := data.rfind(b"\n") + 1) == 0:
            return
        lines = data[:end - 1].split(b"\n")
        counts.update([line[1:MOST_KEY + 1] for line in lines])
        self.place, self.last, self.since = self.place + end, self.last + len(lines), self.since + len(lines)

    def open(self, counts):
        """Opens the journal that has the name now, and counts what it has more than the one before."""
        file = os.open(self.path, os.O_RDONLY | os.O_CLOEXEC)
        with open(file, "rb", closefd=False) as stream:
            data = stream.read()
        first, start = FIRST.match(data), data.find(END_OF_STATE) + len(END_OF_STATE)
        if first is None or start < len(END_OF_STATE):
            os.close(file)
            return
        if self.file is not None:
            os.close(self.file)
        self.file, self.saved = file, int(first[1])
        self.take_whole(data, start, counts)

    def take_whole(self, data, start, counts):
        """Counts the lines of a journal that were not counted before. At first, none of them count: they are from before."""
        end = data.rfind(b"\n") + 1
        lines = data[start:end - 1].split(b"\n") if end > start else []
        lines = lines[:next((place for place, line in enumerate(lines) if not line.startswith(OPEN)), len(lines))]
        self.place, self.since = start + sum(map(len, lines)) + len(lines), len(lines)
        total = self.saved + len(lines)
        # (a journal with fewer lines than were counted is that of a channel that began anew)
        known = total if self.last is None else self.last if self.last <= total else 0
        counts.update([line[1:MOST_KEY + 1] for line in lines[max(0, known - self.saved):]])
        self.last = total
