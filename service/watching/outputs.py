"""Splits the answers of a channel into lines and snapshots. They come in pieces, as a file grows."""

import re

from service.reference.resuming import SNAPSHOT

RECORD = re.compile(rb"(?:---|(?:frame|operator|slice|next|flow|response|message|request|end) .*)")
# What is longer than this and not complete is dropped.
MOST_BYTES = 67_108_864


class NoSnapshot(Exception):
    """A line looks like the first one of a snapshot, and none follows: its process was killed, or was at the end of the disk."""


def end_of_snapshot(data, place):
    """Returns where the snapshot ends whose first line begins at a place, or None if it is not complete yet."""
    first_end = data.index(b"\n", place)
    fields = data[place:first_end].split(b" ")
    if len(fields) != 3 or not fields[2].isdigit():
        raise NoSnapshot
    start = first_end + 1 + int(fields[2])
    while (end := data.find(b"\n", start)) >= 0:
        line = data[start:end]
        if RECORD.fullmatch(line) is None:
            raise NoSnapshot
        start = end + 1
        if line.startswith(b"end "):
            return start
    return None


def start_of_snapshot(data, place):
    """Returns where the next line from a place on begins that looks like the first one of a snapshot and is whole, or None."""
    start = place if data.startswith(SNAPSHOT, place) else data.find(b"\n" + SNAPSHOT, place) + 1
    is_there = start > place or data.startswith(SNAPSHOT, place)
    return start if is_there and data.find(b"\n", start) >= 0 else None


class Outputs:
    """The bytes of the answers that are not a whole line or a whole snapshot yet."""

    def __init__(self):
        self.rest = b""

    def take(self, data):
        """Returns the lines, without their LF, and the snapshots that are complete with these bytes."""
        found = []
        for piece in self.pieces(data):
            found += [piece] if piece.startswith(SNAPSHOT) else piece[:-1].split(b"\n")
        return found

    def pieces(self, data):
        """Returns what is complete with these bytes: a snapshot in each piece, or all lines up to the next one, with their LF."""
        data, place, found = self.rest + data, 0, []
        while (start := start_of_snapshot(data, place)) is not None:
            if start > place:
                found.append(data[place:start])
            try:
                place = end_of_snapshot(data, start)
            except NoSnapshot:
                place = data.index(b"\n", start) + 1
                continue
            if place is None:
                return self.keep(data[start:], found)
            found.append(data[start:place])
        end = data.rfind(b"\n", place) + 1
        if end > place:
            found.append(data[place:end])
        return self.keep(data[max(place, end):], found)

    def keep(self, rest, found):
        """Keeps what is not complete, unless it is too long, and returns what is."""
        self.rest = rest if len(rest) <= MOST_BYTES else b""
        return found
