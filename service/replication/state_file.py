"""Keeps the state of a replica in a file: a snapshot of its plant, and the places in both streams to which the snapshot belongs.

    melfjits-replica 1
    lines OFFSET NUMBER            the last message of the stream of lines that the snapshot has, and the number of its last line
    answers OFFSET EPOCH NUMBER    where the reader of the stream of answers is, and the last line whose answer it accepted
    melfjits-snapshot ..           the snapshot, to the end of the file
"""

import os
import pathlib
import re
from dataclasses import dataclass

from .numbering import Position

FRONT = re.compile(rb"melfjits-replica 1\nlines (-1|[0-9]+) ([0-9]+)\nanswers (-1|[0-9]+) (-1|[0-9]+) ([0-9]+)\n(?=melfjits-snapshot )")


class Damaged(Exception):
    """A file is not the state of a replica."""


@dataclass(frozen=True)
class State:
    """A snapshot, the place in the stream of lines to which it belongs, and the place, epoch and line of the reader of answers."""
    position: Position
    reader: tuple
    snapshot: bytes

    def text(self):
        return b"melfjits-replica 1\nlines %d %d\nanswers %d %d %d\n" % (self.position.offset, self.position.lines, *self.reader) + self.snapshot


def parse_state(text):
    found = FRONT.match(text)
    if found is None:
        raise Damaged("it is not the state of a replica")
    offset, lines, *reader = map(int, found.groups())
    return State(Position(offset, lines), tuple(reader), text[found.end():])


def read_state(path):
    """Returns the state in a file, or None if there is no such file."""
    path = pathlib.Path(path)
    return parse_state(path.read_bytes()) if path.exists() else None


def write_state(path, state):
    """Replaces the file: it has the old state or the new one, whenever this is ended."""
    path = pathlib.Path(path)
    new = path.with_name(path.name + ".new")
    with new.open("wb") as file:
        file.write(state.text())
        file.flush()
        os.fsync(file.fileno())
    new.rename(path)
    folder = os.open(path.parent, os.O_RDONLY)
    try:
        os.fsync(folder)
    finally:
        os.close(folder)
