"""Reads what is added to a file, such as the answers of a channel: also after the file is shortened, and once another file has its name."""

import contextlib
import os
import re

MOST_BYTES = 4_194_304
# How far before the end the last MAP is looked for: a snapshot may follow it.
MOST_BEFORE_END = 16_777_216
LAST_MAP = re.compile(rb".*(?:^|\n)MAP (\d+) [0-9A-F]+\n", re.DOTALL)


class FollowedFile:
    """A file that may be missing. It is read from its end, or from its beginning if it appears later."""

    def __init__(self, path):
        self.path, self.file, self.place = path, None, 0
        self.open()
        if self.file is not None:
            self.place = os.fstat(self.file).st_size

    def open(self):
        """Opens the file that has the name now, at its beginning."""
        self.close()
        with contextlib.suppress(FileNotFoundError):
            self.file = os.open(self.path, os.O_RDONLY | os.O_CLOEXEC)
        self.place = 0

    def close(self):
        if self.file is not None:
            os.close(self.file)
        self.file = None

    def is_replaced(self):
        """Returns whether another file has the name."""
        try:
            return not os.path.samestat(os.stat(self.path), os.fstat(self.file))
        except FileNotFoundError:
            return False

    def read(self):
        """Returns what was added since the last call, so many bytes at most."""
        if self.file is None:
            self.open()
            return b"" if self.file is None else self.read_open()
        data = self.read_open()
        if not data and self.is_replaced():
            # (the old file may have got its last bytes meanwhile)
            data = self.read_open()
            if not data:
                self.open()
                data = b"" if self.file is None else self.read_open()
        return data

    def read_open(self):
        size = os.fstat(self.file).st_size
        if size < self.place:
            self.place = 0
        data = os.pread(self.file, MOST_BYTES, self.place) if size > self.place else b""
        self.place += len(data)
        return data


def last_map(path):
    """Returns the frame of the last MAP in a file and the time of the last change of the file, or None if it has no MAP near its end."""
    with contextlib.suppress(OSError), open(path, "rb") as file:
        about = os.fstat(file.fileno())
        for before_end in (65_536, 1_048_576, MOST_BEFORE_END):
            file.seek(max(0, about.st_size - before_end))
            if found := LAST_MAP.match(file.read(before_end)):
                return int(found[1]), about.st_mtime
    return None
