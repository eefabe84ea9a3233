"""Passes lines on into the pipe of a channel: one line of each operator in turn, and of the owner."""

import asyncio
import fcntl
import os
import stat
import sys
import termios
from collections import deque

from .lines import MOST_LINE

# Lines wait here, and not in the pipe, while so many bytes are in it. They are fewer than a pipe can hold.
MOST_IN_PIPE = 16_384
# How long it takes until the pipe is looked at again: one with lines, and one that is not there.
SECONDS_FULL, SECONDS_MISSING = 0.001, 0.2


class Rounds:
    """The connections that have lines, by operator. The operators take turns, and so do the connections of one of them."""

    def __init__(self):
        self.turns, self.queues = deque(), {}

    def add(self, connection):
        """Adds a connection that may send a line, if it is not there yet."""
        queue = self.queues.setdefault(connection.operator, deque())
        if connection not in queue:
            queue.append(connection)
        if connection.operator not in self.turns:
            self.turns.append(connection.operator)

    def next(self):
        """Returns the connection whose turn it is, or None. A connection that may send nothing is left out until it is added again."""
        while self.turns:
            operator = self.turns.popleft()
            queue = self.queues[operator]
            while queue and not queue[0].may_send():
                queue.popleft()
            if queue:
                queue.rotate(-1)
                self.turns.append(operator)
                return queue[-1]
        return None


class LinePipe:
    """The pipe of a channel. `note` is called for each line that is passed on, in the order of the pipe."""

    def __init__(self, path, note):
        self.path, self.note, self.rounds = path, note, Rounds()
        self.file, self.identity, self.batch, self.timer = None, None, b"", None
        self.is_full, self.held = False, None

    def open(self):
        """Opens the pipe that has the path now. Returns whether there is one."""
        try:
            found = os.stat(self.path)
            if self.file is not None and (found.st_dev, found.st_ino) == self.identity:
                return True
            self.close()
            self.file = os.open(self.path, os.O_WRONLY | os.O_NONBLOCK | os.O_NOFOLLOW)
            found = os.fstat(self.file)
            self.identity = (found.st_dev, found.st_ino)
            if not stat.S_ISFIFO(found.st_mode):
                self.close()
        except OSError:
            self.close()
        return self.file is not None

    def close(self):
        if self.file is not None:
            self.stop_waiting()
            os.close(self.file)
        self.file = None

    def waiting_bytes(self):
        """Returns how many bytes are in the pipe."""
        return int.from_bytes(fcntl.ioctl(self.file, termios.FIONREAD, bytes(4)), sys.byteorder)

    def is_empty(self):
        return self.open() and not self.batch and self.waiting_bytes() == 0

    def next_batch(self):
        """Returns lines that one write keeps in one piece."""
        lines, room = [], MOST_LINE
        while room > 0:
            connection, self.held = self.held or self.rounds.next(), None
            if connection is None:
                break
            if len(connection.lines[0][1].data) > room:
                self.held = connection
                break
            number, step = connection.next_step()
            self.note(connection, number, step)
            lines.append(step.data)
            room -= len(step.data)
        return b"".join(lines)

    def pump(self):
        """Writes lines while the pipe takes them, and looks again later if it does not."""
        if self.timer is not None or self.is_full:
            return
        while True:
            if not self.open():
                return self.look_after(SECONDS_MISSING)
            if self.waiting_bytes() >= MOST_IN_PIPE:
                return self.look_after(SECONDS_FULL)
            self.batch = self.batch or self.next_batch()
            if not self.batch:
                return None
            try:
                os.write(self.file, self.batch)
                self.batch = b""
            except BlockingIOError:
                return self.wait_for_room()
            except OSError:
                # (nobody has the pipe open any more)
                self.close()
                return self.look_after(SECONDS_MISSING)

    def look_after(self, seconds):
        self.timer = asyncio.get_running_loop().call_later(seconds, self.look_again)

    def look_again(self):
        self.timer = None
        self.pump()

    def wait_for_room(self):
        self.is_full = True
        asyncio.get_running_loop().add_writer(self.file, self.has_room)

    def has_room(self):
        self.stop_waiting()
        self.pump()

    def stop_waiting(self):
        if self.is_full:
            self.is_full = False
            asyncio.get_running_loop().remove_writer(self.file)
