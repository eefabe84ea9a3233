"""Asks a channel for snapshots by the line K, without ever waiting for its pipe."""

import contextlib
import os

# An unanswered request is repeated after so many periods, and after each refusal the next one comes twice as late, up to this factor.
PERIODS_WITHOUT_ANSWER = 10
MOST_DOUBLINGS = 6


def write_request(pipe):
    """Writes the line K into a pipe if there is room and somebody who reads it. Returns whether it was written."""
    with contextlib.suppress(OSError):
        file = os.open(pipe, os.O_WRONLY | os.O_NONBLOCK | os.O_CLOEXEC)
        try:
            return os.write(file, b"K\n") == 2
        finally:
            os.close(file)
    return False


class SnapshotRequests:
    """Decides when a channel gets a line K: once a period, one at a time. With a period of 0, never."""

    def __init__(self, pipe, period, now):
        self.pipe, self.period, self.due = pipe, period, now
        self.asked, self.refusals = None, 0

    def ask(self, now):
        """Requests a snapshot if it is time for one."""
        if self.period and now >= self.due:
            self.asked = now if write_request(self.pipe) else None
            self.due = now + self.period * (PERIODS_WITHOUT_ANSWER if self.asked is not None else 1)

    def answered(self, is_refused):
        """Notes an answer: a snapshot, or an invalid line, which may be that of another client."""
        if not is_refused:
            self.refusals = 0
        if self.asked is not None:
            self.refusals = min(self.refusals + is_refused, MOST_DOUBLINGS)
            self.due, self.asked = self.asked + self.period * 2 ** self.refusals, None

    def hasten(self, now):
        """Makes the next request due at once, unless one is on its way."""
        if self.asked is None:
            self.due = now
