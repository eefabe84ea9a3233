"""A connection of a client: the lines that it has written and that wait, and the answers that it has not read."""

import asyncio
import json
import select
from collections import deque

from .lines import LineSplitter, Refused, judge_line
from .outputs import Output

# A connection that has more lines waiting is not read until half of them are passed on.
MOST_WAITING = 16_384
# Bytes of answers that wait for a client: of an operator, and of the owner. A connection with more is closed.
MOST_UNREAD, MOST_UNREAD_OF_OWNER = 1_048_576, 16_777_216
# Lines that always have an answer, and have none yet. The next line of such a connection waits.
MOST_UNANSWERED = 4_096
# So much is read at once: a flood of short lines then takes some milliseconds, before other connections are read.
CHUNK = 4_096
WORDS = {True: ("maps", "json"), False: ("all", "json")}


class Connection(asyncio.BufferedProtocol):
    """A connection to the socket of an operator, or of the owner (None)."""

    def __init__(self, bridge, operator):
        self.bridge, self.operator, self.counts = bridge, operator, bridge.counts_of(operator)
        self.transport, self.chunk = None, memoryview(bytearray(CHUNK))
        self.splitter, self.lines, self.waiting, self.number = LineSplitter(), deque(), 0, 0
        self.unanswered, self.outgoing, self.wanted = 0, [], set()
        self.is_paused = self.is_half_closed = False
        self.most_unread = MOST_UNREAD_OF_OWNER if operator is None else MOST_UNREAD

    # What asyncio calls

    def connection_made(self, transport):
        self.transport = transport
        self.bridge.join(self)

    def connection_lost(self, _fault):
        if self.splitter.has_part():
            self.counts["refused_unfinished"] += 1
        # (its whole lines are passed on)
        self.splitter, self.outgoing = LineSplitter(), []
        self.bridge.leave(self)

    def get_buffer(self, _size):
        return self.chunk

    def buffer_updated(self, size):
        for line in self.splitter.take(bytes(self.chunk[:size])):
            self.number += 1
            if line != b"":
                self.take(line)
        self.flush()
        if self.waiting > MOST_WAITING:
            self.is_paused = True
            self.transport.pause_reading()
        self.bridge.lines_wait(self)

    def eof_received(self):
        """Keeps a connection whose client only reads from now on."""
        if self.splitter.has_part():
            self.number += 1
            self.refuse(Refused("unfinished", "the line has no LF"))
            self.splitter = LineSplitter()
            self.flush()
        self.is_half_closed = True
        return True

    # Lines

    def take(self, line):
        """Takes a line, which is None if it was too long."""
        try:
            if line is None:
                raise Refused("length", "a line has at most 4096 bytes with its LF")
            if line == b"counts" and self.operator is None:
                self.tell("counts", "counts " + json.dumps(self.bridge.counts, sort_keys=True, separators=(",", ":")))
            elif line.startswith(b"subscribe"):
                self.subscribe(line.decode("latin-1").split(" "))
            else:
                step = judge_line(line, self.bridge.rights, self.operator)
                self.lines.append((self.number, step))
                self.waiting += len(step.data)
        except Refused as fault:
            self.refuse(fault)

    def subscribe(self, words):
        known = WORDS[self.operator is not None]
        if words[0] != "subscribe" or not words[1:] or not set(words[1:]) <= set(known):
            raise Refused("form", f"subscribe has one or more of the words {', '.join(known)}")
        self.wanted |= set(words[1:])
        self.tell("subscribed", " ".join(["subscribed", *words[1:]]))

    def refuse(self, fault):
        self.counts["refused_" + fault.reason] += 1
        self.tell("refused", str(fault), reason=fault.reason)

    def next_step(self):
        """Removes the first line that waits, and returns its number and its step. Reads on if few are left."""
        number, step = self.lines.popleft()
        self.waiting -= len(step.data)
        if self.is_paused and self.waiting <= MOST_WAITING // 2 and not self.transport.is_closing():
            self.is_paused = False
            self.transport.resume_reading()
        self.counts["passed"] += 1
        return number, step

    def may_send(self):
        return bool(self.lines) and self.unanswered < MOST_UNANSWERED

    # Answers

    def tell(self, kind, text, **members):
        """Sends a line of the bridge itself, as the answer to the line that is taken."""
        self.send(Output(text, kind, members), self.number)

    def send(self, output, number=None):
        """Sends an output with the number of the line that it answers, if that is known."""
        self.outgoing.append(output.object_for(number) if "json" in self.wanted else output.line_for(number))

    def flush(self):
        """Writes what was sent. A client that leaves too much unread is disconnected, and what waits for it is dropped."""
        if not self.outgoing or self.transport.is_closing():
            return
        data = b"".join(self.outgoing)
        self.outgoing.clear()
        if self.transport.get_write_buffer_size() + len(data) > self.most_unread:
            self.counts["closed_slow"] += 1
            self.bridge.say(f"{self.operator or 'the owner'}: a connection is closed: its client has not read {self.most_unread} bytes")
            self.transport.abort()
            return
        self.transport.write(data)

    def has_hung_up(self):
        """Returns whether the client has closed a connection from which nothing more is read."""
        if not self.is_half_closed or self.transport.is_closing():
            return False
        poll = select.poll()
        poll.register(self.transport.get_extra_info("socket").fileno(), 0)
        return any(event & (select.POLLHUP | select.POLLERR) for _, event in poll.poll(0))
