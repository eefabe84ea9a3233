"""Holds what a replica knows, and decides what it publishes. The engine and the program are passed to it.

A replica takes the messages of two streams, in their order, and the lease. It computes the answers to all lines, whether it is active or
not. It keeps an answer until it has read it in the stream of answers, so it knows what is not answered yet. With the lease it publishes a
claim. When it reads its own claim, it has read all that was answered before. From then on it publishes what was not.

What it reads is also its confirmation. If the engine lost something that it published, it publishes a new claim, and then all that is not
in the stream.
"""

import secrets
from collections import deque

from .answers import Batch, Claim, Reader
from .numbering import Position, lines_of
from .state_file import State

# How many messages an active replica publishes before it has read them in the stream.
WINDOW = 64


class Deposed(Exception):
    """Another replica claimed after this one."""


class Differs(Exception):
    """An answer in the stream is not the one that this replica computed. One of the two is wrong, and this one ends."""


class Replica:
    """What a replica knows. `plant` answers lines, `publish` publishes a message in the stream of answers. The label is part of its claims."""

    def __init__(self, label, plant, publish, state=None):
        self.label, self.plant, self.publish = label, plant, publish
        self.position = state.position if state else Position()
        self.reader = Reader(*state.reader) if state else Reader()
        # (computed and not published, published and not read, read and not computed)
        self.due, self.sent, self.ahead = deque(), deque(), deque()
        self.claim = self.epoch = self.snapshot = None

    # The stream of lines

    def take_lines(self, offset, body):
        """Computes the answers to a message's lines."""
        if offset <= self.position.offset:
            return
        lines, first = lines_of(body), self.position.lines + 1
        answers = self.plant.answers(lines, first)
        self.position = self.position.after(offset, lines)
        if lines:
            outputs = tuple((number, text) for number, texts in enumerate(answers, first) for text in texts)
            self.computed(Batch(first, self.position.lines, outputs))

    def computed(self, batch):
        """Keeps answers that were not read yet, and compares those that were."""
        if batch.first > self.reader.answered:
            self.due.append(batch)
            self.publish_due()
        elif self.ahead and self.ahead[0][0] == batch.first:
            self.compare(batch.first, hash(batch), self.ahead.popleft()[1])

    # The stream of answers

    def take_answers(self, offset, body):
        """Takes a message of the stream of answers."""
        early = self.reader.early
        message = self.reader.take(offset, body)
        if isinstance(message, Claim):
            self.take_claim(message)
        elif message is not None:
            self.take_batch(message)
        elif self.reader.early > early and self.epoch is not None:
            self.become_active()
        self.publish_due()

    def take_claim(self, claim):
        if claim == self.claim and self.epoch is None:
            self.epoch = self.reader.epoch
        elif self.epoch is not None:
            raise Deposed(claim.name)

    def take_batch(self, batch):
        """Drops the answers that were read from those that are kept, and compares them."""
        waiting = self.sent or self.due
        if waiting:
            self.compare(batch.first, hash(batch), hash(waiting.popleft()))
        elif batch.first > self.position.lines:
            self.ahead.append((batch.first, hash(batch)))

    def compare(self, first, one, other):
        if one != other:
            raise Differs(f"line {first} or one after it")

    # The lease

    def become_active(self):
        """Publishes a claim: the engine gave this replica the lease, or lost something that this replica published with it."""
        self.lose_lease()
        self.claim = Claim(f"{self.label}.{secrets.token_hex(8)}")
        self.publish(self.claim.body())

    def lose_lease(self):
        """Forgets the lease. What was published and not read is due again."""
        self.claim = self.epoch = None
        self.due.extendleft(reversed(self.sent))
        self.sent.clear()

    def publish_due(self):
        """Publishes answers that are due, if this replica is active."""
        while self.epoch is not None and self.due and len(self.sent) < WINDOW:
            batch = self.due.popleft()
            self.sent.append(batch)
            self.publish(batch.body(self.epoch))

    def awaits_answer(self):
        """Tests whether this replica published something that it has not read yet."""
        return bool(self.sent) or self.claim is not None and self.epoch is None

    # Snapshots

    def take_snapshot(self):
        """Takes a snapshot of the plant, and returns whether the plant rests."""
        text = self.plant.snapshot()
        if text is not None:
            self.snapshot = self.position, text
        return text is not None

    def state_to_keep(self):
        """Returns a state that may be kept, once: each answer to the lines before it is in the stream, so no restart may leave it out."""
        if self.snapshot is None or self.reader.answered < self.snapshot[0].lines:
            return None
        (position, text), self.snapshot = self.snapshot, None
        return State(position, (self.reader.offset, self.reader.epoch, self.reader.answered), text)
