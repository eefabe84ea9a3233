"""Writes and reads the messages of a stream of answers, and accepts each answer once.

A stream of answers has two kinds of messages. A claim is published by a replica that became active. Its offset is the epoch of that
replica, so the engine orders epochs. Answers are those to the lines of one message, each output with the number of its line:

    claim NAME                a name that no other claim has
    answers EPOCH FIRST LAST  the first line of a message with answers to the lines FIRST to LAST
    NUMBER OUTPUT             each line of output, after the number of the line that it answers
"""

import re
from dataclasses import dataclass

CLAIM = re.compile(rb"claim ([!-~]+)\n")
FRONT = re.compile(rb"answers ([0-9]+) ([0-9]+) ([0-9]+)\n")
BEFORE_ALL = -1


class Malformed(Exception):
    """A message of the stream is neither a claim nor answers."""


@dataclass(frozen=True)
class Claim:
    """The message by which a replica says that it is active from here on."""
    name: str

    def body(self):
        return b"claim %s\n" % self.name.encode()


@dataclass(frozen=True)
class Batch:
    """The answers to the lines of one message: the outputs of the lines first to last, as pairs of a line's number and an output."""
    first: int
    last: int
    outputs: tuple

    def body(self, epoch):
        return b"answers %d %d %d\n" % (epoch, self.first, self.last) + b"".join(b"%d %s\n" % output for output in self.outputs)

    def after(self, answered):
        """Returns the batch without the lines up to the one that was answered last."""
        return self if self.first > answered else Batch(answered + 1, self.last, tuple(it for it in self.outputs if it[0] > answered))


def output_of(line):
    number, _, text = line.partition(b" ")
    return int(number), text


def parse_message(body):
    """Returns the claim of a message, or the epoch and the batch of one with answers."""
    claim = CLAIM.fullmatch(body)
    if claim:
        return Claim(claim[1].decode())
    front = FRONT.match(body)
    if front is None or not body.endswith(b"\n"):
        raise Malformed(body[:80])
    epoch, first, last = map(int, front.groups())
    try:
        outputs = tuple(map(output_of, body[front.end():].split(b"\n")[:-1]))
    except ValueError as fault:
        raise Malformed(body[:80]) from fault
    if not all(first <= number <= last for number, _ in outputs):
        raise Malformed(body[:80])
    return epoch, Batch(first, last, outputs)


class Reader:
    """Reads a stream of answers: accepts the answer to each line once, in the order of the lines, from the replica that claimed last.

    `answered` is the last line whose answer was accepted, or None for a reader that begins somewhere in the stream.
    """

    def __init__(self, offset=-1, epoch=BEFORE_ALL, answered=0):
        self.offset, self.epoch, self.answered = offset, epoch, answered
        self.claims = self.deposed = self.repeated = self.early = 0

    def take(self, offset, body):
        """Returns the claim or the batch of a message, or None if it is dropped."""
        if offset <= self.offset:
            return None
        self.offset = offset
        message = parse_message(body)
        if isinstance(message, Claim):
            self.epoch = offset
            self.claims += 1
            return message
        return self.accepted(*message)

    def accepted(self, epoch, batch):
        """Returns what of a batch was not answered yet, or None."""
        if epoch < self.epoch:
            self.deposed += 1
            return None
        if epoch > self.epoch or self.answered is None:
            # The claim was before the beginning of this reader.
            self.epoch, self.answered = epoch, batch.first - 1
        if batch.last <= self.answered:
            self.repeated += 1
            return None
        if batch.first > self.answered + 1:
            # A message before this one was lost. Its replica publishes both again, after a new claim.
            self.early += 1
            return None
        batch = batch.after(self.answered)
        self.answered = batch.last
        return batch
