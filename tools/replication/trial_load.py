"""Publishes lines to a channel as MAC layers do: ticks by the clock, and messages, bandwidth requests and some invalid lines between them."""

import random
import threading
import time

from service.replication.engine import BROKEN, Publisher, lines_stream
from tools.generator.message_bytes import dsa, dsa_ack, dsc, dsc_ack, dsd, flow

RETRY = 0.1
# Parameters by subtype: best effort, real-time polling, unsolicited grants.
ASKED = ({15: 2, 7: 3}, {15: 4, 16: 0x17, 17: 20_000}, {15: 6, 19: 64, 20: 20_000, 22: 1})
FLOWS = (257, 258, 259, 260, 513, 514, 515, 516)


def request_line(rng, modem):
    """Returns a line with a random request of a modem."""
    tid, sfid, asked = rng.randrange(1, 60), rng.choice(FLOWS), rng.choice(ASKED)
    message = rng.choice((dsa(tid, flow({1: 1, 6: 7, **asked})), dsc(tid, flow({2: sfid, 6: 7, **asked})), dsd(tid, sfid), dsa_ack(tid), dsc_ack(tid)))
    return b"M %s %s" % (modem, message.hex().upper().encode())


def random_line(rng, modems):
    """Returns a line: mostly a bandwidth request or a message, now and then an empty line or an invalid one."""
    modem = rng.choice(modems)
    kind = rng.random()
    if kind < 0.5:
        return b"Q %s %d %d" % (modem, rng.choice(FLOWS), rng.randrange(1, 9))
    if kind < 0.97:
        return request_line(rng, modem)
    return rng.choice((b"", b"x", b"-", b"M %s 0F" % modem, b"fault: line 3", b"answers 1 2 3", b"\xff", b"T C"))


class Load(threading.Thread):
    """Publishes to one channel at a pace: ticks and other lines in the order of their time, some milliseconds of them in a message."""

    def __init__(self, name, nodes, modems, ticks, lines, message_seconds, seed):
        super().__init__(daemon=True)
        self.publisher = Publisher(nodes, lines_stream(name))
        self.rng, self.modems = random.Random(seed), modems
        self.ticks, self.others, self.message_seconds = ticks, lines, message_seconds
        self.published = self.failures = 0
        # (the number of lines after each message, and when it was published)
        self.times = []
        self.ended = threading.Event()

    def body(self, tick_count, line_count):
        """Returns a message with so many ticks and other lines, mixed, and how many lines it has."""
        lines = [b"T"] * tick_count + [random_line(self.rng, self.modems) for _ in range(line_count)]
        self.rng.shuffle(lines)
        return b"".join(b"%s\n" % line for line in lines), len(lines)

    def run(self):
        """Publishes what has become due since the message before, until it is ended. What became due while nobody confirms comes in one message."""
        begun, ticks, others = time.monotonic(), 0, 0
        while not self.ended.is_set():
            due = time.monotonic() - begun
            body, count = self.body(int(due * self.ticks) - ticks, int(due * self.others) - others)
            ticks, others = int(due * self.ticks), int(due * self.others)
            if count:
                self.times.append((self.published + count, time.monotonic()))
                self.publish(body)
                self.published += count
            time.sleep(max(0.0, begun + due + self.message_seconds - time.monotonic()))
        if self.publisher.connection:
            self.publisher.close()

    def publish(self, body):
        """Publishes a message until it is confirmed. After a failure the stream may have it twice, as two messages of the log."""
        while True:
            try:
                return self.publisher.publish(body)
            except BROKEN:
                self.failures += 1
                time.sleep(RETRY)

    def end(self):
        self.ended.set()
        self.join()
