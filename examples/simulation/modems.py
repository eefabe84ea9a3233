"""Modems of the simulation: when they get packets to send, and what they send to the channel."""

import collections
import itertools
import random

BYTES_PER_MINISLOT = 16  # as in plant.toml
VOICE_US, VOICE_BYTES = 20_000, 232
DSA_REQ, DSA_ACK = 15, 17
MOST_MINISLOTS = 65_535


def voice(address):
    """Yields the packets of a call: 232 bytes every 20 ms, from a moment of the modem's own on."""
    first = random.Random(address).randrange(VOICE_US)
    for number in itertools.count():
        yield first + number * VOICE_US, VOICE_BYTES


def bursts(address):
    """Yields the packets of a user: bursts of 1 to 40 packets of 64 to 512 bytes, one burst in 60 ms on average."""
    rng, time = random.Random(address), 0.0
    while True:
        time += rng.expovariate(1 / 60_000)
        for _ in range(rng.randint(1, 40)):
            yield time, rng.randint(64, 512)


def tlv(kind, value, width):
    """Returns a number of this many bytes as a TLV."""
    return bytes([kind, width]) + value.to_bytes(width, "big")


def flow_request(transaction, *fields):
    """Returns a DSA-REQ for one flow that is admitted and active, with these further fields."""
    encoding = tlv(1, 1, 2) + tlv(6, 6, 1) + b"".join(tlv(*field) for field in fields)
    return bytes([DSA_REQ]) + transaction.to_bytes(2, "big") + bytes([24, len(encoding)]) + encoding


BEST_EFFORT = ((15, 2, 1),)
UNSOLICITED_GRANTS = ((15, 6, 1), (19, VOICE_BYTES, 2), (20, VOICE_US, 4), (22, 1, 1))


class Modem:
    """A modem with one flow and a queue of packets, which are sent in the minislots that the flow is granted."""

    def __init__(self, operator_at, address, arrivals, fields):
        self.operator_at, self.address, self.fields = operator_at, address, fields
        self.sid, self.delays_us = None, []
        self._arrivals, self._queue = arrivals, collections.deque()
        self._next = next(arrivals)

    def start(self, channel):
        """Adds the flow, and returns the outputs."""
        channel.arrive(self.address, flow_request(1, *self.fields))
        found = list(channel.outputs())
        self.sid = int.from_bytes(found[0].message[-2:], "big")
        channel.arrive(self.address, bytes([DSA_ACK, 0, 1, 0]))
        return found

    def act(self, channel, now_us):
        """Queues the packets that arrived, and requests minislots for the whole queue if there are new ones."""
        is_new = False
        while self._next[0] <= now_us:
            time, length = self._next
            self._queue.append([time, -(-length // BYTES_PER_MINISLOT)])
            self._next, is_new = next(self._arrivals), True
        if is_new and self.fields is BEST_EFFORT:
            channel.request(self.address, self.sid, min(MOST_MINISLOTS, sum(minislots for _, minislots in self._queue)))

    def send(self, minislots, end_us):
        """Sends from the queue in the minislots of a grant. A packet that is sent whole has the delay until the end of the grant."""
        while minislots and self._queue:
            packet = self._queue[0]
            sent = min(minislots, packet[1])
            packet[1] -= sent
            minislots -= sent
            if not packet[1]:
                self.delays_us.append(end_us - self._queue.popleft()[0])


class Flood:
    """A modem that requests all it can: four flows, and useless messages in each frame."""

    def __init__(self, operator_at, address):
        self.operator_at, self.address, self._sids, self._transactions = operator_at, address, [], itertools.count(1)

    def start(self, channel):
        """Adds the flows, and returns the outputs."""
        found = []
        for _ in range(4):
            transaction = next(self._transactions)
            channel.arrive(self.address, flow_request(transaction, *BEST_EFFORT))
            found += channel.outputs()
            self._sids.append(int.from_bytes(found[-1].message[-2:], "big"))
            channel.arrive(self.address, bytes([DSA_ACK]) + transaction.to_bytes(2, "big") + b"\0")
        return found

    def act(self, channel, _now_us):
        """Requests the most minislots for each flow, sends bytes that are not a message, and requests a flow beyond the budget."""
        for sid in self._sids:
            channel.request(self.address, sid, MOST_MINISLOTS)
        channel.arrive(self.address, b"\xff" * 40)
        channel.arrive(self.address, flow_request(next(self._transactions) % 0x8000, (15, 6, 1), (19, 65_535, 2), (20, 2000, 4), (22, 127, 1)))
