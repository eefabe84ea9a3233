"""Runs a replica: joins the streams and the lease of a channel to its program, keeps its state, and goes on after a lost connection."""

import sys
import time
from concurrent.futures import ThreadPoolExecutor

from .engine import BROKEN, Consumer, Lost, answers_stream, lease_queue, lines_stream, open_channel
from .plant_process import PlantProcess
from .replica import Deposed, Replica
from .state_file import read_state, write_state

# Seconds between attempts to connect, and between looks at the clock.
RETRY, LOOK = 0.2, 0.1
# Seconds until what was published has to be in the stream: then it is published again, after the same time twice over once more, and so on.
# After the second number the connection is given up.
UNSEEN, HOPELESS = 1, 12
# Seconds after which the lease is renewed: the engine closes a channel that holds a message for half an hour.
RENEW = 600


def say(text):
    print(f"replicate: {text}", file=sys.stderr, flush=True)


def close(connection):
    """Closes a connection, broken or not."""
    try:
        connection.close()
    except BROKEN:
        pass


class Service:
    """A replica with its program, its file and its connection."""

    def __init__(self, asked, nodes, program):
        self.name, self.nodes, self.path, self.snapshot_seconds = asked.name, nodes, asked.state, asked.snapshot_seconds
        state = read_state(self.path) if self.path else None
        if state:
            say(f"beginning with the snapshot after line {state.position.lines}")
        self.replica = Replica(asked.label, PlantProcess(program, state.snapshot if state else asked.plant.read_bytes()), self.publish, state)
        self.channel = self.lease = self.renew_at = self.epoch = None
        self.consumers = ()
        self.snapshot_at = time.monotonic() + self.snapshot_seconds
        self.writer, self.writing = ThreadPoolExecutor(max_workers=1), None
        self.seen_at, self.seen, self.unseen = time.monotonic(), None, UNSEEN

    def publish(self, body):
        self.channel.basic_publish(answers_stream(self.name), "", body)

    def run(self):
        """Serves until the program fails or the replica cannot go on."""
        while True:
            try:
                self.serve_connection(self.nodes.connect())
            except (*BROKEN, Deposed, Lost) as fault:
                say(f"without a connection: {type(fault).__name__} {fault}".rstrip())
            self.replica.lose_lease()
            self.renew_at = self.epoch = None
            self.nodes.rotate()
            time.sleep(RETRY)

    def serve_connection(self, connection):
        """Serves as long as a connection lasts."""
        try:
            self.channel = open_channel(connection)
            self.consume(connection)
            say(f"consuming from line {self.replica.position.lines + 1} on")
            self.seen_at, self.unseen = time.monotonic(), UNSEEN
            while True:
                connection.process_data_events(time_limit=LOOK)
                self.look_at_clock()
        finally:
            close(connection)

    def consume(self, connection):
        """Begins to consume both streams, and waits for the lease."""
        replica = self.replica
        self.consumers = (Consumer(connection, lines_stream(self.name), replica.position.offset, replica.take_lines),
                          Consumer(connection, answers_stream(self.name), replica.reader.offset, replica.take_answers))
        self.publish_lease()
        self.channel.basic_qos(prefetch_count=1)
        self.channel.basic_consume(lease_queue(self.name), self.take_lease)

    def publish_lease(self):
        """Makes sure that the queue has a lease for whom the engine makes active next. It has room for one that nobody holds."""
        self.channel.basic_publish(lease_queue(self.name), "", b"lease")

    def take_lease(self, _channel, method, *_):
        """Becomes active. The lease is held until this connection ends: then the engine makes the next replica active."""
        self.lease, self.renew_at = method.delivery_tag, time.monotonic() + RENEW
        if self.replica.claim is None:
            self.replica.become_active()

    def renew_lease(self):
        """Exchanges the lease for another one. The engine keeps the same consumer active."""
        self.publish_lease()
        self.channel.basic_ack(self.lease)
        self.renew_at = None

    def look_at_clock(self):
        """Does what is due by time: acknowledges messages, renews the lease, keeps a state, and gives up a connection that brings nothing back."""
        now, replica = time.monotonic(), self.replica
        for consumer in self.consumers:
            consumer.acknowledge()
        if self.renew_at and now > self.renew_at:
            self.renew_lease()
        if replica.epoch != self.epoch:
            self.epoch = replica.epoch
            say("on standby" if self.epoch is None else f"active in epoch {self.epoch}")
        self.look_for_answers(now)
        if self.path:
            self.keep_state(now)

    def look_for_answers(self, now):
        """Publishes again what does not come back, and gives the connection up if nothing does."""
        replica = self.replica
        if not replica.awaits_answer() or replica.reader.offset != self.seen:
            self.seen_at, self.seen, self.unseen = now, replica.reader.offset, UNSEEN
        elif now - self.seen_at > HOPELESS:
            raise Lost(f"what was published is not in the stream after {HOPELESS} seconds")
        elif now - self.seen_at > self.unseen:
            say(f"publishing again from line {replica.reader.answered + 1} on")
            self.unseen *= 2
            replica.become_active()

    def keep_state(self, now):
        """Takes a snapshot if it is time, and keeps it once all answers before it are in the stream."""
        if now > self.snapshot_at and self.replica.snapshot is None and self.replica.take_snapshot():
            self.snapshot_at = now + self.snapshot_seconds
        if self.writing is None or self.writing.done():
            state = self.replica.state_to_keep()
            # (another thread waits for the disk, which may take seconds)
            self.writing = self.writer.submit(self.write, state) if state else None

    def write(self, state):
        """Replaces the file. If that fails, the old state is still there, and is as good."""
        try:
            write_state(self.path, state)
        except OSError as fault:
            say(f"the state is not kept: {fault}")
