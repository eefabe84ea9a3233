"""Reads the answers of a channel for the trials: keeps them in a file, measures the pauses, and compares them with the program's own answers."""

import itertools
import pathlib
import subprocess
import threading
import time
from dataclasses import dataclass

from service.replication.answers import Claim, Reader
from service.replication.engine import Consumer, lines_stream
from service.replication.numbering import lines_of
from service.replication.plant_process import PlantProcess, beginning
from service.replication.replicate import follow

# How many lines are compared one by one. All are compared as one text.
COMPARED_ONE_BY_ONE = 20_000


class Watch(threading.Thread):
    """Reads the answers of a channel as any reader does. The file gets each output on a line, after the number of its line."""

    def __init__(self, name, nodes, path):
        super().__init__(daemon=True)
        self.name, self.nodes, self.path = name, nodes, pathlib.Path(path)
        self.file = self.path.open("wb")
        self.reader, self.active = Reader(), None
        self.last, self.lost, self.twice = 0, 0, 0
        self.answered_at, self.pause = time.monotonic(), 0.0
        # (the last line of each batch, and when it was accepted)
        self.times = []

    def run(self):
        follow(self.name, self.nodes, self.reader, self.take)

    def take(self, message):
        if isinstance(message, Claim):
            self.active = message.name
            return
        now = time.monotonic()
        self.pause, self.answered_at = max(self.pause, now - self.answered_at), now
        self.lost += max(0, message.first - self.last - 1)
        self.twice += max(0, self.last - message.first + 1)
        self.last = message.last
        self.times.append((message.last, now))
        self.file.write(b"".join(b"%d %s\n" % output for output in message.outputs))

    def mark(self):
        """Begins to measure the longest pause from now on."""
        self.pause = 0.0

    def dropped(self):
        return self.reader.deposed + self.reader.repeated + self.reader.early


def delays(published, accepted):
    """Returns the seconds from the publication of each message to the answer of its last line, where it has one. Both lists ascend."""
    found, place = [], 0
    for line, begun in published:
        while place < len(accepted) and accepted[place][0] < line:
            place += 1
        if place < len(accepted):
            found.append(accepted[place][1] - begun)
    return found


def read_log(name, nodes, last_line, path):
    """Writes all lines of a channel to a file, up to the message that has `last_line`, and returns how many there are."""
    count, found = 0, []
    with pathlib.Path(path).open("wb") as file:
        def take(_offset, body):
            nonlocal count
            lines = lines_of(body)
            count += len(lines)
            file.write(b"".join(b"%s\n" % line for line in lines))
            found.extend(line for line in lines if line == last_line)

        connection = nodes.connect()
        consumer = Consumer(connection, lines_stream(name), -1, take)
        while not found:
            connection.process_data_events(time_limit=1)
            consumer.acknowledge()
        connection.close()
    return count


@dataclass
class Comparison:
    """What a reader got of a channel, compared with the program's answers to the lines of the log."""
    lines: int
    lost: int
    twice: int
    different: int


def plain_answers(program, plant, log, path):
    """Writes what the program answers to the lines of a log, without markers and snapshots, to a file."""
    with open(log, "rb") as lines, open(path, "wb") as out:
        process = subprocess.Popen([*program, "resume"], stdin=subprocess.PIPE, stdout=out)
        process.stdin.write(beginning(plant))
        while data := lines.read(1 << 20):
            process.stdin.write(data)
        process.stdin.close()
        process.wait()


def different_texts(answers, expected):
    """Returns how many outputs of a file of answers differ from those of a file that has no numbers."""
    with open(answers, "rb") as ours, open(expected, "rb") as theirs:
        pairs = itertools.zip_longest((line.partition(b" ")[2] for line in ours), theirs)
        return sum(one != other for one, other in pairs)


def different_lines(program, plant, log, answers):
    """Returns how many of the first lines have other outputs in a file of answers than the program gives to each of them."""
    with open(log, "rb") as file:
        lines = [line[:-1] for line in itertools.islice(file, COMPARED_ONE_BY_ONE)]
    process = PlantProcess(program, plant)
    expected = [(number, text) for number, texts in enumerate(process.answers(lines, 1), 1) for text in texts]
    process.end()
    with open(answers, "rb") as file:
        found = [(int(number), text[:-1]) for number, _, text in (line.partition(b" ") for line in itertools.islice(file, len(expected)))]
    return sum(one != other for one, other in itertools.zip_longest(expected, found))


def compare(watch, count, program, plant, log):
    """Compares what a watch has read with the program's answers to a log of so many lines."""
    watch.file.flush()
    expected = f"{log}.expected"
    plain_answers(program, plant, log, expected)
    different = different_texts(watch.path, expected) + different_lines(program, plant, log, watch.path)
    return Comparison(count, watch.lost + count - watch.last, watch.twice, different)


