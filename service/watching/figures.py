"""Counts what a channel outputs, and keeps its last state."""

import re
from collections import Counter

from service.reference.resuming import SNAPSHOT

from .journal_lines import kind_of
from .operator_state import Unreadable, read_state
from .tick_times import Histogram

# The kinds of lines that begin with a byte. A line S has no number of a line where that was the number of a frame as well.
LINES = {first: tuple((kind, re.compile(pattern)) for kind, pattern in kinds) for first, kinds in (
    (b"R", (("reply", rb"R ([0-9A-F]{12}) [0-9A-F]{6}([0-9A-F]{2})(?:[0-9A-F]{2})*"),)),
    (b"S", (("drop", rb"S ([0-9A-F]{12}) (\w+)"), ("start", rb"S line(?: \d+)?(?: frame \d+)?"))),
    (b"f", (("fault", rb"fault: (\w+)(?: .*)?"),)),
    (b"P", (("change", rb"P frame \d+"),)),
    (b"N", (("number", rb"N frame \d+"),)),
)}
TYPES = ("reply", "drop", "frame", "map", "fault", "change", "number", "start", "snapshot")
FRAME_START, MAP_START = b"\nF ", b"\nMAP "
MAP = re.compile(rb"(\d+) [0-9A-F]")
# A frame, with its number or without. Without a number, an operator's name may not be a number, and elements follow.
NUMBERED, FRAME = re.compile(rb"F (\w+) \d+(?= |$)"), re.compile(rb"F (\w*[^\W\d]\w*)(?: \d+(?= |$)|(?= ))")
OF_A_NUMBER = re.compile(rb"\nF \d")
ELEMENT = re.compile(rb"(\d+)/(?:(\d+)/\d+/(\d+)|P)")
USES = ("granted", "polled", "idle", "pending")
GRANTED, POLLED, IDLE, PENDING = range(4)
POLL = b"1"
# More lines and elements of frames than these are not kept to be known again.
MOST_KEPT = 30_000
# Longer text is counted at once.
MOST_TEXT = 33_554_432


class InvalidElement(Exception):
    """A line has something that is no element of a frame."""


class FrameSums:
    """Adds up the minislots and the pending grants in frames of each operator. A line or an element that is known is not read again."""

    def __init__(self):
        self.sums, self.lines, self.elements = {}, {}, {}

    def add(self, line, count, pattern):
        """Adds a line of a frame so many times. Returns whether it is one."""
        sums = self.lines.get(line)
        if sums is None:
            sums = self.lines[line] = self.read(line, pattern)
            if len(self.lines) > MOST_KEPT:
                self.lines.clear()
        name, amounts = sums
        if name is None:
            return False
        total = self.sums.setdefault(name, [0, 0, 0, 0])
        for use, amount in enumerate(amounts):
            if amount:
                total[use] += amount * count
        return True

    def read(self, line, pattern):
        """Returns the operator of a frame, and its sums by use. There is no operator if the line is not a frame."""
        found, amounts = pattern.match(line), [0, 0, 0, 0]
        if found is None:
            return None, ()
        try:
            for element in line[found.end():].split(b" ")[1:]:
                use, amount = self.elements.get(element) or self.read_element(element)
                amounts[use] += amount
        except InvalidElement:
            return None, ()
        return found[1].decode(), tuple(amounts)

    def read_element(self, element):
        found = ELEMENT.fullmatch(element)
        if found is None:
            raise InvalidElement
        sid, iuc, length = found.groups()
        known = (PENDING, 1) if iuc is None else (IDLE if sid == b"0" else POLLED if iuc == POLL else GRANTED, int(length))
        if len(self.elements) > MOST_KEPT:
            self.elements.clear()
        self.elements[element] = known
        return known


def split_at_maps(text):
    """Returns the lines before each MAP and after the last one, as texts, and what the lines MAP have after their first word."""
    first, *rest = (b"\n" + text[:-1]).split(MAP_START)
    maps, texts = [], [first]
    for part in rest:
        line, _, after = part.partition(b"\n")
        maps.append(line)
        texts.append(b"\n" + after)
    return texts, maps


class Figures:
    """The counts of a channel since a process began to read its answers, and its last state."""

    def __init__(self, operator_of, frame_seconds=None):
        self.operator_of, self.frame_seconds, self.state = operator_of, frame_seconds, None
        # (a counter that begins with 0 shows its first increase)
        self.outputs, self.faults = Counter(dict.fromkeys(TYPES, 0)), Counter(line=0, memory=0)
        self.replies, self.drops, self.lines, self.frames = Counter(), Counter(), Counter(), FrameSums()
        self.intervals, self.tick_times = Histogram(), Histogram()
        self.frame, self.last_map, self.last_read, self.last_snapshot = None, None, None, None
        self.journal_bytes = self.journal_lines = self.last_saved = self.waiting_bytes = self.answers_bytes = None
        self.is_at_rest, self.texts, self.kinds = True, [], set()
        self.disks, self.units, self.of_lines = {}, {}, {}

    def take(self, output, now):
        """Takes whole lines or a snapshot that were read at a time. Lines are counted once all is settled, since many of them are equal."""
        if output.startswith(SNAPSHOT):
            self.settle_lines()
            self.take_snapshot(output, now)
            return
        self.texts.append(output)
        self.take_maps(output.count(MAP_START) + output.startswith(MAP_START[1:]), now)
        frame, last_map = (max(output.rfind(start), 0 if output.startswith(start[1:]) else -1) for start in (FRAME_START, MAP_START))
        self.is_at_rest = self.is_at_rest if frame == last_map else last_map > frame
        if sum(map(len, self.texts)) > MOST_TEXT:
            self.settle_lines()

    def settle(self):
        """Counts the lines that were taken. Returns the kinds of all but frames and MAPs that came since the last call."""
        self.settle_lines()
        kinds, self.kinds = self.kinds, set()
        return kinds

    def settle_lines(self):
        """Counts the texts that were taken. Each is split by itself, so that it stays in the cache of the processor, and all are counted together."""
        lines, taken, self.texts = Counter(), self.texts, []
        for text in taken:
            texts, maps = split_at_maps(text)
            maps = [MAP.match(line) for line in maps]
            frames = [found[1] for found in maps if found is not None]
            self.outputs["map"] += len(frames)
            self.frame = int(frames[-1]) if frames else self.frame
            if OF_A_NUMBER.search(text) or OF_A_NUMBER.match(b"\n" + text[:3]):
                self.count_lines(Counter(b"".join(texts).split(b"\n")), NUMBERED)
            else:
                # (without its number, the same frame comes again and again)
                bare = [part if found is None else part.replace(b" %s " % found[1], b" ") for part, found in zip(texts, [*maps, None])]
                lines.update(b"".join(bare).split(b"\n"))
        self.count_lines(lines, FRAME)

    def count_lines(self, lines, pattern):
        """Counts lines, of which it is known how often each has come."""
        frames = 0
        for line, count in lines.items():
            if line.startswith(b"F "):
                frames += count * self.frames.add(line, count, pattern)
            elif line:
                self.kinds.add(self.take_line(line, count))
        self.outputs["frame"] += frames

    def take_line(self, line, count):
        """Counts a line that is neither a frame nor a MAP, so many times. Returns its kind, or None."""
        for kind, pattern in LINES.get(line[:1], ()):
            if found := pattern.fullmatch(line):
                self.outputs[kind] += count
                if kind == "reply":
                    self.replies[self.operator(found[1]), str(int(found[2], 16))] += count
                elif kind == "drop":
                    self.drops[self.operator(found[1]), found[2].decode()] += count
                elif kind == "fault":
                    self.faults[found[1].decode()] += count
                return kind
        return None

    def take_maps(self, count, now):
        """Takes MAPs that were read together. The first one came after the last time at which there was none, the others at equal distances."""
        if count:
            # (a clock that is set back gives no time)
            if self.last_map is not None:
                step = max(0.0, now - self.last_read) / count
                self.intervals.add(max(0.0, self.last_read - self.last_map) + step)
                if count > 1:
                    self.intervals.add(step, count - 1)
            self.last_map = now
        self.last_read = now

    def take_snapshot(self, output, now):
        """Counts a snapshot among the answers, if it can be read, and takes its state."""
        if self.take_state(output, now):
            self.outputs["snapshot"] += 1
            self.kinds.add("snapshot")

    def take_state(self, snapshot, now):
        """Takes the state of a snapshot, and returns whether it can be read."""
        try:
            self.state = read_state(snapshot)
        except Unreadable:
            return False
        self.operator_of, self.frame_seconds, self.last_snapshot = self.state.operator_of, self.state.frame_seconds, now
        return True

    def operator(self, modem):
        return self.operator_of.get(modem.decode(), "")

    def take_journal(self, journal, now):
        """Takes the lines that were added to the journal. Returns whether it has another saved state than the last time."""
        before = journal.saved
        for key, count in journal.take().items():
            self.lines[self.kind_of_line(key)] += count
        if (size := journal.size()) is not None:
            self.journal_bytes, self.journal_lines = size, journal.since
            self.last_saved = now if journal.saved != before else self.last_saved
        return before is not None and journal.saved != before

    def kind_of_line(self, key):
        """Returns the operator and the type of a line of the journal. They are kept for as long as modems have the same operators."""
        if self.of_lines.get(None) is not self.operator_of or len(self.of_lines) > MOST_KEPT:
            self.of_lines = {None: self.operator_of}
        if key not in self.of_lines:
            self.of_lines[key] = kind_of(key, self.operator_of)
        return self.of_lines[key]
