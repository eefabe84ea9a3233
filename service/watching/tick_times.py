"""Measures how long a tick takes, from its line in the journal to its MAP in the answers. It looks at the sizes of both files, of one tick a second."""

import os
import time
from bisect import bisect_left
from collections import Counter

# Upper bounds of the histogram, in seconds. The sizes are looked at each 0.2 milliseconds.
BOUNDS = (0.0005, 0.001, 0.002, 0.003, 0.004, 0.005, 0.01, 0.02, 0.05, 0.1, 0.2, 0.5, 1, 2, 5, 10, float("inf"))
STEP_SECONDS, MOST_STEP = 0.0002, 0.01
# How long a call waits for a line, and for the answer to a line.
MOST_WAIT, MOST_WAIT_FOR_ANSWER = 0.03, 0.25
MAP = b"\nMAP "


class Histogram:
    """Counts of times by upper bound."""

    def __init__(self):
        self.counts, self.seconds = Counter(), 0.0

    def add(self, seconds, count=1):
        self.counts[bisect_left(BOUNDS, seconds)] += count
        self.seconds += seconds * count


class TickTimes:
    """Watches a tick, for as long as a call takes at most, and goes on with it at the next call if its MAP is late.

    A batch of lines is in the journal before it is answered, and the next batch comes after its answers. So the journal and the answers grow in
    turn. If both have grown between two looks, this is a batch that was answered within that time, or the answer to the batch before and a batch.
    What grows next decides it.
    """

    def __init__(self, clock=time.monotonic, sleep=time.sleep):
        self.clock, self.sleep, self.times = clock, sleep, Histogram()
        self.begun = self.both = None
        self.sizes = 0, 0

    def begin(self, sizes):
        self.begun, self.both, self.sizes = None, None, sizes

    def watch(self, journal, answers):
        """Watches two files, given by their descriptors."""
        def sizes():
            return os.fstat(journal).st_size, os.fstat(answers).st_size

        step, begun = STEP_SECONDS, self.clock()
        if self.begun is None:
            self.begin(sizes())
        while not self.look(sizes(), answers) and self.clock() - begun < (MOST_WAIT if self.begun is None else MOST_WAIT_FOR_ANSWER):
            self.sleep(step)
            step = min(MOST_STEP, step * 1.02)
        if self.begun is not None and min(map(int.__sub__, sizes(), self.sizes)) < 0:
            # (one of the files is another one)
            self.begun = None

    def look(self, sizes, answers):
        """Looks at the sizes of the journal and the answers. Returns whether a time was added."""
        now = self.clock()
        has_line, has_answer = (new > old for new, old in zip(sizes, self.sizes))
        before, self.sizes = self.sizes, sizes
        if has_answer and self.begun is not None:
            return self.end(now - self.begun, before[1], sizes[1], answers)
        if self.both is not None and has_line:
            return self.end(self.both[1], *self.both[2:], answers)
        if self.both is not None and has_answer:
            return self.end(now - self.both[0], before[1], sizes[1], answers)
        if has_line and has_answer:
            self.both = (now, STEP_SECONDS, before[1], sizes[1])
        elif has_line and self.begun is None:
            self.begun = now
        return False

    def end(self, seconds, start, end, answers):
        """Adds a time if the answers from one place to another have a MAP. Otherwise the batch had no tick that ended a frame."""
        self.begun = self.both = None
        has_map = MAP in b"\n" + os.pread(answers, end - start, start)
        if has_map:
            self.times.add(seconds)
        return has_map
