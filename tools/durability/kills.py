"""Kills the program at random moments, under load and while it begins, and lets it go on."""

import random
import threading
import time

from .judging import History, begin, finish, judge_answers, judge_first, judge_journal
from .load import Load, joined
from .state_process import StateProcess

SIGKILLED = -9
# A script, how many lines are given before a kill at most, and how long after them it comes at most.
LINES, MOST_BEFORE, LATE_SECONDS = 1_500, 150, 0.02
SNAPSHOTS = (3, 40, 300, 10_000)


class Round:
    """A script that is given to the service of one folder, which is killed again and again."""

    def __init__(self, tally, asked, folder, seed):
        self.tally, self.asked, self.folder = tally, asked, folder
        self.rng = random.Random(seed)
        self.load, self.history = Load(asked.program, seed, LINES), History()
        self.every = self.rng.choice(SNAPSHOTS)
        # (how long a beginning takes, at most so far; before the first one it is not known)
        self.seconds = None

    def killed_after(self, process, seconds):
        """Kills a process after a random time, of so many seconds at most."""
        killer = threading.Timer(self.rng.random() * seconds, process.process.kill)
        killer.start()
        return killer

    def kill_under_load(self):
        """Starts the service, and kills it some lines later."""
        process = StateProcess(self.asked.program, self.folder, self.every)
        found = process.first_line()
        if found is None:
            self.tally.note("dead_ends", f"the service does not begin after a kill: {process.last_line()!r}")
            return self.judge(process, process.end())
        judge_first(self.tally, self.load, self.history, found, "killed")
        number = self.feed(process, found[0], self.rng.randrange(MOST_BEFORE))
        killer = self.killed_after(process, LATE_SECONDS)
        self.feed(process, number, len(self.load.lines))
        return self.judge(process, process.end(), killer)

    def kill_while_beginning(self):
        """Starts the service, and kills it in about the time that it takes to begin. Lines are given in case it has begun, and the first time."""
        begun = time.monotonic()
        process = StateProcess(self.asked.program, self.folder, self.every)
        killer = self.killed_after(process, 1.2 * self.seconds) if self.seconds else None
        found = process.first_line()
        if found:
            self.seconds = max(self.seconds or 0, time.monotonic() - begun)
            judge_first(self.tally, self.load, self.history, found, "killed")
            self.feed(process, found[0], self.rng.randrange(MOST_BEFORE) if killer else MOST_BEFORE)
        return self.judge(process, process.end(), killer)

    def feed(self, process, number, count):
        """Gives about so many lines in pieces of random sizes, at times with pauses. Returns the number of the line after them."""
        waits, last = self.rng.random() < 0.5, min(number + count - 1, len(self.load.lines))
        while number <= last:
            size = min(self.rng.choice((1, 1, 2, 5, 20, 100)), last - number + 1)
            self.history.given = max(self.history.given, number + size - 1)
            if not process.give(joined(self.load.lines[number - 1:number + size - 1])):
                break
            number += size
            if waits:
                time.sleep(self.rng.random() * 0.002)
        return number

    def judge(self, process, status, killer=None):
        """Judges a run, and returns whether it was killed."""
        if killer:
            killer.cancel()
        judge_answers(self.tally, self.load, self.history, process, "killed")
        if status not in (0, SIGKILLED):
            self.tally.note("dead_ends", f"the service ended with status {status}, {process.last_line()!r}")
        judge_journal(self.tally, self.load, self.history, self.folder, "killed")
        return status == SIGKILLED

    def is_done(self):
        return self.history.answered >= len(self.load.lines) - MOST_BEFORE


def try_rounds(tally, asked, folder, kill):
    """Kills the program as often as is asked, with another script for each round."""
    rng, rounds = random.Random(asked.seed), 0
    while tally.trials < asked.times and rounds < 10 + asked.times:
        place, rounds = folder / f"round{rounds}", rounds + 1
        place.mkdir()
        tried, runs = Round(tally, asked, place, rng.randrange(2**32)), 0
        while tally.trials < asked.times and not tried.is_done() and runs < 10 * MOST_BEFORE:
            tally.trials += kill(tried)
            runs += 1
        process = begin(tally, asked, place, tried.load, tried.history, "after the last kill")
        if process:
            finish(tally, tried.load, tried.history, process, "after the last kill")
    if tally.trials < asked.times:
        tally.note("other", f"the program was killed {tally.trials} times only: it ends before that")


def try_kills(tally, asked, folder):
    try_rounds(tally, asked, folder, Round.kill_under_load)


def try_kills_of_beginnings(tally, asked, folder):
    try_rounds(tally, asked, folder, Round.kill_while_beginning)
