"""Lets the program and the second implementation go on with the same folder in turn."""

import argparse
import random

from .judging import History, begin, finish, judge_answers, judge_journal, lockstep
from .load import Load

LINES, TURNS = 300, 12


def try_both(tally, asked, folder):
    """Kills one of them, and lets the other go on, again and again."""
    for turn in range(max(1, asked.times // 20)):
        place, history, rng = folder / f"both{turn}", History(), random.Random(asked.seed + turn)
        place.mkdir()
        load, every = Load(asked.program, asked.seed + turn, LINES), rng.choice((10, 60, 10_000))
        programs = [argparse.Namespace(program=words) for words in (asked.program, asked.reference)]
        for number in range(TURNS):
            tally.trials += 1
            process = begin(tally, programs[number % 2], place, load, history, "after the other", every=every)
            if process is None:
                return
            lockstep(load, history, process, rng, min(LINES, history.answered + rng.randrange(2 * LINES // TURNS)))
            process.kill()
            judge_answers(tally, load, history, process, "after the other")
            judge_journal(tally, load, history, place, "after the other")
        process = begin(tally, programs[turn % 2], place, load, history, "at the end", every=every)
        if process:
            finish(tally, load, history, process, "at the end")
