"""Judges what a service with a folder printed, and what it goes on with after a restart."""

import pathlib
import re
from dataclasses import dataclass, field

from service.reference.journals import read_journal
from service.reference.state_folders import MOST_STORED

from .load import joined
from .state_process import StateProcess

MOST_NOTES = 10
# After so many seconds a client waits no longer for an answer, and ends its input.
PATIENCE = 3


@dataclass
class Tally:
    """Counts what a kind of trial found."""
    trials: int = 0
    answered: int = 0
    lost: int = 0
    wrong: int = 0
    dead_ends: int = 0
    other: int = 0
    notes: list = field(default_factory=list)

    def note(self, kind, text, count=1):
        setattr(self, kind, getattr(self, kind) + count)
        if len(self.notes) < MOST_NOTES:
            self.notes.append(f"{kind}: {text}")

    def is_right(self):
        return not self.lost + self.wrong + self.dead_ends + self.other


@dataclass
class History:
    """What the clients of a service know: the last line of whose answer something was printed, and the last line that was given."""
    answered: int = 0
    given: int = 0


def lines_of_journal(data):
    """Returns how many lines were done before the state of a journal, and the lines since: none if it is not the journal of a service."""
    snapshot, lines, _gate = read_journal(data) or ([], [], 0)
    first = re.fullmatch(rb"line (\d+)", snapshot[0] if snapshot else b"")
    return (int(first[1]), lines) if first else (0, [])


def judge_journal(tally, load, history, folder, what):
    """Judges that a journal has the lines that were given, in their order, and all that were answered."""
    path = pathlib.Path(folder) / "journal"
    before, lines = lines_of_journal(path.read_bytes() if path.exists() else b"")
    count = before + len(lines)
    if count < history.answered:
        tally.note("lost", f"{what}: line {history.answered} was answered, and the journal has {count}", history.answered - count)
    if count > history.given or lines != [line[:MOST_STORED] for line in load.lines[before:count]]:
        tally.note("wrong", f"{what}: {history.given} lines were given, and the journal has {count}, at the end {lines[-1:]}")


def judge_first(tally, load, history, found, what):
    """Judges the first line of a service that goes on: no answered line is lost, and none is done that was not given."""
    number, frame = found
    if number - 1 < history.answered:
        tally.note("lost", f"{what}: line {history.answered} was answered, and the service goes on with line {number}", history.answered - number + 1)
    if number - 1 > history.given:
        tally.note("wrong", f"{what}: {history.given} lines were given, and the service goes on with line {number}")
    elif frame != load.frame_before(number):
        tally.note("wrong", f"{what}: the service is before frame {frame} at line {number}, not {load.frame_before(number)}")


def judge_answers(tally, load, history, process, what):
    """Judges that the answers are the first of those of an uninterrupted run."""
    found = process.first_line()
    if found is None:
        return
    text = process.answers()
    if not load.text.startswith(text, load.place(found[0])):
        tally.note("wrong", f"{what}: from line {found[0]} on the answers differ, and end with {text[-200:]!r}")
        return
    last = load.touched(found[0], len(text))
    tally.answered += max(0, last - found[0] + 1)
    history.answered = max(history.answered, last)


def begin(tally, asked, folder, load, history, what, **how):
    """Starts the service on a folder that was not damaged. Returns it, or None if it does not begin."""
    process = StateProcess(asked.program, folder, **how)
    found = process.first_line()
    if found is None:
        status = process.wait()
        tally.note("dead_ends", f"{what}: status {status}, {process.last_line()!r}, {process.reason[-200:]!r}")
        return None
    judge_first(tally, load, history, found, what)
    return process


def finish(tally, load, history, process, what):
    """Gives all lines that are left, and judges the whole rest of the answers."""
    first = process.first_line()[0]
    process.give(joined(load.lines[first - 1:]))
    history.given = len(load.lines)
    status = process.end()
    judge_answers(tally, load, history, process, what)
    if status or process.answers() != load.text[load.place(first):]:
        tally.note("wrong", f"{what}: from line {first} to the end, status {status}, and the last answer is {process.last_line()!r}")


def go_on(tally, asked, folder, load, history, what, **how):
    """Restarts the service on a folder that was not damaged, and lets it do all lines that are left."""
    process = begin(tally, asked, folder, load, history, what, **how)
    if process:
        finish(tally, load, history, process, what)


def lockstep(load, history, process, rng, last):
    """Gives lines up to a number, some at a time, each after the answers to those before. Ends early if the process has ended."""
    number = process.first_line()[0]
    begun = len(process.output) - len(process.answers()) - load.place(number)
    while number <= last:
        count = min(rng.choice((1, 1, 2, 3, 7)), last - number + 1)
        history.given = max(history.given, number + count - 1)
        if not process.give(joined(load.lines[number - 1:number + count - 1])):
            return
        number += count
        if not process.wait_until(lambda text, size=begun + load.place(number): len(text) >= size, PATIENCE):
            return
