"""Finds slices, budgets, what is committed of them, and which flows have unsolicited grants, from the plant file and from the script after
`---`, if there is one. The script is read as `serve` reads it: an invalid line and a refused step end nothing."""

import bisect
import itertools
from dataclasses import dataclass, field

from service.reference.book import LAST_FRAME, StepRefused, all_committed, count_kept, next_frame
from service.reference.encodings import SCHEDULING
from service.reference.program import Core, judged_plant, steps_of
from service.reference.sets import UNSOLICITED


@dataclass
class Share:
    """A slice, its budget, what is committed of it, and the SIDs that have unsolicited grants (the last two None where nobody knows)."""
    start: int
    length: int
    budget: int
    committed: object = None
    unsolicited: object = None


@dataclass
class Budgets:
    """Of a plant: its rows by name, whose modem an address is, and each operator's shares by the frame they begin at."""
    plant: object = None
    operator_of: dict = field(default_factory=dict)
    shares: dict = field(default_factory=dict)

    def at(self, name, frame):
        """Returns the share of an operator in a frame, or None."""
        shares = self.shares.get(name, [])
        place = bisect.bisect(shares, frame, key=lambda item: item[0])
        return shares[place - 1][1] if place else None


class Ledger(Core):
    """A core that schedules nothing: its books know what is committed, and the shares."""

    def __init__(self, plant):
        super().__init__(plant)
        self.shares = {row.name: [] for row in plant.rows}
        self.is_stale = [True] * len(plant.rows)
        self.states = [None] * len(plant.rows)

    def work(self, place):
        self.is_stale[place] = True
        return super().work(place)

    def tick(self, place):
        book, name = self.books[place], self.plant.rows[place].name
        if book.frame == LAST_FRAME:
            raise StepRefused
        kept = len(book.kept)
        count_kept(book)
        if self.is_stale[place] or len(book.kept) != kept:
            self.states[place], self.is_stale[place] = (all_committed(book)[0], unsolicited_sids(book)), False
        share = Share(book.share.start, book.share.length, book.share.budget, *self.states[place])
        if not self.shares[name] or self.shares[name][-1][1] != share:
            self.shares[name].append((book.frame, share))
        next_frame(book)
        return []

    def shares_of(self, book, is_whole):
        """Returns the shares of an operator. After the last frame of the script its slice and budget stay, if the script `is_whole`."""
        after = Share(book.share.start, book.share.length, book.share.budget) if is_whole else None
        return [*self.shares[book.row.name], (book.frame, after)]


def unsolicited_sids(book):
    """Returns the SIDs of the flows that have unsolicited grants when they are due."""
    return frozenset(flow.sid for flow in book.flows.values() if flow.active is not None and flow.active[SCHEDULING] == UNSOLICITED)


def read_budgets(text):
    """Reads the budgets of an input, or raises its Fault if the plant file is invalid.

    A line `P` or `N` ends what is known: after it the plant or the numbers of its frames may be others.
    """
    plant, script = judged_plant(text)
    known, ledger = list(itertools.takewhile(lambda line: line != "P" and not line.startswith("N "), script)), Ledger(plant)
    if not script:
        return budgets_of_plant(plant)
    for line in known:
        do_line(ledger, line)
    return Budgets(plant, operators_by_modem(plant), {book.row.name: ledger.shares_of(book, len(known) == len(script)) for book in ledger.books})


def budgets_of_plant(plant):
    """Returns what a plant file says alone."""
    return Budgets(plant, operators_by_modem(plant), {row.name: [(0, Share(*row.slice, row.budget))] for row in plant.rows})


def operators_by_modem(plant):
    return {modem: row.name for row in plant.rows for modem in row.modems}


def do_line(ledger, line):
    """Does the steps of a line up to one that is refused. An invalid line has none."""
    try:
        for step in steps_of(ledger.plant, line.split(" ")) or []:
            ledger.step(*step)
    except StepRefused:
        pass
