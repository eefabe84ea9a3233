"""Gives the next frame of a plant that rests another number (docs/FORMATS.md, Another frame number)."""

import re

from .book import LAST_FRAME
from .coverage import MetFault, met
from .program import Core
from .saving import snapshot_of
from .schedule import interval_of
from .snapshots import read_snapshot
from .states import StateFault, books_of

MOST_LINE, MOST_AGE = 4_096, 255


class NotRenumbered(MetFault):
    """Reports why the next frame keeps its number."""

    def __init__(self, reason):
        super().__init__(f"frame number: {reason}", reason=reason)


def requests_number(line):
    return line.startswith(b"N") and len(line) <= MOST_LINE


def renumbered_core(core, plant_text, line):
    """Returns the core whose next frame has the number of a line `N`. Nothing is part of both cores."""
    to = number_in(line)
    snapshot = snapshot_of(core, plant_text)
    if snapshot is None:
        raise NotRenumbered("the core does not rest")
    saved = read_snapshot(snapshot.encode())
    if (to - saved.frame) * core.plant.frame_minislots % 2**32:
        raise NotRenumbered("the Alloc Start Time steps")
    for state in saved.states:
        move_state(core.plant, saved.frame, to, state)
    saved.frame = to
    try:
        books = books_of(core.plant, saved)
    except StateFault as fault:
        raise NotRenumbered(fault.rule) from fault
    met("frame number: given")
    return Core(core.plant, books)


def number_in(line):
    """Returns the number of a line `N`, which has one spelling."""
    found = re.fullmatch(rb"N (0|[1-9][0-9]{0,9})", line)
    if found is None or int(found[1]) > LAST_FRAME:
        raise NotRenumbered("no number")
    return int(found[1])


def move_state(plant, frame, to, state):
    """Moves the frames of a state with the next one."""
    for saved in state.flows:
        flow = saved.flow
        flow.start = moved_back(to, place_of(flow, frame, plant))
        flow.since = moved_back(to, min(MOST_AGE, frame - flow.since))
    if state.next_share is not None:
        first, share = state.next_share
        if to + (first - frame) > LAST_FRAME:
            raise NotRenumbered("a slice change waits beyond the last frame")
        state.next_share = to + (first - frame), share


def place_of(flow, frame, plant):
    """Returns the place of a frame in the interval of a flow, or 0 if the flow has none."""
    interval = None if flow.active is None else interval_of(flow.active, plant)
    return (frame - flow.start) % interval if interval else 0


def moved_back(to, frames):
    if frames > to:
        raise NotRenumbered("a flow counts from a frame before 0")
    return to - frames
