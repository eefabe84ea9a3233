"""Reads the state of each operator from a snapshot: numbers, next to the limits of the operator's row."""

import functools
from dataclasses import dataclass

from service.reference.book import Book, Share, all_committed
from service.reference.coverage import MetFault
from service.reference.plant import Plant, read_plant
from service.reference.snapshots import SnapshotFault, read_snapshot
from service.reference.states import books_of

from .modem_flows import ModemState, modems_of

# Each flow is in one of these: sets await an acknowledgement; or the greatest set that it has; or it has none.
FLOW_STATES = ("pending", "active", "admitted", "provisioned", "null")


class Unreadable(Exception):
    """A text is not a snapshot, or its states are not those of its plant file."""


@dataclass(frozen=True)
class OperatorState:
    """What a snapshot says of an operator. A limit is that of the plant file; slice and budget are those in force."""
    name: str
    slice: Share
    next_frame: int | None
    next_slice: Share | None
    flows: dict
    flows_limit: int
    committed_minislots: int
    committed_elements: int
    elements_limit: int
    responses: dict
    responses_limit: int
    inbox: int
    inbox_limit: int
    backlog_minislots: int


@dataclass(frozen=True)
class ChannelState:
    """The state of a channel before a frame, the modems that have flows, the operator of each modem, and the time of a frame."""
    frame: int
    operators: tuple
    modems: tuple[ModemState, ...]
    operator_of: dict
    frame_seconds: float


def flow_state(flow):
    if flow.waiting is not None:
        return "pending"
    sets = {"active": flow.active, "admitted": flow.admitted, "provisioned": flow.provisioned}
    return next((name for name, one in sets.items() if one is not None), "null")


def operator_state(book):
    row, minislots_and_elements = book.row, all_committed(book)
    states = [flow_state(flow) for flow in book.flows.values()]
    awaiting = sum(entry.waits for entry in book.kept)
    next_frame, next_slice = book.next_share or (None, None)
    return OperatorState(
        name=row.name, slice=book.share, next_frame=next_frame, next_slice=next_slice,
        flows={name: states.count(name) for name in FLOW_STATES}, flows_limit=row.flows,
        committed_minislots=minislots_and_elements[0], committed_elements=minislots_and_elements[1], elements_limit=row.elements,
        responses={"awaiting": awaiting, "retained": len(book.kept) - awaiting}, responses_limit=row.transactions,
        inbox=len(book.inbox), inbox_limit=row.inbox, backlog_minislots=sum(flow.backlog for flow in book.flows.values()))


@functools.lru_cache(maxsize=1)
def plant_of(text: bytes) -> Plant:
    """Returns the plant of a plant file. The last one is kept, since states of the same channel have the same plant file."""
    return read_plant(text.decode())


def readable_plant(text: bytes) -> Plant:
    """Returns the plant of a plant file, or raises Unreadable."""
    try:
        return plant_of(text)
    except (MetFault, ValueError) as fault:
        raise Unreadable(f"the plant file cannot be read: {fault}") from fault


def frame_seconds_of(plant: Plant) -> float:
    return plant.frame_us / 1_000_000


def operators_of_modems(plant_text):
    """Returns the operator of each modem of a plant file."""
    return {modem: row.name for row in readable_plant(plant_text).rows for modem in row.modems}


def read_books(data: bytes) -> list[Book]:
    """Returns the books of the operators in the states of a snapshot, which is given as its bytes."""
    try:
        saved = read_snapshot(data)
        return books_of(plant_of(saved.plant_text), saved)
    except SnapshotFault as fault:
        raise Unreadable(f"the snapshot cannot be read: its line {fault.line} is invalid ({fault.reason}). A snapshot begins with the line "
                         "melfjits-snapshot and has a line end at its end") from fault
    except (MetFault, ValueError) as fault:
        raise Unreadable(f"the snapshot cannot be read: {' '.join(map(str, fault.args))}") from fault


def read_state(data):
    """Returns the state of a channel from the bytes of a snapshot."""
    books = read_books(data)
    operator_of = {modem: book.row.name for book in books for modem in book.row.modems}
    return ChannelState(books[0].frame, tuple(map(operator_state, books)), modems_of(books), operator_of, frame_seconds_of(books[0].plant))
