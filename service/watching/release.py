"""Gives the lines that delete the flows of a modem that is gone: a DSD-REQ in its name for each flow (docs/RULES.md, Table of checks)."""

import re
from collections.abc import Iterator
from dataclasses import dataclass

from service.reference.book import Book, Entry, Flow
from service.reference.messages import DSD_REQ

from .modem_flows import awaited, counted

ADDRESS = re.compile("[0-9A-Fa-f]{12}")
# Transaction IDs of modems are at most this. A modem that comes back and counts up from 0 gets there last.
GREATEST_OF_MODEM = 0x7FFF


class NotListed(Exception):
    """An address is malformed, or no operator lists it."""


@dataclass(frozen=True)
class Release:
    """The lines that delete flows, what is to be said about them, and whether no flow of the modem is left."""
    lines: tuple[str, ...]
    remarks: tuple[str, ...]
    is_complete: bool


def judged_address(text: str) -> str:
    if ADDRESS.fullmatch(text) is None:
        raise NotListed(f'"{text}" is not an address: write 12 hexadecimal digits without separators, as in 020000000001')
    return text.upper()


def book_of_modem(books: list[Book], address: str) -> Book:
    for book in books:
        if address in book.row.modems:
            return book
    raise NotListed(f"no operator lists the modem {address}: look at the keys modems of the plant file in service")


def free_transactions(book: Book, address: str) -> Iterator[int]:
    """Yields the transaction IDs of a modem of which no response is cached, and that no message in the inbox has."""
    used = {entry.tid for entry in book.kept if entry.modem == address}
    used |= {int.from_bytes(message[1:3], "big") for modem, message in book.inbox if modem == address and isinstance(message, bytes)}
    return (tid for tid in range(GREATEST_OF_MODEM, -1, -1) if tid not in used)


def deletion(flow: Flow, tid: int) -> str:
    """Returns a script line with a DSD-REQ: type, transaction ID, two reserved bytes, SFID."""
    return f"M {flow.modem} {DSD_REQ:02X}{tid:04X}0000{flow.sfid:08X}"


def moving_lines(book: Book, address: str) -> tuple[list[str], list[str]]:
    """Returns the lines before and after the deletions that are needed since what is in the inbox is handled before them.

    A request that names no SID has no effect. A full inbox drops it, and handles the first of what it has.
    """
    line, is_full = f"Q {address} 0 0", len(book.inbox) >= book.row.inbox
    return [line] * is_full, [line] * (len(book.inbox) - is_full)


def ticks_of(entry: Entry, book: Book) -> int:
    """Returns the ticks after which a cached response is dropped, or abandoned if nobody acknowledges it."""
    return entry.ticks + entry.resends * book.plant.ack_wait


def room_of(book: Book) -> int:
    """Returns how many more responses can be cached, after the messages of the inbox."""
    return max(0, book.row.transactions - len(book.kept) - sum(isinstance(message, bytes) for _, message in book.inbox))


def pending_remark(book: Book, flow: Flow) -> str:
    entry = awaited(book, flow)
    start = f"flow {flow.sfid} awaits an acknowledgement, so that a DSD-REQ of it is refused (check 12, code 3)"
    if entry is None:
        return f"{start}. No response of it is cached: nothing ends that"
    end = "Then the flow is removed" if entry.kind == "DSA" else "Then its change is undone: give this command once more"
    return f"{start}. Transaction {entry.tid} is abandoned after {counted(ticks_of(entry, book), 'tick')}. {end}"


def room_remark(book: Book, done: int, left: int) -> str:
    """Says when there is room for the responses to the deletions that are left, if `done` are given now and nothing else comes."""
    ticks = sorted([ticks_of(entry, book) for entry in book.kept] + [book.plant.hold] * done)
    row = book.row
    when = f"after {counted(ticks[min(left, len(ticks)) - 1], 'tick')}" if ticks else "later"
    return (f"{counted(left, 'flow')} left: operator {row.name} caches at most {counted(row.transactions, 'response')} (key transactions). "
            f"Give this command once more {when}")


def inbox_remark(book: Book) -> str:
    return (f"the inbox of operator {book.row.name} has {len(book.inbox)} waiting, which are handled before these lines. "
            "The lines Q have no effect but that the deletions are handled, too")


def provisioned_remark(flow: Flow) -> str:
    return (f"flow {flow.sfid} is provisioned. A reload or a restart does not bring it back. "
            "It comes back if the channel or its operator begins anew with the plant file")


def release_of(books: list[Book], address: str) -> Release:
    """Returns the lines that delete the flows of a modem."""
    book = book_of_modem(books, address)
    flows = sorted((flow for flow in book.flows.values() if flow.modem == address), key=lambda flow: flow.sfid)
    ready, pending = [flow for flow in flows if flow.waiting is None], [flow for flow in flows if flow.waiting is not None]
    now = ready[:room_of(book)]
    before, after = moving_lines(book, address) if now else ([], [])
    lines = [*before, *map(deletion, now, free_transactions(book, address)), *after]
    remarks = [inbox_remark(book)] * bool(before + after)
    remarks += [provisioned_remark(flow) for flow in now if flow.provisioned is not None]
    remarks += [pending_remark(book, flow) for flow in pending]
    if len(now) < len(ready):
        remarks.append(room_remark(book, len(now), len(ready) - len(now)))
    if not flows:
        remarks.append(f"the modem {address} of operator {book.row.name} has no flows: there is nothing to delete")
    return Release(tuple(lines), tuple(remarks), len(now) == len(flows))
