"""Writes a snapshot of a plant that rests (docs/FORMATS.md, Snapshots)."""

import zlib

from .sets import PARAMETER_ORDER


def snapshot_of(core, plant_text):
    """Returns the snapshot of a core with the text of its plant file, or None if the core does not rest."""
    frames = {book.frame for book in core.books}
    if len(frames) > 1 or core.parts:
        return None
    return snapshot_text(plant_text, frames.pop(), core.books)


def snapshot_text(plant_text, frame, books):
    """Returns the snapshot of operators before a frame, with the text of a plant file."""
    text = f"melfjits-snapshot 1 {len(plant_text.encode())}\n{plant_text}---\n"
    text += f"frame {frame} {len(books)}\n"
    text += "".join(line + "\n" for book in books for line in lines_of_book(book))
    return text + end_of(text.encode())


def end_of(data):
    """Returns the last line for the bytes before it."""
    lines = data.count(b"\n")
    return f"end {lines} {zlib.adler32(data)}\n"


def lines_of_book(book):
    share = book.share
    yield f"operator {book.row.name} {len(book.flows)} {len(book.kept)} {len(book.inbox)}"
    yield f"slice {share.start} {share.length} {share.budget}"
    yield f"next {waiting_share(book.next_share)}"
    yield from (flow_line(book.flows[sfid]) for sfid in sorted(book.flows))
    yield from map(response_line, book.kept)
    yield from (arrival_line(*arrival) for arrival in book.inbox)


def waiting_share(change):
    if change is None:
        return "-"
    frame, share = change
    return f"={frame} {share.start} {share.length} {share.budget}"


def optional(value):
    return "-" if value is None else f"={value}"


def set_field(params):
    """Returns a parameter set as twelve numbers, the scheduling type first."""
    return optional(None if params is None else ",".join(str(params[subtype]) for subtype in PARAMETER_ORDER))


def flow_line(flow):
    sets = " ".join(map(set_field, (flow.provisioned, flow.admitted, flow.active)))
    return f"flow {flow.sfid} {flow.modem} {optional(flow.sid)} {sets} {pending_sets(flow)} {flow.start} {flow.backlog} {flow.since}"


def pending_sets(flow):
    """Returns the sets that await an acknowledgement. The provisioned one is the flow's, since no request changes it."""
    if flow.waiting is None:
        return "-"
    sets = " ".join(map(set_field, (flow.provisioned, flow.waiting.admitted, flow.waiting.active)))
    return f"={int(flow.waiting.gave_sid)} {sets}"


def response_line(entry):
    state = f"waiting {entry.ticks} {entry.resends}" if entry.waits else f"held {entry.ticks} 0"
    return f"response {entry.modem} {entry.tid} {entry.kind.lower()} {entry.sfid or 0} {state} {bytes_field(entry.response)}"


def arrival_line(modem, what):
    if isinstance(what, bytes):
        return f"message {modem} {bytes_field(what)}"
    return f"request {modem} {what[0]} {what[1]}"


def bytes_field(data):
    return data.hex().upper() or "-"
