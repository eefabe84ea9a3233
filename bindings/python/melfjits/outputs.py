"""The outputs of a channel: replies, drops, frames and MAPs."""

import dataclasses

from .codes import Cause, Kind


@dataclasses.dataclass(frozen=True)
class Reply:
    """A reply to a modem."""

    operator_at: int
    """The place of the modem's operator in the plant file, from 0."""
    modem: str
    """The address of the modem: 12 hexadecimal digits in upper case."""
    message: bytes
    """A byte of message type, and the payload: a DSA-RSP, DSC-RSP or DSD-RSP."""


@dataclasses.dataclass(frozen=True)
class Drop:
    """A message that has no reply, or a bandwidth request that has no effect."""

    operator_at: int
    """The place of the operator in the plant file, from 0."""
    modem: str | None
    """The address of the modem, or None if there is none."""
    cause: Cause
    """Why there is no reply."""


@dataclasses.dataclass(frozen=True)
class Span:
    """Minislots of a frame that are granted to a SID."""

    sid: int
    """The Service Identifier of the flow; 0 if the minislots are idle."""
    iuc: int
    """The Interval Usage Code (CM-SP-MULPIv3.1, 6.4.4): 1, 5 or 6."""
    start: int
    """The first minislot of the frame."""
    length: int
    """The number of minislots."""


@dataclasses.dataclass(frozen=True)
class Frame:
    """An operator's part of a frame."""

    operator_at: int
    """The place of the operator in the plant file, from 0."""
    number: int
    """The number of the frame."""
    spans: tuple[Span, ...]
    """The minislots of the operator's slice, idle ones included, in their order."""
    pending: tuple[int, ...]
    """The SIDs with a grant pending."""


@dataclasses.dataclass(frozen=True)
class Map:
    """The MAP of a frame."""

    number: int
    """The number of the frame."""
    message: bytes
    """The body of the MAP, as docs/FORMATS.md has it."""


AnyOutput = Reply | Drop | Frame | Map


def output_of(head, data, grants):
    """Returns the output with this head, whose bytes and grants are at the beginning of two buffers."""
    modem = bytes(head.modem).hex().upper()
    if head.kind == Kind.REPLY:
        return Reply(head.operator_at, modem, bytes(data[: head.length]))
    if head.kind == Kind.SILENT:
        return Drop(head.operator_at, modem if any(head.modem) else None, Cause(head.cause))
    if head.kind == Kind.MAP:
        return Map(head.frame, bytes(data[: head.length]))
    end = head.granted + head.pending
    spans = tuple(Span(grant.sid, grant.iuc, grant.start, grant.length) for grant in grants[: head.granted])
    return Frame(head.operator_at, head.frame, spans, tuple(grant.sid for grant in grants[head.granted : end]))
