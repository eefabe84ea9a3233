"""Reads a snapshot, or finds its first invalid line (docs/FORMATS.md, Snapshots)."""

import re
from dataclasses import dataclass, field
from typing import Optional

from .book import LAST_FRAME, Entry, Flow, Share
from .coverage import MetFault
from .encodings import GRANT_SIZE, GRANTS, SCHEDULING
from .saving import end_of
from .sets import KEPT, PARAMETER_ORDER, UNSOLICITED, first_failing

MOST_32, MOST_16, MOST_8, MOST_MINISLOTS = 2**32 - 1, 2**16 - 1, 2**8 - 1, 4_096
GREATEST = dict(zip(PARAMETER_ORDER, (MOST_8, 7, MOST_32, MOST_32, MOST_32, MOST_32, MOST_32, MOST_32, MOST_16, MOST_32, MOST_32, 127)))


class SnapshotFault(MetFault):
    """Reports the first invalid line of a snapshot, counted from 1, and why it is invalid."""

    def __init__(self, line, reason):
        super().__init__(f"snapshot fault: {reason}", line=line, reason=reason)


class Invalid(Exception):
    """Reports why a record is invalid."""


@dataclass
class Pending:
    """The sets of a flow that await an acknowledgement, and whether the request gave the flow its SID."""
    gave_sid: bool
    provisioned: Optional[dict]
    admitted: Optional[dict]
    active: Optional[dict]


@dataclass
class SavedFlow:
    """A flow without what it has pending, and that."""
    flow: Flow
    pending: Optional[Pending]


@dataclass
class State:
    """What a snapshot has of an operator."""
    name: str
    share: Share
    next_share: Optional[tuple]
    flows: list = field(default_factory=list)
    responses: list = field(default_factory=list)
    arrivals: list = field(default_factory=list)


@dataclass
class Snapshot:
    plant_text: bytes
    frame: int
    states: list


def read_snapshot(data):
    reader = Reader(data)
    plant_text = reader.plant_file()
    frame, count = reader.record("frame", (2,), lambda fields: (number(fields[0], 0, LAST_FRAME), number(fields[1], 0, MOST_16)))
    states = []
    for _ in range(count):
        states.append(reader.state({state.name for state in states}))
    reader.end()
    return Snapshot(plant_text, frame, states)


class Reader:
    """The bytes of a snapshot, and how many of them and of their lines are read."""

    def __init__(self, data):
        self.data, self.place, self.line = data, 0, 1

    def next_line(self):
        end = self.data.find(b"\n", self.place)
        if end < 0:
            raise SnapshotFault(self.line, "Cut")
        line, self.place = self.data[self.place:end], end + 1
        return line

    def record(self, word, counts, value_of):
        """Returns the value of the next line, a record of this word with as many fields."""
        line = self.next_line()
        fields = line.decode("latin-1").split(" ")
        try:
            if fields[0] != word or len(fields) - 1 not in counts:
                raise Invalid("Shape")
            value = value_of(fields[1:])
        except Invalid as why:
            raise SnapshotFault(self.line, str(why)) from why
        self.line += 1
        return value

    def plant_file(self):
        """Returns the text of the plant file, after the first line and before the line `---`."""
        if not self.data.startswith(b"melfjits-snapshot 1"):
            raise SnapshotFault(1, "Version")
        _, length = self.record("melfjits-snapshot", (2,), lambda fields: (number(fields[0], 1, 1), number(fields[1], 0, MOST_32)))
        text = self.data[self.place:self.place + length]
        if len(text) < length:
            raise SnapshotFault(self.line, "Cut")
        self.place += length
        self.line += text.count(b"\n")
        self.record("---", (0,), lambda fields: None)
        return text

    def state(self, earlier):
        """Returns the records of an operator. Its name is judged after them."""
        line = self.line
        name, *counts = self.record("operator", (4,), operator_fields)
        state = State(name, self.record("slice", (3,), share), self.record("next", (1, 4), waiting_share))
        for _ in range(counts[0]):
            last = state.flows[-1].flow.sfid if state.flows else None
            state.flows.append(self.record("flow", (10, 13), lambda fields, last=last: flow(fields, last)))
        for _ in range(counts[1]):
            state.responses.append(self.record("response", (8,), lambda fields: response(fields, state.responses)))
        for _ in range(counts[2]):
            state.arrivals.append(self.arrival())
        if name in earlier:
            raise SnapshotFault(line, "Repeated")
        return state

    def arrival(self):
        if self.data.startswith(b"message ", self.place):
            return self.record("message", (2,), lambda fields: (address(fields[0]), digits(fields[1])))
        return self.record("request", (3,), lambda fields: (address(fields[0]), (number(fields[1], 0, MOST_16), number(fields[2], 0, MOST_16))))

    def end(self):
        lines, checksum = end_of(self.data[:self.place]).split(" ")[1:]
        self.record("end", (2,), lambda fields: judge_end(fields, int(lines), int(checksum)))
        if self.place < len(self.data):
            raise SnapshotFault(self.line, "Surplus")


# Fields

def number(text, least, greatest):
    if re.fullmatch("[0-9]+", text) is None:
        raise Invalid("Shape")
    short = text.lstrip("0") or "0"
    if len(short) > 10 or not least <= int(short) <= greatest:
        raise Invalid("Range")
    return int(short)


def address(text):
    if re.fullmatch("[0-9A-Fa-f]{12}", text) is None:
        raise Invalid("Shape")
    return text.upper()


def digits(text):
    if text in ("-", ""):
        return b""
    if re.fullmatch("([0-9A-Fa-f]{2})+", text) is None:
        raise Invalid("Shape")
    return bytes.fromhex(text)


def optional(text, value_of):
    """Returns the value of a field that is `-`, or `=` and the value."""
    if text == "-":
        return None
    if not text.startswith("="):
        raise Invalid("Shape")
    return value_of(text[1:])


def one_of(text, words):
    if text not in words:
        raise Invalid("Shape")
    return text


def operator_fields(fields):
    if re.fullmatch("[A-Za-z0-9]{1,16}", fields[0]) is None:
        raise Invalid("Shape")
    return fields[0], *(number(text, 0, MOST_16) for text in fields[1:])


def share(fields):
    start, length, budget = (number(text, 0, MOST_16) for text in fields)
    if length < 1 or start + length > MOST_MINISLOTS:
        raise Invalid("Range")
    return Share(start, length, budget)


def waiting_share(fields):
    if len(fields) == 1 and fields != ["-"]:
        raise Invalid("Shape")
    frame = optional(fields[0], lambda text: number(text, 0, LAST_FRAME))
    if (frame is None) != (len(fields) == 1):
        raise Invalid("Shape")
    return None if frame is None else (frame, share(fields[1:]))


def set_field(text):
    return optional(text, parameters)


def parameters(text):
    """Returns a parameter set of its twelve numbers."""
    texts = text.split(",")
    if len(texts) != len(PARAMETER_ORDER):
        raise Invalid("Shape")
    params = {subtype: number(one, 0, GREATEST[subtype]) for subtype, one in zip(PARAMETER_ORDER, texts)}
    judge_parameters(params)
    return params


def judge_parameters(params):
    """Judges what a scheduling type keeps and requires: an unsolicited grant has a size, and there is at least one of them."""
    kept = KEPT.get(params[SCHEDULING])
    if kept is None or any(value for subtype, value in params.items() if subtype not in (*kept, SCHEDULING)):
        raise Invalid("Parameters")
    if params[SCHEDULING] == UNSOLICITED and (params[GRANT_SIZE] == 0 or params[GRANTS] == 0):
        raise Invalid("Parameters")


def three_sets(fields):
    """Returns a provisioned, an admitted and an active set, each within the one before it."""
    provisioned, admitted, active = map(set_field, fields)
    if first_failing(active, admitted) is not None or provisioned is not None and first_failing(admitted, provisioned) is not None:
        raise Invalid("NotWithin")
    return provisioned, admitted, active


def flow(fields, last):
    """Returns a flow of a record. `last` is the SFID before it."""
    sfid, modem = number(fields[0], 0, MOST_32), address(fields[1])
    sid = optional(fields[2], lambda text: number(text, 0, MOST_16))
    sets, pending = three_sets(fields[3:6]), None
    gave_sid = optional(fields[6], lambda text: bool(number(text, 0, 1)))
    if (gave_sid is None) != (len(fields) == 10):
        raise Invalid("Shape")
    if gave_sid is not None:
        pending = Pending(gave_sid, *three_sets(fields[7:10]))
    start, backlog, since = (number(text, 0, most) for text, most in zip(fields[-3:], (LAST_FRAME, MOST_16, LAST_FRAME)))
    if last is not None and sfid <= last:
        raise Invalid("Repeated")
    return SavedFlow(Flow(sfid, modem, sid, *sets, None, start, backlog, since), pending)


def response(fields, earlier):
    modem, tid = address(fields[0]), number(fields[1], 0, MOST_16)
    kind = one_of(fields[2], ("dsa", "dsc", "dsd")).upper()
    sfid, waits = number(fields[3], 0, MOST_32), one_of(fields[4], ("waiting", "held")) == "waiting"
    ticks, resends = number(fields[5], 1, MOST_16), number(fields[6], 0, MOST_8 if waits else 0)
    data = digits(fields[7])
    if any((entry.modem, entry.tid) == (modem, tid) for entry in earlier):
        raise Invalid("Repeated")
    return Entry(modem, tid, kind, data, waits, ticks, resends, sfid or None)


def judge_end(fields, lines, checksum):
    if number(fields[0], 0, MOST_32) != lines:
        raise Invalid("LineCount")
    if number(fields[1], 0, MOST_32) != checksum:
        raise Invalid("Checksum")
