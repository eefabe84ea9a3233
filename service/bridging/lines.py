"""Splits what a client writes into lines, and judges each line: an operator may send less than the owner."""

import re
from dataclasses import dataclass
from enum import Enum

# A pipe keeps a write of so many bytes in one piece. A line is at most as long, with its LF.
MOST_LINE = 4_096
MOST_NUMBER, MOST_FRAME = 65_535, 4_294_967_295
MESSAGE = re.compile(rb"M ([0-9A-Fa-f]{12}) (-|(?:[0-9A-Fa-f]{2})+)")
BANDWIDTH = re.compile(rb"Q ([0-9A-Fa-f]{12}) ([0-9]{1,5}) ([0-9]{1,5})")
TICK = re.compile(rb"T(?: ([0-9A-Za-z]{1,16}))?")
SLICES = re.compile(rb"Z ([0-9]{1,10})((?: [0-9]{1,5}/[0-9]{1,5}/[0-9]{1,5})+)")
RENUMBERING = re.compile(rb"N (0|[1-9][0-9]{0,9})")
OWNERS_WORDS = (b"T", b"Z", b"K", b"N", b"P")
# Type of a request, and of an acknowledgement: how many bytes have to follow it (docs/FORMATS.md, Messages).
REQUESTS, ACKNOWLEDGEMENTS = {15: 2, 18: 2, 21: 8}, {17: 3, 20: 3}
SHOWN = 40


class Refused(Exception):
    """A line is not passed on. It has a reason of one word, and a text."""

    def __init__(self, reason, text):
        super().__init__(f"refused: {reason}: {text}")
        self.reason = reason


class Kind(Enum):
    REQUEST = "a message that is answered by a reply, or dropped"
    DROPPED = "a message that no modem sends: it is dropped"
    ACKNOWLEDGEMENT = "an acknowledgement: it has no answer, or is dropped"
    BANDWIDTH = "a bandwidth request: it has no answer, or is dropped"
    TICK = "a tick"
    SLICES = "a slice change: it has no answer, or is refused"
    SNAPSHOT = "a request for a snapshot"
    RENUMBERING = "another frame number"


# A line of these kinds has no answer if all is well.
SILENT = (Kind.ACKNOWLEDGEMENT, Kind.BANDWIDTH, Kind.SLICES)


@dataclass(frozen=True, slots=True)
class Step:
    """A line that is passed on. `detail` is how its reply begins, its drop reason, or the operator that ticks."""
    data: bytes
    kind: Kind
    modem: str = ""
    detail: str = ""


class LineSplitter:
    """Splits bytes into lines. It keeps less than one line, and nothing of a line that is too long."""

    def __init__(self):
        self.rest, self.is_too_long = b"", False

    def take(self, data):
        """Returns the lines that end in these bytes, without LF, and None for each that is too long."""
        *ended, rest = (self.rest + data).split(b"\n")
        lines = []
        for line in ended:
            lines.append(None if self.is_too_long or len(line) >= MOST_LINE else line)
            self.is_too_long = False
        self.is_too_long = self.is_too_long or len(rest) >= MOST_LINE
        self.rest = b"" if self.is_too_long else rest
        return lines

    def has_part(self):
        """Returns whether a line has begun that has not ended."""
        return self.is_too_long or self.rest != b""


def shown(line):
    """Returns the beginning of a line in printable ASCII."""
    text = line[:SHOWN].decode("latin-1").encode("unicode_escape").decode()
    return text + ".." * (len(line) > SHOWN)


def judge_line(line, rights, operator):
    """Returns the step of a line that a client sends: that of an operator, or of the owner, for whom the operator is None."""
    if operator is None and line[:1] not in (b"M", b"Q"):
        return judge_owners_line(line, rights)
    found = MESSAGE.fullmatch(line) or BANDWIDTH.fullmatch(line)
    if found is None:
        if line.split(b" ")[0] in OWNERS_WORDS:
            raise Refused("kind", f"{shown(line)}: an operator sends lines M and Q")
        raise Refused("form", f"{shown(line)}: not a line M or Q")
    modem = found[1].decode().upper()
    owner = rights.operator_of.get(modem)
    if owner is None or operator not in (None, owner):
        raise Refused("modem", f"{modem} is not a modem of {operator or 'the channel'}")
    if found.re is MESSAGE:
        return message_step(line, modem, "" if found[2] == b"-" else found[2].decode().upper())
    if max(int(found[2]), int(found[3])) > MOST_NUMBER:
        raise Refused("form", f"{shown(line)}: a number is more than {MOST_NUMBER}")
    return Step(line + b"\n", Kind.BANDWIDTH, modem)


def message_step(line, modem, message):
    """Returns the step of a message, which is given in hexadecimal, by what its answer can be."""
    number, length = int(message[:2] or "0", 16), len(message) // 2 - 1
    if number in ACKNOWLEDGEMENTS and length >= ACKNOWLEDGEMENTS[number]:
        return Step(line + b"\n", Kind.ACKNOWLEDGEMENT, modem)
    if number in REQUESTS and length >= REQUESTS[number]:
        return Step(line + b"\n", Kind.REQUEST, modem, f"{number + 1:02X}{message[2:6]}")
    cause = "Empty" if not message else "Short" if number in REQUESTS or number in ACKNOWLEDGEMENTS else "NotOurs"
    return Step(line + b"\n", Kind.DROPPED, modem, cause)


def judge_owners_line(line, rights):
    """Returns the step of a line T, Z, K or N."""
    if line == b"K":
        return Step(line + b"\n", Kind.SNAPSHOT)
    if found := TICK.fullmatch(line):
        operator = (found[1] or b"").decode()
        if operator and operator not in rights.names:
            raise Refused("form", f"{shown(line)}: no operator has this name")
        return Step(line + b"\n", Kind.TICK, detail=operator)
    if found := SLICES.fullmatch(line):
        numbers = [int(number) for number in re.findall(rb"[0-9]+", found[2])]
        if int(found[1]) > MOST_FRAME or max(numbers) > MOST_NUMBER or len(numbers) != 3 * len(rights.names):
            raise Refused("form", f"{shown(line)}: a number is too large, or there are not {len(rights.names)} slices")
        return Step(line + b"\n", Kind.SLICES)
    if (found := RENUMBERING.fullmatch(line)) and int(found[1]) <= MOST_FRAME:
        return Step(line + b"\n", Kind.RENUMBERING)
    if line == b"P":
        raise Refused("kind", "P: a reload of the channel changes its plant file")
    raise Refused("form", f"{shown(line)}: not a line M, Q, T, Z, K or N")
