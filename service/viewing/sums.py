"""Counts what a run printed: by operator, by frame, by modem."""

from collections import Counter
from dataclasses import dataclass, field

from .budgets import Budgets
from .kinds import REQUEST, REQUESTED, UNKNOWN, UNSOLICITED, kinds_in
from .run_output import part_of

SHORT_GRANT = 5


@dataclass
class OperatorSums:
    """Sums of an operator's frames. `given` and `of_slice` are minislots; `filled` has both by frame.

    Each grant counts as unsolicited, requested or unknown, and also as short or long.
    """
    name: str
    frames: int = 0
    of_slice: int = 0
    given: int = 0
    polls: int = 0
    unsolicited_grants: int = 0
    requested_grants: int = 0
    unknown_grants: int = 0
    short_grants: int = 0
    long_grants: int = 0
    pending_frames: int = 0
    most_pending: int = 0
    filled: dict = field(default_factory=dict)

    @property
    def share_given(self):
        return self.given / self.of_slice if self.of_slice else 0


@dataclass
class Sums:
    """`replies` counts by modem, response and code, `causes` by modem and cause."""
    operators: list
    replies: Counter
    causes: Counter


def sums_of(run, budgets=Budgets()):
    return Sums([sums_of_operator(run, budgets, name) for name in run.names], Counter(run.replies), Counter(run.causes))


def sums_of_operator(run, budgets, name):
    sums = OperatorSums(name)
    for number, elements in run.frames[name].items():
        part, kinds = part_of(elements), Counter(kinds_in(run, budgets, name, number))
        sums.frames += 1
        sums.of_slice += part.length
        sums.given += part.given
        sums.filled[number] = (part.given, part.length)
        codes = Counter(code for sid, code, _, _ in part.spans if sid)
        sums.polls += codes[REQUEST]
        sums.unsolicited_grants += kinds[UNSOLICITED]
        sums.requested_grants += kinds[REQUESTED]
        sums.unknown_grants += kinds[UNKNOWN]
        sums.short_grants += codes[SHORT_GRANT]
        sums.long_grants += sum(codes.values()) - codes[REQUEST] - codes[SHORT_GRANT]
        sums.pending_frames += bool(part.pending)
        sums.most_pending = max(sums.most_pending, len(part.pending))
    return sums


OF_OPERATOR = ("frames", "of_slice", "given", "polls", "short_grants", "long_grants", "pending_frames", "most_pending", "unsolicited_grants",
               "requested_grants", "unknown_grants")


def csv_lines(run, sums, budgets):
    """Yields all numbers, one a line, with what they are of."""
    yield "table,frame,operator,modem,what,number"
    for of in sums.operators:
        for what in OF_OPERATOR:
            yield f"operator,,{of.name},,{what},{getattr(of, what)}"
    for of in sums.operators:
        for number, (given, length) in of.filled.items():
            yield f"frame,{number},{of.name},,of_slice,{length}"
            yield f"frame,{number},{of.name},,given,{given}"
            yield from share_lines(of.name, number, budgets.at(of.name, number))
    for (modem, response, code), count in sorted(sums.replies.items()):
        yield f"reply,,{budgets.operator_of.get(modem, '')},{modem},{response} {code},{count}"
    for (modem, cause), count in sorted(sums.causes.items()):
        yield f"silent,,{budgets.operator_of.get(modem, '')},{modem},{cause},{count}"
    yield from (f"run,,,,{what},{number}" for what, number in (("maps", run.maps), ("faults", len(run.faults)), ("replaced_frames", run.replaced)))


def share_lines(name, number, share):
    if share is not None:
        yield f"frame,{number},{name},,budget,{share.budget}"
        if share.committed is not None:
            yield f"frame,{number},{name},,committed,{share.committed}"
