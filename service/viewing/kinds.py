"""Finds the kind of each span of a frame: idle, a poll, an unsolicited grant, or a grant that answers a bandwidth request.

A line `F` shows idle spans (SID 0) and polls (IUC 1), but both kinds of grants have IUC 5 or 6. With the plant file and the script, the flows
are known that have unsolicited grants. Without them, docs/RULES.md still shows some kinds:

  - What is due comes first: polls and unsolicited grants. So a grant before a poll is unsolicited.
  - A flow has at most one grant that answers its request. So of two grants with one SID, both are unsolicited, and so is what is before them.
  - A flow that is polled, or whose grant is pending, may request. So its grant answers a request, and so do those after it.

Of any other grant the output does not show the kind.
"""

import functools
from collections import Counter

from .run_output import part_of

REQUEST = 1
IDLE, POLL, UNSOLICITED, REQUESTED, UNKNOWN = "idle", "poll", "unsolicited", "requested", "unknown"


@functools.lru_cache(maxsize=100_000)
def kinds_of(elements, unsolicited=None):
    """Returns the kinds of the spans of a part. `unsolicited` are the SIDs with unsolicited grants in this frame, or None if they are not known."""
    part = part_of(elements)
    grants = Counter(sid for sid, code, _, _ in part.spans if sid and code != REQUEST)
    polled = {sid for sid, code, _, _ in part.spans if code == REQUEST}
    due = [place for place, (sid, code, _, _) in enumerate(part.spans) if sid and (code == REQUEST or grants[sid] > 1)]
    asking = [place for place, (sid, code, _, _) in enumerate(part.spans) if grants[sid] and code != REQUEST and (sid in polled or sid in part.pending)]
    last_due, first_asking = max(due, default=-1), min(asking, default=len(part.spans))
    return tuple(kind_of(span, place <= last_due, place >= first_asking, unsolicited) for place, span in enumerate(part.spans))


def kind_of(span, is_due, is_asking, unsolicited):
    sid, code, _, _ = span
    if not sid:
        return IDLE
    if code == REQUEST:
        return POLL
    if unsolicited is not None:
        return UNSOLICITED if sid in unsolicited else REQUESTED
    return UNSOLICITED if is_due else REQUESTED if is_asking else UNKNOWN


def kinds_in(run, budgets, name, number):
    """Returns the kinds of the spans of an operator in a frame."""
    share = budgets.at(name, number)
    return kinds_of(run.frames[name][number], share and share.unsolicited)
