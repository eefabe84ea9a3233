"""Ranks flows, and schedules a slice for one frame (7.2)."""

from .coverage import met
from .encodings import GRANT_INTERVAL, GRANT_SIZE, GRANTS, POLLING_INTERVAL, PRIORITY, SCHEDULING
from .sets import POLLING, UNSOLICITED, frames_of, minislots_of, reserve_of

REQUEST, SHORT_GRANT, LONG_GRANT = 1, 5, 6


def rank_of(policy, step, priority, age, backlog):
    if policy == "strict":
        return 8 * priority
    if policy == "aged":
        return min(63, 8 * priority + min(age, 255) // step)
    return 63 - min(63, backlog // 64)


def interval_of(params, plant):
    """Returns the frames from one grant or poll to the next, or None for a best-effort flow."""
    if params[SCHEDULING] == UNSOLICITED:
        return frames_of(params[GRANT_INTERVAL], plant.frame_us)
    if params[SCHEDULING] in POLLING:
        return frames_of(params[POLLING_INTERVAL], plant.frame_us)
    return None


def is_due(flow, frame, plant):
    interval = interval_of(flow.active, plant)
    return interval is not None and (frame - flow.start) % interval == 0


def due_lengths(flow, plant):
    """Returns the lengths of what a due flow is given: each unsolicited grant, or one minislot to be polled in."""
    if flow.active[SCHEDULING] == UNSOLICITED:
        return [minislots_of(flow.active[GRANT_SIZE], plant.bytes_per_minislot)] * flow.active[GRANTS]
    return [1]


def base_of(flow, plant):
    return min(flow.backlog, reserve_of(flow.active, plant))


def in_order(flows, row, frame):
    """Returns the flows, those that go before others first: by greater rank, then by smaller SFID."""
    def place(flow):
        rank = rank_of(row.policy, row.step, flow.active[PRIORITY], frame - flow.since, flow.backlog)
        return -rank, flow.sfid
    return sorted(flows, key=place)


def grants_of(asking, due, length, plant):
    """Returns the grant of each asking flow by SFID: its base, and of the room what those before it leave, up to what it asks."""
    room = length - sum(sum(due_lengths(flow, plant)) for flow in due) - sum(base_of(flow, plant) for flow in asking)
    grants = {}
    for flow in asking:
        base = base_of(flow, plant)
        more = min(flow.backlog - base, room)
        room -= more
        grants[flow.sfid] = base + more
    return grants


def grant_code(length, plant):
    return SHORT_GRANT if length <= plant.short_max else LONG_GRANT


def schedule(flows, row, frame, start, length, plant):
    """Returns the spans (SID, IUC, start, length) of a frame's slice, the SIDs pending, and the grants by SFID."""
    active = sorted((flow for flow in flows if flow.active is not None), key=lambda flow: flow.sfid)
    due = [flow for flow in active if is_due(flow, frame, plant)]
    asking = in_order([flow for flow in active if flow.backlog > 0], row, frame)
    grants = grants_of(asking, due, length, plant)
    pieces = []
    for flow in due:
        unsolicited = flow.active[SCHEDULING] == UNSOLICITED
        met("due: unsolicited" if unsolicited else "due: poll")
        for piece in due_lengths(flow, plant):
            pieces.append((flow.sid, grant_code(piece, plant) if unsolicited else REQUEST, piece))
    for flow in asking:
        if grants[flow.sfid] > 0:
            pieces.append((flow.sid, grant_code(grants[flow.sfid], plant), grants[flow.sfid]))
            met("grant: short" if grants[flow.sfid] <= plant.short_max else "grant: long")
    spans, place = [], start
    for sid, code, piece in pieces:
        spans.append((sid, code, place, piece))
        place += piece
    if place < start + length:
        spans.append((0, LONG_GRANT, place, start + length - place))
    else:
        met("frame: nothing idles")
    pending = [flow.sid for flow in asking if grants[flow.sfid] < flow.backlog]
    return spans, pending, grants
