"""Keeps one operator's book: its flows, cached responses and inbox. Handles a message, a bandwidth request and a tick."""

from dataclasses import dataclass, field
from typing import Optional

from .coverage import met
from .encodings import CLASS_NAME, REFERENCE, SCHEDULING, SET_TYPE, SFID
from .messages import (ACKNOWLEDGEMENTS, ADMIN, AUTHORIZATION, DUPLICATE, FLOW_NOT_FOUND, IDENTIFIER, INVALID, MISSING,
                       MULTIPLE_FLOWS, NOT_OWNER, OKAY, REQUESTS, RESOURCE, UNKNOWN_TRANSACTION, NoAnswer, Refused,
                       added_reply, changed_reply, read_flows, read_header, refusal, reply)
from .schedule import schedule
from .sets import UNSOLICITED, NoSet, first_failing, need_of, overridden, parameter_set

LAST_FRAME = 4_294_967_295


class StepRefused(Exception):
    """Reports a step that is refused: a tick past the last frame, or a slice change that does not fit."""


@dataclass
class Waiting:
    """The sets that wait for the acknowledgement of a DSA or a DSC, and whether the request gave the flow its SID."""
    kind: str
    admitted: Optional[dict]
    active: Optional[dict]
    gave_sid: bool = False


@dataclass
class Flow:
    sfid: int
    modem: str
    sid: Optional[int] = None
    provisioned: Optional[dict] = None
    admitted: Optional[dict] = None
    active: Optional[dict] = None
    waiting: Optional[Waiting] = None
    start: int = 0
    backlog: int = 0
    since: int = 0


@dataclass
class Entry:
    """A cached response. It waits for its acknowledgement, or is held. After `ticks` ticks it is retransmitted or dropped."""
    modem: str
    tid: int
    kind: str
    response: bytes
    waits: bool
    ticks: int
    resends: int = 0
    sfid: Optional[int] = None


@dataclass
class Share:
    """A slice and its budget of minislots."""
    start: int
    length: int
    budget: int


@dataclass
class Book:
    plant: object
    row: object
    frame: int
    share: Share
    next_share: Optional[tuple] = None
    flows: dict = field(default_factory=dict)
    kept: list = field(default_factory=list)
    inbox: list = field(default_factory=list)


def open_book(plant, row, frame=None):
    """Returns a book with the provisioned flows, and nothing else, before the first frame of the plant or before another one."""
    start, length = row.slice
    book = Book(plant, row, plant.first_frame if frame is None else frame, Share(start, length, row.budget))
    for provisioned in row.provisioned:
        flow = Flow(free_sfid(book), provisioned.modem, None, provisioned.provisioned, provisioned.admitted,
                    provisioned.active, None, book.frame, 0, book.frame)
        if flow.admitted is not None:
            flow.sid = free_sid(book)
        book.flows[flow.sfid] = flow
    return book


# Identifiers and what is committed

def least_free(numbers, used):
    first, last = numbers
    number = first
    while number in used:
        number += 1
    return number if number <= last else None


def free_sfid(book):
    return least_free(book.row.sfids, set(book.flows))


def free_sid(book):
    return least_free(book.row.sids, {flow.sid for flow in book.flows.values()})


def committed(flow, plant):
    """Minislots and elements: of each the greater of what the admitted set needs and of what the one that waits needs."""
    minislots, elements = need_of(flow.admitted, plant)
    if flow.waiting is not None:
        more_minislots, more_elements = need_of(flow.waiting.admitted, plant)
        minislots, elements = max(minislots, more_minislots), max(elements, more_elements)
    return minislots, elements


def all_committed(book, without=None):
    needs = [committed(flow, book.plant) for flow in book.flows.values() if flow.sfid != without]
    return sum(minislots for minislots, _ in needs), sum(elements for _, elements in needs)


# What is received

def arrive(book, modem, heard):
    """Puts something that a modem sends at the end of the inbox. A full one drops it."""
    if len(book.inbox) >= book.row.inbox:
        return [("S", modem, "InboxFull")]
    book.inbox.append((modem, heard))
    return []


def work(book):
    """Handles the first of the inbox: a message's bytes, or a bandwidth request's SID and minislots."""
    if not book.inbox:
        return [("S", None, "Idle")]
    modem, heard = book.inbox.pop(0)
    try:
        if isinstance(heard, bytes):
            response = handle_message(book, modem, heard)
            return [] if response is None else [("R", modem, response)]
        request_minislots(book, modem, *heard)
        return []
    except NoAnswer as nothing:
        return [("S", modem, nothing.cause)]


def handle_message(book, modem, message):
    """Returns the response to a request, or None to an acknowledgement that is accepted. Raises NoAnswer otherwise."""
    kind, body = read_header(message)
    tid = int.from_bytes(body[:2], "big")
    if kind in ACKNOWLEDGEMENTS:
        acknowledge(book, modem, tid, ACKNOWLEDGEMENTS[kind], body[2])
        return None
    return transact(book, modem, tid, REQUESTS[kind], body[2:])


def request_minislots(book, modem, sid, minislots):
    flows = [flow for flow in book.flows.values() if flow.sid == sid and flow.modem == modem]
    if not flows:
        raise NoAnswer("NoSuchSid")
    if not may_ask(flows[0]):
        raise NoAnswer("NotRequesting")
    if flows[0].backlog == 0:
        flows[0].since = book.frame
    flows[0].backlog = minislots
    met("request: minislots" if minislots else "request: none")


def may_ask(flow):
    return flow.active is not None and flow.active[SCHEDULING] != UNSOLICITED


# Transactions: checks 1 to 3, and what is kept from check 4 on

def transact(book, modem, tid, kind, body):
    if tid >= 0x8000:
        met(f"{kind} check 1")
        return reply(kind, tid, UNKNOWN_TRANSACTION)
    entry = kept_entry(book, modem, tid)
    if entry is not None and entry.kind == kind:
        met(f"{kind} check 2: a repeat, " + ("waiting" if entry.waits else "held"))
        return entry.response
    if entry is not None:
        met(f"{kind} check 2: another kind")
        raise NoAnswer("TidInUse")
    if len(book.kept) >= book.row.transactions:
        met(f"{kind} check 3")
        return reply(kind, tid, RESOURCE)
    return answer_request(book, modem, tid, kind, body)


def kept_entry(book, modem, tid):
    for entry in book.kept:
        if entry.modem == modem and entry.tid == tid:
            return entry
    return None


def answer_request(book, modem, tid, kind, body):
    """Checks 4 to 22; the response is kept."""
    try:
        answer = {"DSA": add_flow, "DSC": change_flow, "DSD": delete_flow}[kind]
        response, sfid = answer(book, modem, tid, body)
        met(f"{kind} check 22")
    except Refused as refused:
        met(f"{kind} check {refused.check}")
        met(f"{kind} code {refused.code}" + (f" naming {refused.subtype}" if refused.subtype else ""))
        response, sfid = refusal(kind, tid, refused), None
    keep(book, modem, tid, kind, response, sfid)
    return response


def keep(book, modem, tid, kind, response, sfid):
    """Caches a response. A DSA or DSC with code 0 waits for its acknowledgement; all others are held. A refusal has no SFID."""
    if sfid is not None and kind != "DSD":
        book.kept.append(Entry(modem, tid, kind, response, True, book.plant.ack_wait, book.plant.resends, sfid))
    else:
        book.kept.append(Entry(modem, tid, kind, response, False, book.plant.hold, 0, sfid))


def add_flow(book, modem, tid, body):
    flows = read_flows(body)
    judge_encodings(book, "DSA", flows)
    judge_set_type("DSA", flows)
    admitted, active = asked_sets(book, flows)
    judge_active(flows, admitted, active)
    if len(book.flows) >= book.row.flows:
        raise Refused(17, RESOURCE)
    sfid = free_sfid(book)
    if sfid is None:
        raise Refused(18, RESOURCE)
    sid = free_sid(book)
    if sid is None:
        raise Refused(19, RESOURCE)
    judge_committed(book, Flow(sfid, modem), admitted)
    book.flows[sfid] = Flow(sfid, modem, sid, waiting=Waiting("DSA", admitted, active, True), start=book.frame, since=book.frame)
    return added_reply(tid, flows[0][REFERENCE], sfid, sid), sfid


def change_flow(book, modem, tid, body):
    flows = read_flows(body)
    judge_encodings(book, "DSC", flows)
    flow = flow_of_modem(book, modem, flows[0][SFID])
    judge_set_type("DSC", flows)
    admitted, active = asked_sets(book, flows)
    judge_active(flows, admitted, active)
    judge_provisioned(flow, flows, admitted)
    sid = flow.sid
    if admitted is not None and sid is None:
        sid = free_sid(book)
        if sid is None:
            raise Refused(19, RESOURCE)
        met("change: a SID comes with it")
    judge_committed(book, flow, admitted)
    flow.waiting = Waiting("DSC", admitted, active, flow.sid != sid)
    flow.sid = sid
    return changed_reply(tid, flow.sfid, None if admitted is None else sid), flow.sfid


def delete_flow(book, modem, tid, body):
    """Handles a DSD-REQ. Its body is two reserved bytes, the SFID, and TLVs that are not read."""
    flow = flow_of_modem(book, modem, int.from_bytes(body[2:6], "big"))
    if flow.provisioned is not None:
        met("deletion: a provisioned flow")
    del book.flows[flow.sfid]
    return reply("DSD", tid, OKAY), flow.sfid


# The checks, by their numbers in docs/RULES.md

def judge_encodings(book, kind, flows):
    """Checks 5 to 9."""
    identifier = IDENTIFIER[kind]
    for flow in flows:
        if CLASS_NAME in flow and flow[CLASS_NAME] not in book.plant.classes:
            raise Refused(5, ADMIN, CLASS_NAME, flow)
    if not flows:
        raise Refused(6, MISSING)
    if any(flow.get(identifier) != flows[0].get(identifier) for flow in flows):
        raise Refused(7, MULTIPLE_FLOWS)
    if len(flows) > 1 and not are_admitted_and_active(flows):
        raise Refused(8, DUPLICATE)
    if identifier not in flows[0]:
        raise Refused(9, MISSING, identifier)


def are_admitted_and_active(flows):
    return sorted(flow.get(SET_TYPE, 0) for flow in flows) == [2, 4]


def flow_of_modem(book, modem, sfid):
    """Checks 10 to 12."""
    flow = book.flows.get(sfid)
    if flow is None:
        raise Refused(10, FLOW_NOT_FOUND)
    if flow.modem != modem:
        raise Refused(11, NOT_OWNER)
    if flow.waiting is not None:
        raise Refused(12, RESOURCE)
    return flow


def judge_set_type(kind, flows):
    """Judges check 13."""
    if len(flows) > 1:
        return
    if SET_TYPE not in flows[0]:
        raise Refused(13, MISSING, SET_TYPE, flows[0])
    if flows[0][SET_TYPE] not in ((2, 6) if kind == "DSA" else (0, 2, 6)):
        raise Refused(13, INVALID, SET_TYPE, flows[0])


def asked_sets(book, flows):
    """Returns the admitted and the active set that are requested (check 14)."""
    if flows[0][SET_TYPE] == 0:
        met("asked: no set")
        return None, None
    sets = {}
    for flow in flows:
        try:
            sets[flow[SET_TYPE]] = parameter_set(overridden(flow, book.plant.classes), book.plant.frame_us)
        except NoSet as refusal_of_set:
            raise Refused(14, refusal_of_set.code, refusal_of_set.subtype, flow) from refusal_of_set
        if CLASS_NAME in flow:
            met("asked: by a class")
    met("asked: set types " + " ".join(str(flow[SET_TYPE]) for flow in flows))
    if len(flows) == 2:
        return sets[2], sets[4]
    return (sets[2], None) if 2 in sets else (sets[6], sets[6])


def judge_active(flows, admitted, active):
    """Judges check 15."""
    failing = first_failing(active, admitted)
    if failing is not None:
        raise Refused(15, INVALID, failing, flows[0])


def judge_provisioned(flow, flows, admitted):
    """Judges check 16."""
    if flow.provisioned is None:
        return
    failing = first_failing(admitted, flow.provisioned)
    if failing is not None:
        raise Refused(16, AUTHORIZATION, failing, flows[0])


def judge_committed(book, flow, admitted):
    """Checks 20 and 21: the flow's row of the ledger with what is asked in the place of what waits."""
    asked = Flow(flow.sfid, flow.modem, admitted=flow.admitted, waiting=Waiting("", admitted, None))
    minislots, elements = all_committed(book, without=flow.sfid)
    own_minislots, own_elements = committed(asked, book.plant)
    if elements + own_elements > book.row.elements:
        raise Refused(20, RESOURCE)
    if minislots + own_minislots > least_budget(book):
        met("check 21" + (": another budget waits" if book.next_share is not None else ""))
        raise Refused(21, RESOURCE)


def least_budget(book):
    if book.next_share is None:
        return book.share.budget
    return min(book.share.budget, book.next_share[1].budget)


# Acknowledgements

def acknowledge(book, modem, tid, kind, code):
    entry = kept_entry(book, modem, tid)
    if entry is None or not entry.waits or entry.kind != kind:
        met(f"{kind} acknowledgement: " + ("unknown" if entry is None else "held" if not entry.waits else "another kind"))
        raise NoAnswer("UnknownAck")
    if code == 0:
        commit(book, book.flows[entry.sfid])
    else:
        take_back(book, book.flows[entry.sfid], "acknowledgement")
    entry.waits = False
    entry.resends = 0
    entry.ticks = book.plant.hold


def commit(book, flow):
    met(f"commit: {flow.waiting.kind}")
    flow.admitted, flow.active = flow.waiting.admitted, flow.waiting.active
    flow.waiting = None
    flow.start = book.frame
    if flow.admitted is None:
        met("commit: a SID is free" if flow.sid is not None else "commit: there was no SID")
        flow.sid = None
    if not may_ask(flow):
        if flow.backlog:
            met("commit: a backlog is cleared")
        flow.backlog = 0


def take_back(book, flow, why):
    met(f"taken back by {why}: {flow.waiting.kind}")
    if flow.waiting.kind == "DSA":
        del book.flows[flow.sfid]
        return
    gave_sid, flow.waiting = flow.waiting.gave_sid, None
    if gave_sid:
        met("taken back: the SID that came with it")
        flow.sid = None


# Ticks

def tick(book):
    """Returns the responses that are retransmitted, then the frame, and increases the frame number."""
    if book.frame == LAST_FRAME:
        met("tick: past the last frame")
        raise StepRefused
    outputs = [("R", entry.modem, entry.response) for entry in count_kept(book)]
    outputs.append(schedule_frame(book))
    next_frame(book)
    return outputs


def next_frame(book):
    """Increases the frame number. The share that waited for this frame takes effect."""
    book.frame += 1
    if book.next_share is not None and book.next_share[0] == book.frame:
        met("tick: another slice takes force")
        book.share, book.next_share = book.next_share[1], None


def count_kept(book):
    """Counts the ticks of all entries: abandons, drops, and returns those that are retransmitted."""
    resent = []
    for entry in list(book.kept):
        entry.ticks -= 1
        if entry.ticks > 0:
            continue
        if entry.waits and entry.resends > 0:
            met(f"tick: {entry.kind} sent again")
            entry.resends -= 1
            entry.ticks = book.plant.ack_wait
            resent.append(entry)
            continue
        book.kept.remove(entry)
        met(f"tick: {entry.kind} " + ("given up" if entry.waits else "forgotten"))
        if entry.waits:
            take_back(book, book.flows[entry.sfid], "giving up")
    return resent


def schedule_frame(book):
    share = book.share
    spans, pending, grants = schedule(book.flows.values(), book.row, book.frame, share.start, share.length, book.plant)
    for sfid, grant in grants.items():
        if grant > 0:
            flow = book.flows[sfid]
            flow.backlog -= grant
            if flow.backlog > 0:
                flow.since = book.frame + 1
    met("frame" if not pending else "frame: a grant is pending")
    return ("F", book.frame, spans, pending)


# Another slice and budget

def unfit(book, start, share):
    """Returns why a new slice and budget from a frame on are refused, or None."""
    plant = book.plant
    if start <= book.frame:
        return "the frame is not behind the present one"
    if book.next_share is not None:
        return "an earlier one still waits"
    if share.length < 1 or share.start < plant.head or share.start + share.length > plant.frame_minislots:
        return "the slice does not lie in the frame"
    if share.budget > share.length:
        return "the budget is more than the slice"
    if all_committed(book)[0] > share.budget:
        return "more is committed"
    return None
