"""Judges the states of a snapshot under a plant, and makes the operators' books of them (docs/FORMATS.md, docs/RULES.md)."""

from .book import Book, Waiting, all_committed, may_ask, open_book
from .coverage import MetFault


class StateFault(MetFault):
    """Reports a state in which an operator cannot go on, and the first rule that it breaks."""

    def __init__(self, rule):
        super().__init__(f"state: {rule}", rule=rule)


def require(holds, rule):
    if not holds:
        raise StateFault(rule)


def books_of(plant, snapshot):
    """Returns the books of a plant in the states of a snapshot. An operator that it does not have begins anew before its frame."""
    states = {state.name: state for state in snapshot.states}
    require(set(states) <= {row.name for row in plant.rows}, "the plant has the operator")
    require(snapshot.frame >= plant.first_frame, "the frame is not before the first one")
    books = []
    for row in plant.rows:
        book = open_book(plant, row, snapshot.frame)
        if row.name in states:
            book = book_of(plant, row, snapshot.frame, states[row.name])
        books.append(book)
    judge_slices(books)
    return books


def book_of(plant, row, frame, state):
    """Returns the book of an operator in its state."""
    judge_limits(row, state)
    judge_identifiers(row, state)
    for saved in state.flows:
        judge_flow(frame, saved)
    judge_responses(state)
    book = Book(plant, row, frame, state.share, state.next_share, kept=state.responses, inbox=state.arrivals)
    kinds = {entry.sfid: entry.kind for entry in state.responses if entry.waits}
    for saved in state.flows:
        saved.flow.waiting = waiting_of(saved.pending, kinds.get(saved.flow.sfid))
        book.flows[saved.flow.sfid] = saved.flow
    judge_shares(book)
    return book


def judge_limits(row, state):
    require(len(state.flows) <= row.flows, "the limit of flows")
    require(len(state.responses) <= row.transactions, "the limit of transactions")
    require(len(state.arrivals) <= row.inbox, "the limit of the inbox")
    modems = [saved.flow.modem for saved in state.flows] + [entry.modem for entry in state.responses]
    modems += [modem for modem, _ in state.arrivals]
    require(set(modems) <= set(row.modems), "modems are listed")


def judge_identifiers(row, state):
    sids = [saved.flow.sid for saved in state.flows if saved.flow.sid is not None]
    require(all(row.sfids[0] <= saved.flow.sfid <= row.sfids[1] for saved in state.flows), "SFIDs are in their range")
    require(all(row.sids[0] <= sid <= row.sids[1] for sid in sids), "SIDs are in their range")
    require(len(set(sids)) == len(sids), "SIDs are distinct")


def judge_flow(frame, saved):
    """Judges what the rules say of a flow by itself: its SID, what awaits an acknowledgement, its frames and its backlog."""
    flow, pending = saved.flow, saved.pending
    require(flow.sid is not None or flow.admitted is None, "a flow with an admitted set has a SID")
    if pending is not None:
        require(flow.sid is not None or pending.admitted is None, "a flow whose set is to be admitted has a SID")
        require(pending.provisioned == flow.provisioned, "no request changes the provisioned set")
        require(not pending.gave_sid or flow.admitted is None, "a SID came with the request")
    require(flow.start <= frame and flow.since <= frame, "no frame of a flow is to come")
    require(flow.backlog == 0 or may_ask(flow), "a backlog is of a flow that may request")


def judge_responses(state):
    """Judges that each response that waits is of a flow whose sets await an acknowledgement, and no two are of the same flow."""
    flows = {saved.flow.sfid: saved for saved in state.flows}
    waiting = [entry for entry in state.responses if entry.waits]
    require(len({entry.sfid for entry in waiting}) == len(waiting), "no two responses that wait are of one flow")
    for entry in waiting:
        saved = flows.get(entry.sfid)
        require(entry.kind != "DSD" and saved is not None and saved.pending is not None, "the flow awaits an acknowledgement")
        require(entry.kind == "DSC" or has_no_set(saved.flow), "a new flow has no set")


def has_no_set(flow):
    return (flow.provisioned, flow.admitted, flow.active) == (None, None, None)


def waiting_of(pending, kind):
    """Returns what waits of a flow, with the kind of the response that waits for it."""
    return None if pending is None else Waiting(kind, pending.admitted, pending.active, pending.gave_sid)


def judge_shares(book):
    """Judges a slice and a budget, in force or to come, and what is committed under them."""
    shares = [book.share] + ([] if book.next_share is None else [book.next_share[1]])
    minislots, elements = all_committed(book)
    require(elements <= book.row.elements, "the quota of elements")
    for share in shares:
        require(book.plant.head <= share.start and share.start + share.length <= book.plant.frame_minislots, "a slice is in the frame")
        require(minislots <= share.budget <= share.length, "the budget")
    require(book.next_share is None or book.next_share[0] > book.frame, "a slice change is of a later frame")


def judge_slices(books):
    """Judges the slices of all operators: none overlap, and a slice change waits for all of them, from one frame on, or for none."""
    changes = [book.next_share for book in books]
    require(not overlap([book.share for book in books]), "slices do not overlap")
    require(len({None if change is None else change[0] for change in changes}) == 1, "slices wait for one frame")
    require(None in changes or not overlap([share for _, share in changes]), "slices that wait do not overlap")


def overlap(shares):
    spans = sorted((share.start, share.start + share.length) for share in shares)
    return any(one[1] > other[0] for one, other in zip(spans, spans[1:]))
