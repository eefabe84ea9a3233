"""Lists the flows of each modem in the books of a snapshot: the sets of a flow in short, and what the state has of its requests."""

from dataclasses import dataclass

from service.reference.book import Book, Entry, Flow, may_ask
from service.reference.encodings import GRANT_INTERVAL, GRANT_SIZE, GRANTS, POLLING_INTERVAL, PRIORITY, RESERVED, SCHEDULING, SUSTAINED
from service.reference.sets import BEST_EFFORT, NON_REAL_TIME, POLLING, REAL_TIME, UNSOLICITED

KINDS = {BEST_EFFORT: "be", NON_REAL_TIME: "nrtps", REAL_TIME: "rtps", UNSOLICITED: "ugs"}
# What a set has besides its kind, if it is not 0.
NUMBERS = ((PRIORITY, "priority {}"), (RESERVED, "reserved {} bit/s"), (SUSTAINED, "at most {} bit/s"))


@dataclass(frozen=True)
class FlowState:
    """What a snapshot says of a flow. `since` is the frame since which its backlog waits, or after which none has begun."""
    sfid: int
    sid: int | None
    sets: dict[str, str]
    awaits_transaction: int | None
    is_pending: bool
    may_request: bool
    backlog_minislots: int
    since: int
    frames_since: int


@dataclass(frozen=True)
class ModemState:
    """The flows of a modem, and how many ticks ago the last transaction began or ended of which a response is cached."""
    address: str
    operator: str
    ticks_since_transaction: int | None
    flows: tuple[FlowState, ...]


def set_words(one: dict) -> str:
    """Returns a parameter set in short."""
    kind = one[SCHEDULING]
    words = [KINDS[kind]]
    if kind == UNSOLICITED:
        words.append(f"{one[GRANTS]} x {one[GRANT_SIZE]} bytes every {one[GRANT_INTERVAL]} us")
    if kind in POLLING:
        words.append(f"polled every {one[POLLING_INTERVAL]} us")
    return ", ".join(words + [text.format(one[number]) for number, text in NUMBERS if one[number]])


def sets_of(flow: Flow) -> dict[str, str]:
    """Returns the sets that a flow has, by name. A pending set is one that awaits an acknowledgement."""
    sets = {"provisioned": flow.provisioned, "admitted": flow.admitted, "active": flow.active}
    if flow.waiting is not None:
        sets |= {"pending admitted": flow.waiting.admitted, "pending active": flow.waiting.active}
    return {name: set_words(one) for name, one in sets.items() if one is not None}


def ticks_since(entry: Entry, plant) -> int | None:
    """Returns the ticks since the message that began or ended a transaction, or None if its timer is longer than the plant's."""
    ticks = (plant.resends - entry.resends) * plant.ack_wait + plant.ack_wait - entry.ticks if entry.waits else plant.hold - entry.ticks
    return ticks if ticks >= 0 else None


def awaited(book: Book, flow: Flow) -> Entry | None:
    """Returns the response that awaits the acknowledgement of a flow's sets."""
    return next((entry for entry in book.kept if entry.waits and entry.sfid == flow.sfid), None)


def flow_state_of(book: Book, flow: Flow) -> FlowState:
    entry = awaited(book, flow)
    return FlowState(
        sfid=flow.sfid, sid=flow.sid, sets=sets_of(flow), awaits_transaction=entry and entry.tid, is_pending=flow.waiting is not None,
        may_request=may_ask(flow), backlog_minislots=flow.backlog, since=flow.since, frames_since=book.frame - flow.since)


def modem_state(book: Book, address: str) -> ModemState:
    ticks = [ticks_since(entry, book.plant) for entry in book.kept if entry.modem == address]
    flows = sorted((flow for flow in book.flows.values() if flow.modem == address), key=lambda flow: flow.sfid)
    known = [count for count in ticks if count is not None]
    return ModemState(address, book.row.name, min(known, default=None), tuple(flow_state_of(book, flow) for flow in flows))


def modems_of(books: list[Book]) -> tuple[ModemState, ...]:
    """Returns the modems that have flows, by operator and address."""
    return tuple(modem_state(book, address) for book in books for address in sorted({flow.modem for flow in book.flows.values()}))


def counted(number: int, noun: str) -> str:
    """Returns a number with its noun, whose plural has an s."""
    return f"{number} {noun}{'' if number == 1 else 's'}"


def joined(names: list[str]) -> str:
    """Returns names with commas between them, and a word before the last one."""
    return " and ".join(filter(None, (", ".join(names[:-1]), names[-1])))


def sets_words(sets: dict[str, str]) -> str:
    """Returns the sets of a flow, those that are equal together."""
    names = {text: [name for name in sets if sets[name] == text] for text in sets.values()}
    return "; ".join(f"{joined(of_text)} {text}" for text, of_text in names.items()) or "no set"


def request_words(flow: FlowState) -> str:
    """Returns what the state has of the requests of a flow. It has no frame of the last request."""
    frames = f"frame {flow.since}, {counted(flow.frames_since, 'frame')}"
    if flow.backlog_minislots:
        return f"backlog of {counted(flow.backlog_minislots, 'minislot')}, waiting since {frames}"
    if flow.may_request:
        return f"no backlog, and none has begun since {frames}"
    if "active" in flow.sets:
        return "unsolicited grants, no requests: not known how long it is silent"
    return "no active set: it may not request"


def flow_words(flow: FlowState) -> str:
    """Returns the lines of a flow."""
    sid = "no SID" if flow.sid is None else f"SID {flow.sid}"
    lines = [f"  flow {flow.sfid}, {sid}: {sets_words(flow.sets)}", f"    {request_words(flow)}"]
    if flow.is_pending:
        lines.append("    awaits an acknowledgement" + ("" if flow.awaits_transaction is None else f" of transaction {flow.awaits_transaction}"))
    return "\n".join(lines)


def modem_words(modem: ModemState) -> str:
    """Returns the paragraph of a modem."""
    ticks = modem.ticks_since_transaction
    last = "no transaction known" if ticks is None else f"last transaction {counted(ticks, 'tick')} ago"
    head = f"Modem {modem.address} of operator {modem.operator}: {counted(len(modem.flows), 'flow')}, {last}"
    return "\n".join((head, *map(flow_words, modem.flows)))
