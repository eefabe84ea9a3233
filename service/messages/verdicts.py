"""Says what becomes of a modem's message by its bytes alone: which TLVs the program refuses, and which check decides."""

from types import SimpleNamespace

from service.reference.book import asked_sets, judge_encodings, judge_set_type
from service.reference.encodings import CLASS_NAME, REFERENCE, SFID
from service.reference.messages import (DSA_ACK, DSA_REQ, DSC_ACK, DSC_REQ, DSD_REQ, FLOW, INVALID, OTHER, REQUESTS, UNRECOGNIZED, NoAnswer, Refused,
                                      read_flows, read_header)

from .words import CODES

# What check 4 answers to a fault of a TLV, and whether it names the parameter.
ANSWERS = {"cut": (OTHER, False), "left out": (UNRECOGNIZED, False), "wrong length": (UNRECOGNIZED, True), "twice": (INVALID, True),
           "out of range": (INVALID, True)}


class EveryName:
    """A table of service classes in which each name is found."""

    def __contains__(self, name):
        return True


# No state of an operator: each class exists, and a frame is so short that each interval but 0 has one.
NO_STATE = SimpleNamespace(plant=SimpleNamespace(classes=EveryName(), frame_us=1))


def first_fault(data):
    """Returns the first fault of a modem's message by the checks that its bytes alone can decide, in words, or None."""
    try:
        kind, body = read_header(data)
        if kind in (DSA_ACK, DSC_ACK):
            return None
        if is_of_cmts(body):
            return "check 1: the transaction ID is of the CMTS's own half, code 10"
        if kind != DSD_REQ:
            judge_flows(REQUESTS[kind], read_flows(body[2:]))
    except NoAnswer as nothing:
        return f"check 0: {nothing.cause}"
    except Refused as refused:
        return f"check {refused.check}: {code_text(refused.code)}" + naming(kind, refused)
    return None


def is_of_cmts(body):
    """Tests whether a transaction ID belongs to the CMTS (check 1)."""
    return body[0] >= 0x80


def judge_flows(kind, flows):
    """Raises Refused for the first of the checks 6 to 9, 13 and 14 that decides. A class may give the parameters that check 14 wants."""
    judge_encodings(NO_STATE, kind, flows)
    judge_set_type(kind, flows)
    if not any(CLASS_NAME in flow for flow in flows):
        asked_sets(NO_STATE, flows)


def code_text(code):
    return f"code {code} ({CODES[code]})"


def naming(kind, refused):
    if refused.subtype is None:
        return ""
    identifier = refused.flow.get(REFERENCE if kind == DSA_REQ else SFID)
    of_flow = "" if identifier is None else f" of the encoding with {'reference' if kind == DSA_REQ else 'SFID'} {identifier}"
    return f" naming subtype {refused.subtype}{of_flow}"


def marks_of(data, parts):
    """Returns a mark for each part of a request that the program refuses, by the part's place: the check, the code, and what the reply names."""
    if data[:1] not in (bytes([DSA_REQ]), bytes([DSC_REQ])) or is_of_cmts(data[1:]):
        return {}
    found = {place: mark_of(part) for place, part in enumerate(parts) if part.fault in ANSWERS}
    return found or mark_of_set(data, parts)


def mark_of(part):
    code, is_named = ANSWERS[part.fault]
    return mark(4, code, part.data[0] if is_named else None)


def mark(check, code, subtype):
    return f"<- refused: check {check}, {code_text(code)}, " + ("naming no subtype" if subtype is None else f"naming subtype {subtype}")


def mark_of_set(data, parts):
    """Returns the mark of the field for which check 13 or 14 refuses an encoding; if that is absent, of the encoding."""
    try:
        flows = read_flows(data[3:])
        judge_flows(REQUESTS[data[0]], flows)
    except Refused as refused:
        if refused.subtype is not None and refused.flow:
            place = place_of_field(parts, [flow is refused.flow for flow in flows].index(True), refused.subtype)
            return {place: mark(refused.check, refused.code, refused.subtype)}
    return {}


def place_of_field(parts, number, subtype):
    """Returns the place of a subtype among the parts of the encoding with this number, or of the encoding's own head."""
    heads = [place for place, part in enumerate(parts) if part.depth == 0 and part.data[0] == FLOW and place > 1] + [len(parts)]
    inside = range(heads[number] + 1, heads[number + 1])
    return next((place for place in inside if parts[place].depth == 1 and parts[place].data[0] == subtype), heads[number])
