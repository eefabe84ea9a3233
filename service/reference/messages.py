"""Reads dynamic service messages (6.4.12 to 6.4.22), and writes the replies with their confirmation codes."""

from .coverage import MetFault, met
from .encodings import ERRORS, REFERENCE, SFID, SID, FlowFault, read_flow, split_tlvs, tlv

DSA_REQ, DSA_ACK, DSC_REQ, DSC_ACK, DSD_REQ = 15, 17, 18, 20, 21
# Kind of a request: the type of its response.
RESPONSE = {"DSA": 16, "DSC": 19, "DSD": 22}
REQUESTS = {DSA_REQ: "DSA", DSC_REQ: "DSC", DSD_REQ: "DSD"}
ACKNOWLEDGEMENTS = {DSA_ACK: "DSA", DSC_ACK: "DSC"}
# Bytes after the type byte that must be there.
FIXED_PART = {DSA_REQ: 2, DSC_REQ: 2, DSA_ACK: 3, DSC_ACK: 3, DSD_REQ: 8}

FLOW = 24
LEFT_OUT = (22, 23, 25, 26)

OKAY, OTHER, UNRECOGNIZED, RESOURCE, ADMIN, NOT_OWNER, FLOW_NOT_FOUND = 0, 1, 2, 3, 4, 5, 6
MISSING, UNKNOWN_TRANSACTION, DUPLICATE, MULTIPLE_FLOWS, INVALID, AUTHORIZATION = 8, 10, 18, 19, 23, 24

# The subtype that names the flow, by the kind of request.
IDENTIFIER = {"DSA": REFERENCE, "DSC": SFID}


class NoAnswer(MetFault):
    """Why a message or a request is answered nothing."""

    def __init__(self, cause):
        super().__init__(f"cause {cause}", cause=cause)


class Refused(Exception):
    """Reports that a request is refused with this code. If a subtype is named, `flow` has the fields of the invalid encoding."""

    def __init__(self, check, code, subtype=None, flow=None):
        super().__init__(check, code, subtype)
        self.check, self.code, self.subtype, self.flow = check, code, subtype, flow or {}


def read_header(message):
    """Returns the message's type and what follows it (check 0)."""
    if not message:
        raise NoAnswer("Empty")
    if message[0] not in FIXED_PART:
        raise NoAnswer("NotOurs")
    if len(message) - 1 < FIXED_PART[message[0]]:
        raise NoAnswer("Short")
    return message[0], message[1:]


def read_flows(body):
    """Returns the flow encodings of a DSA-REQ or DSC-REQ, from the bytes after its transaction ID (check 4)."""
    tlvs, cut = split_tlvs(body)
    if cut:
        met("message: cut")
        raise Refused(4, OTHER)
    for kind, _ in tlvs:
        if kind in LEFT_OUT:
            met(f"message: left out {kind}")
            raise Refused(4, UNRECOGNIZED)
        if kind != FLOW:
            met("message: a type is skipped")
    return [read_flow_of_message(value) for kind, value in tlvs if kind == FLOW]


def read_flow_of_message(value):
    try:
        return read_flow(value)
    except FlowFault as fault:
        if fault.kind == "cut":
            raise Refused(4, OTHER) from fault
        code = UNRECOGNIZED if fault.kind == "wrong length" else INVALID
        raise Refused(4, code, fault.subtype, fault.before) from fault


def write_number(number, length):
    return number.to_bytes(length, "big")


def identifier_tlv(kind, number):
    return tlv(IDENTIFIER[kind], write_number(number, 2 if kind == "DSA" else 4))


def reply(kind, tid, code, tlvs=b""):
    """Returns a response. That to a DSD-REQ ends with a reserved byte and has no TLV."""
    fixed = bytes([RESPONSE[kind]]) + write_number(tid, 2) + bytes([code])
    return fixed + (b"\x00" if kind == "DSD" else tlvs)


def added_reply(tid, reference, sfid, sid):
    flow = identifier_tlv("DSA", reference) + tlv(SFID, write_number(sfid, 4)) + tlv(SID, write_number(sid, 2))
    return reply("DSA", tid, OKAY, tlv(FLOW, flow))


def changed_reply(tid, sfid, sid):
    flow = identifier_tlv("DSC", sfid)
    if sid is not None:
        flow += tlv(SID, write_number(sid, 2))
    return reply("DSC", tid, OKAY, tlv(FLOW, flow))


def refusal(kind, tid, refused):
    """Returns the response of a refusal. One that names a subtype has the flow, if it is known, and the error encodings."""
    if refused.subtype is None:
        return reply(kind, tid, refused.code)
    identifier = refused.flow.get(IDENTIFIER[kind])
    flow = b"" if identifier is None else identifier_tlv(kind, identifier)
    flow += tlv(ERRORS, bytes([1, 1, refused.subtype, 2, 1, refused.code]))
    return reply(kind, tid, refused.code, tlv(FLOW, flow))
