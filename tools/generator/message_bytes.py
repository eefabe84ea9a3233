"""Writes the bytes of messages and flow encodings from numbers. Each part may be as wrong as a test wants it."""

from service.reference.encodings import WIDTH, tlv
from service.reference.messages import DSA_ACK, DSA_REQ, DSC_ACK, DSC_REQ, DSD_REQ, FLOW, write_number


def spelled(fields):
    """Returns pairs of subtype and value as bytes; a value is a number, or bytes as they are."""
    return b"".join(tlv(subtype, value if isinstance(value, bytes) else write_number(value, WIDTH[subtype])) for subtype, value in fields)


def flow(stated):
    """Returns a type 24 of values by subtype."""
    return tlv(FLOW, spelled(stated.items()))


def head(kind, tid):
    """Returns the bytes that every message begins with."""
    return bytes([kind]) + write_number(tid, 2)


def dsa(tid, *tlvs):
    return head(DSA_REQ, tid) + b"".join(tlvs)


def dsc(tid, *tlvs):
    return head(DSC_REQ, tid) + b"".join(tlvs)


def dsd(tid, sfid):
    return head(DSD_REQ, tid) + bytes(2) + write_number(sfid, 4)


def dsa_ack(tid, code=0):
    return head(DSA_ACK, tid) + bytes([code])


def dsc_ack(tid, code=0):
    return head(DSC_ACK, tid) + bytes([code])
