"""Reads TLVs and the upstream flow encoding (Annex C, type 24)."""

from .coverage import MetFault, met

# Subtype: least and greatest length.
LENGTHS = {
    1: (2, 2), 2: (4, 4), 3: (2, 2), 4: (2, 16), 5: (6, 6), 6: (1, 1), 7: (1, 1), 8: (4, 4), 9: (4, 4), 10: (4, 4),
    15: (1, 1), 16: (4, 4), 17: (4, 4), 18: (4, 4), 19: (2, 2), 20: (4, 4), 21: (4, 4), 22: (1, 1),
}

REFERENCE, SFID, SID, CLASS_NAME, ERRORS, SET_TYPE, PRIORITY = 1, 2, 3, 4, 5, 6, 7
SUSTAINED, BURST, RESERVED, SCHEDULING, POLICY = 8, 9, 10, 15, 16
POLLING_INTERVAL, POLL_JITTER, GRANT_SIZE, GRANT_INTERVAL, GRANT_JITTER, GRANTS = 17, 18, 19, 20, 21, 22
# Bytes of the subtypes whose value is a number.
WIDTH = {subtype: least for subtype, (least, greatest) in LENGTHS.items() if least == greatest and subtype != ERRORS}


class FlowFault(MetFault):
    """Reports the first fault of a flow encoding: its kind, the subtype (None for a cut), and the fields before it."""

    def __init__(self, kind, subtype, before):
        super().__init__(f"flow encoding: {kind}" + (f" {subtype}" if subtype else ""), kind=kind, subtype=subtype, before=before)


def split_tlvs(data):
    """Returns the whole TLVs that the bytes begin with, as pairs of type and value, and whether a cut follows them."""
    tlvs, place = [], 0
    while place < len(data):
        if place + 1 >= len(data) or place + 2 + data[place + 1] > len(data):
            return tlvs, True
        end = place + 2 + data[place + 1]
        tlvs.append((data[place], data[place + 2:end]))
        place = end
    return tlvs, False


def number_of(value):
    return int.from_bytes(value, "big")


def in_range(subtype, value):
    """Tests whether a value of the right length is one that the subtype takes."""
    if subtype in (REFERENCE, SFID):
        return number_of(value) != 0
    if subtype == CLASS_NAME:
        return value[-1] == 0 and 0 not in value[:-1]
    if subtype == ERRORS:
        return value[0:2] == b"\x01\x01" and value[3:5] == b"\x02\x01"
    if subtype == PRIORITY:
        return value[0] <= 7
    return True


def field_of(subtype, value):
    """Returns the value of a field: a class name without its last byte, or a number. Of error encodings it returns only that they are there."""
    if subtype == CLASS_NAME:
        return value[:-1]
    if subtype == ERRORS:
        return value
    return number_of(value)


def read_flow(data):
    """Returns the fields of a flow encoding by subtype, or raises FlowFault. Unknown subtypes are skipped."""
    tlvs, cut = split_tlvs(data)
    fields = {}
    for subtype, value in tlvs:
        if subtype not in LENGTHS:
            met("flow encoding: a subtype is skipped")
            continue
        least, greatest = LENGTHS[subtype]
        if not least <= len(value) <= greatest:
            raise FlowFault("wrong length", subtype, fields)
        if subtype in fields:
            raise FlowFault("twice", subtype, fields)
        if not in_range(subtype, value):
            raise FlowFault("out of range", subtype, fields)
        fields[subtype] = field_of(subtype, value)
    if cut:
        raise FlowFault("cut", None, fields)
    return fields


def tlv(kind, value):
    return bytes([kind, len(value)]) + value
