"""Makes the MAP of a frame (6.4.4), version 1, from the parts of all operators."""

from .coverage import met

ALL_MODEMS = 0x3FFF
REQUEST, PENDING, IDLE, NULL = 1, 5, 6, 7


def element(sid, code, offset):
    return (sid * 262144 + code * 16384 + offset).to_bytes(4, "big")


def unheld_runs(spans, head, frame_minislots):
    """Returns the starts of the runs of minislots after the head that no slice holds. A span is (SID, IUC, start, length)."""
    starts, place = [], head
    for _, _, start, length in spans:
        if start > place:
            starts.append(place)
        place = start + length
    if place < frame_minislots:
        starts.append(place)
    return starts


def map_of(plant, frame, parts):
    """Returns the bytes of a frame's MAP; a part is an operator's spans, in order, and its grants pending."""
    parts = sorted(parts, key=lambda part: part[0][0][2])
    spans = [span for part_spans, _ in parts for span in part_spans]
    elements = [element(ALL_MODEMS, REQUEST, 0)] if plant.head > 0 else []
    idle = [(0, IDLE, start) for start in unheld_runs(spans, plant.head, plant.frame_minislots)]
    held = [(sid, code, start) for sid, code, start, _ in spans]
    elements += [element(*span) for span in sorted(held + idle, key=lambda span: span[2])]
    elements.append(element(0, NULL, plant.frame_minislots))
    elements += [element(sid, PENDING, plant.frame_minislots) for _, pending in parts for sid in pending]
    met_in_map(plant, frame, idle, elements)
    time = (frame * plant.frame_minislots % 2**32).to_bytes(4, "big")
    header = bytes([plant.channel, plant.ucd_count, len(elements), 0]) + time + time + bytes(plant.backoffs)
    return header + b"".join(elements)


def met_in_map(plant, frame, idle, elements):
    met("map")
    if plant.head == 0:
        met("map: no head")
    if idle:
        met("map: minislots of no slice")
    if frame * plant.frame_minislots >= 2**32:
        met("map: the alloc start time passes 32 bits")
    if len(elements) >= 200:
        met("map: 200 elements or more")
    if len(elements) == 240:
        met("map: 240 elements")
