"""Makes random flow encodings: parameters that suit a channel, and the ways in which an encoding can be invalid."""

from service.reference.encodings import WIDTH

from . import message_bytes

MOST = {subtype: 256 ** width - 1 for subtype, width in WIDTH.items()}
KNOWN = tuple(WIDTH) + (4, 5)
SKIPPED = (0, 11, 12, 13, 14, 23, 24, 43, 99, 255)


def pick(rng, *weighted):
    """Returns one of the values, each given with its weight."""
    values = [value for value, _ in weighted]
    return rng.choices(values, [weight for _, weight in weighted])[0]


def spelled(fields):
    """Returns pairs of subtype and value as bytes; a number that is too great is the greatest that there is."""
    return message_bytes.spelled((subtype, value if isinstance(value, bytes) else min(value, MOST[subtype])) for subtype, value in fields)


# Parameters

def rate_of(channel, minislots):
    """Returns a Minimum Reserved Traffic Rate that so many minislots reserve."""
    return min(minislots * 8_000_000 * channel.bytes_per_minislot // channel.frame_us, MOST[10])


def interval(rng, channel):
    frames = rng.choice((1, 1, 1, 2, 2, 3, 4, 7))
    return min(MOST[17], frames * channel.frame_us + rng.choice((0, 0, 0, 1, channel.frame_us - 1)))


def params(rng, channel, scheduling=None):
    """Parameters of a kind of scheduling, small enough that several flows fit."""
    if scheduling is None:
        scheduling = pick(rng, (None, 2), (2, 4), (3, 2), (4, 3), (6, 4))
    asked = {} if scheduling is None else {15: scheduling}
    if rng.random() < 0.6:
        asked[7] = rng.randrange(8)
    if rng.random() < 0.3:
        asked[8] = rng.choice((0, 1, 64_000, 1_000_000))
    if rng.random() < 0.15:
        asked[9] = rng.choice((0, 1522, MOST[9]))
    if rng.random() < 0.15:
        asked[16] = rng.choice((0, 0x100, MOST[16]))
    if scheduling == 6:
        asked |= {19: grant_size(rng, channel), 20: interval(rng, channel), 22: pick(rng, (1, 5), (2, 3), (3, 2), (9, 1))}
        if rng.random() < 0.2:
            asked[21] = rng.choice((0, 800, MOST[21]))
    elif rng.random() < 0.55:
        asked[10] = rate_of(channel, pick(rng, (0, 1), (1, 4), (2, 4), (3, 2), (6, 1), (40, 1))) + rng.choice((0, 0, 1))
    if scheduling == 4 or (scheduling == 3 and rng.random() < 0.6):
        asked[17] = interval(rng, channel)
        if rng.random() < 0.2:
            asked[18] = rng.choice((0, 500, MOST[18]))
    return asked


def grant_size(rng, channel):
    minislots = pick(rng, (1, 4), (2, 3), (3, 1), (5, 1), (20, 0.3))
    return max(1, min(MOST[19], minislots * channel.bytes_per_minislot - rng.choice((0, 0, 1))))


def varied(rng, asked):
    """Parameters near others: one of what `within` compares is moved up or down, or a field is left out."""
    asked = dict(asked)
    subtype = rng.choice((7, 8, 8, 10, 15, 17, 17, 19, 20, 22))
    if subtype == 8:
        asked[8] = rng.choice((0, 1, 64_000, 2_000_000))
    elif subtype == 15:
        asked[15] = rng.choice((2, 3, 4, 6))
    elif subtype in asked:
        asked[subtype] = max(0, min(MOST[subtype], asked[subtype] + rng.choice((-2000, -1, -1, 1, 1, 2000))))
    elif rng.random() < 0.5:
        asked[subtype] = rng.choice((0, 1, 5))
    if subtype == 7:
        asked[7] = min(asked[7], 7) if 7 in asked else rng.randrange(8)
    return asked


def lessened(rng, asked):
    """Parameters that are within others, as far as that is plain."""
    asked = dict(asked)
    for subtype in (7, 10):
        if asked.get(subtype, 0) and rng.random() < 0.4:
            asked[subtype] = rng.randrange(asked[subtype] + 1)
    for subtype in (17, 20):
        if subtype in asked and rng.random() < 0.4:
            asked[subtype] = min(MOST[subtype], asked[subtype] * rng.choice((1, 2)) + rng.randrange(3))
    if asked.get(22, 0) > 1 and rng.random() < 0.3:
        asked[22] -= 1
    if asked.get(8, 1) == 0 and rng.random() < 0.3:
        asked[8] = 5000
    return asked


def spoilt(rng, channel, asked):
    """Parameters that most likely are refused as no parameter set."""
    asked = dict(asked)
    subtype = rng.choice((15, 17, 17, 19, 20, 22))
    if subtype == 15:
        asked[15] = rng.choice((0, 1, 5, 7, 255))
        return asked
    if subtype == 17:
        asked[15] = rng.choice((3, 4))
    elif asked.get(15) != 6:
        asked |= {15: 6, 19: 16, 20: channel.frame_us, 22: 1}
    if rng.random() < 0.5:
        asked.pop(subtype, None)
    else:
        asked[subtype] = {17: channel.frame_us - 1, 19: 0, 20: channel.frame_us - 1, 22: rng.choice((0, 128, 255))}[subtype]
    return asked


def fields_of(rng, asked, leading=()):
    """Returns the fields of an encoding, mostly in ascending order, at times in any order or with subtypes that are skipped."""
    fields = list(leading) + sorted(asked.items())
    if rng.random() < 0.15:
        rng.shuffle(fields)
    if rng.random() < 0.1:
        for _ in range(rng.choice((1, 1, 2))):
            fields.insert(rng.randrange(len(fields) + 1), (rng.choice(SKIPPED), rng.randbytes(rng.choice((0, 1, 3)))))
    return fields


# Faults

def bad_length(rng, subtype):
    if subtype == 4:
        return bytes(rng.choice((0, 1, 17, 20)))
    width = WIDTH.get(subtype, 6)
    return rng.randbytes(rng.choice([length for length in (0, 1, 2, 3, 4, 5, 7, 255) if length != width]))


def good_value(rng, subtype):
    if subtype == 4:
        return b"x" * rng.randrange(1, 16) + b"\x00"
    if subtype == 5:
        return bytes([1, 1, rng.randrange(256), 2, 1, rng.randrange(256)])
    return rng.randrange(1, 8).to_bytes(WIDTH[subtype], "big")


def bad_value(rng):
    return rng.choice(((1, bytes(2)), (2, bytes(4)), (4, b"ab"), (4, b"a\x00b\x00"), (4, b"\x00\x00"), (5, b"\x01\x01\x07\x02\x02\x01"),
                       (5, b"\x01\x02\x07\x02\x01\x01"), (5, bytes(6)), (7, b"\x08"), (7, b"\xff")))


def faulty(rng, fields):
    """Returns the bytes of an encoding with a fault at a random place (two at times)."""
    fields = list(fields)
    for _ in range(rng.choice((1, 1, 1, 2))):
        place = rng.randrange(len(fields) + 1)
        what = rng.choice(("length", "length", "twice", "range", "cut"))
        if what == "length":
            subtype = rng.choice(KNOWN)
            fields.insert(place, (subtype, bad_length(rng, subtype)))
        elif what == "twice":
            stated = [subtype for subtype, _ in fields if subtype in KNOWN]
            subtype = rng.choice(stated or KNOWN)
            fields.insert(place, (subtype, good_value(rng, subtype)))
            if not stated or rng.random() < 0.3:
                fields.append((subtype, good_value(rng, subtype)))
        elif what == "range":
            fields.insert(place, bad_value(rng))
        else:
            data = spelled(fields)
            return data[:rng.randrange(len(data))] if data else b"\x01"
    return spelled(fields)
