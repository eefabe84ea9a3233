"""Spoils snapshots: changes bits, bytes, numbers and fields, and cuts, swaps and repeats lines and operators."""

import re

from service.reference.saving import end_of


def spoiled(rng, snapshot):
    """Returns a snapshot with one to three changes. In half of them the last line is right for the changed text."""
    for _ in range(rng.choice((1, 1, 1, 2, 3))):
        change = rng.choices((change_bit, change_byte, change_number, copy_field, swap_fields, cut_line, cut_text, swap_lines, repeat_line),
                             (2, 2, 6, 6, 1, 1, 1, 1, 1))[0]
        snapshot = change(rng, snapshot)
    return mended(snapshot) if rng.random() < 0.5 else snapshot


def mended(snapshot):
    """Returns a snapshot with the number of bytes of its plant file, the number of its lines and the checksum that its text has."""
    plant = snapshot.find(b"\n") + 1
    end = snapshot.find(b"\n---\n", plant - 1) + 1
    if end >= plant > 0:
        snapshot = re.sub(rb"\A(melfjits-snapshot 1 )[0-9]+", lambda found: found[1] + str(end - plant).encode(), snapshot)
    before = snapshot[:snapshot.rfind(b"\nend ") + 1] or snapshot
    return before + end_of(before).encode()


def place_in(rng, snapshot):
    """Returns a place in a snapshot, mostly behind the plant file."""
    least = max(0, snapshot.find(b"\n---\n")) if rng.random() < 0.9 else 0
    return rng.randrange(least, max(least + 1, len(snapshot)))


def change_bit(rng, snapshot):
    place = place_in(rng, snapshot)
    return snapshot[:place] + bytes(byte ^ 1 << rng.randrange(8) for byte in snapshot[place:place + 1]) + snapshot[place + 1:]


def change_byte(rng, snapshot):
    place = place_in(rng, snapshot)
    return snapshot[:place] + bytes([rng.choice(b"0123456789abAB -=,\n\xff")]) + snapshot[place + rng.choice((0, 1)):]


def change_number(rng, snapshot):
    """Changes the first number from a place on: by 1, or to one at which a range may end."""
    found = re.compile(rb"[0-9]+").search(snapshot, place_in(rng, snapshot))
    if found is None:
        return snapshot
    value = int(found[0][:20])
    number = rng.choice((value + 1, max(0, value - 1), value + 1, 0, 1, 7, 127, 128, 255, 256, 4_096, 8_191, 65_535, 65_536, 2**32 - 1, 2**32))
    return snapshot[:found.start()] + str(number).encode() + snapshot[found.end():]


def swap_fields(rng, snapshot):
    lines = snapshot.split(b"\n")
    place = line_in(rng, snapshot)
    fields = lines[place].split(b" ")
    one, other = rng.randrange(len(fields)), rng.randrange(len(fields))
    fields[one], fields[other] = fields[other], fields[one]
    return b"\n".join(lines[:place] + [b" ".join(fields)] + lines[place + 1:])


def copy_field(rng, snapshot):
    """Gives a record a field of another record of the same word, such as the SID or a set of another flow."""
    lines = snapshot.split(b"\n")
    place = line_in(rng, snapshot)
    fields = lines[place].split(b" ")
    others = [line.split(b" ") for line in lines if line.split(b" ")[0] == fields[0]]
    one, other = rng.randrange(len(fields)), rng.choice(others)
    fields[one] = other[min(one, len(other) - 1)]
    return b"\n".join(lines[:place] + [b" ".join(fields)] + lines[place + 1:])


def line_in(rng, snapshot):
    """Returns the place of a line, mostly behind the plant file."""
    return snapshot[:place_in(rng, snapshot)].count(b"\n")


def cut_line(rng, snapshot):
    lines = snapshot.split(b"\n")
    del lines[line_in(rng, snapshot)]
    return b"\n".join(lines)


def cut_text(rng, snapshot):
    return snapshot[:place_in(rng, snapshot)]


def swap_lines(rng, snapshot):
    lines = snapshot.split(b"\n")
    one, other = line_in(rng, snapshot), line_in(rng, snapshot)
    lines[one], lines[other] = lines[other], lines[one]
    return b"\n".join(lines)


def repeat_line(rng, snapshot):
    lines = snapshot.split(b"\n")
    lines.insert(line_in(rng, snapshot), lines[line_in(rng, snapshot)])
    return b"\n".join(lines)


def with_other_operators(rng, snapshot):
    """Returns a snapshot with the records of its operators in another order, or without those of one. Its numbers and last line are right."""
    front, *operators = re.split(rb"(?m)^(?=operator )", snapshot[:snapshot.rfind(b"\nend ") + 1])
    rng.shuffle(operators)
    if rng.random() < 0.5:
        operators.pop()
    front = re.sub(rb"(?m)^(frame [0-9]+) [0-9]+\n\Z", lambda found: b"%s %d\n" % (found[1], len(operators)), front)
    return mended(front + b"".join(operators))
