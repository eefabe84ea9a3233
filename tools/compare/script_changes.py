"""Makes what the tools put into scripts: plant files that leave a row as it is, lines `N`, and ticks after which the plant rests."""

import re
from collections import Counter

from service.reference import coverage
from service.reference.book import LAST_FRAME
from service.reference.plant import PlantFault, read_plant
from tools.generator.changes import NEW_CLASSES, File, change_file, changed_bytes, class_name, make_room

MOST_TICKS_BEHIND, MOST_FRAMES = 20, 100_000
OTHER_FORMS = (b"N", b"N ", b"N 00", b"N +1", b"N 4294967296", b"N 1 ", b"N -1", b"NN 1", b"N 1\r", b"N one")
GIVEN = "frame number: given"
# What the second implementation counts of a change that is done begins so.
CHANGED = "change of plant: changed"


def counted(kind, do):
    """Does something, and returns what the second implementation counts of it: how it ended, or why it is refused."""
    before = Counter(coverage.COUNTS)
    do()
    return next(what for what in coverage.COUNTS - before if what.startswith(kind))


def ticks_to_rest(core):
    """Returns a tick of each operator for each frame that it is behind the others."""
    last = max(book.frame for book in core.books)
    return [f"T {book.row.name}" for book in core.books for _ in range(min(last - book.frame, MOST_TICKS_BEHIND))]


# Plant files

def with_room(rng, text):
    """Returns a plant file in which, if it is valid so, some minislots have no slice."""
    file = File(text, None, ())
    if rng.random() < 0.6:
        make_room(rng, file)
    made = file.text(rng)
    try:
        read_plant(made)
    except PlantFault:
        return text
    return made


def file_for_change(rng, service, watched, original):
    """Returns the bytes of a plant file that changes the rows of other operators. It has the row `watched`, or is invalid."""
    used = [minislot for book in service.core.books for minislot in range(book.share.start, book.share.start + book.share.length)]
    file = File(service.plant_text, watched.name, used)
    change_file(rng, file, original)
    data = changed_bytes(rng, file)
    return data if keeps_row(data, watched) else file.text(rng).encode()


def keeps_row(data, row):
    """Tests whether a plant file is invalid, or has a row: one that is cut, or has another byte, may be valid."""
    try:
        return row in read_plant(data.decode()).rows
    except (UnicodeDecodeError, PlantFault):
        return True


def lines_of_change(data):
    """Returns the lines that give a plant another plant file."""
    return [b"P", *data.removesuffix(b"\n").split(b"\n"), b"---"]


def class_to_name(rng, core, row, watched):
    """Returns a class for a message of a modem of `row`, or None. Only an operator that is not watched names one that is not in service."""
    names = [name.decode() for name in core.plant.classes]
    if row.name != watched.name:
        names += NEW_CLASSES
    return rng.choice(names) if names else None


def addition_of_class(rng, row, name):
    """Returns lines in which a modem of a row adds a flow of a class."""
    return addition(rng, row, f"01020001{class_name(name)}060106")


def addition(rng, row, encoding):
    """Returns lines in which a modem of a row adds a flow and acknowledges it."""
    modem, tid = rng.choice(row.modems), rng.randrange(1, 40)
    return [f"M {modem} 0F{tid:04X}18{len(encoding) // 2:02X}{encoding}".encode(), f"M {modem} 11{tid:04X}00".encode()]


def file_with_classes(rng, text, other_text):
    """Returns the plant file `text` with the classes of another one."""
    file = File(text, None, ())
    file.classes = File(other_text, None, ()).classes
    return file.text(rng)


# Frame numbers

def has_room_for_numbers(plant):
    """Tests whether the frames of a script do not come near the last number."""
    return plant.first_frame + MOST_FRAMES <= LAST_FRAME


def number_line(rng, core):
    """Returns a line `N`: mostly with a number that keeps the time, and far from the last one."""
    frame, minislots = core.books[0].frame, core.plant.frame_minislots
    step = 2**32 // (minislots & -minislots)
    fitting = range(frame % step, LAST_FRAME + 1 - MOST_FRAMES, step)
    if not fitting or rng.random() < 0.25:
        other = b"N %d" % rng.choice((0, 1, 255, frame + 1, rng.randrange(2**31), step // 2))
        return rng.choice((other, rng.choice(OTHER_FORMS)))
    return b"N %d" % rng.choice((fitting[0], fitting[-1], rng.choice(fitting)))


def with_other_start(line, shift):
    """Returns a line under frame numbers that are moved, or None if it is a slice change whose frame has no number then."""
    found = re.fullmatch(r"(Z )([0-9]{1,10})( .*)?", line)
    if found is None or int(found[2]) > LAST_FRAME:
        return line
    first = int(found[2]) + shift
    return f"{found[1]}{first}{found[3] or ''}" if 0 <= first <= LAST_FRAME else None
