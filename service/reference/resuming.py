"""Runs the command `resume`: serves from a plant file or a snapshot, writes snapshots (`K`), and changes the plant (`P`) and frame numbers (`N`).

Runs `restore`, which takes a snapshot alone, and `snapshot`, which writes the snapshot after the last line.
"""

import re

from .changes import NotChanged, changed_core
from .numbering import NotRenumbered, renumbered_core, requests_number
from .program import IO, PLANT, Core, Fault, judged_plant, text_of
from .saving import snapshot_of
from .services import answer_of_line, invalid_line, split_service
from .snapshots import SnapshotFault, read_snapshot
from .states import StateFault, books_of

SNAPSHOT = b"melfjits-snapshot "
# The greatest plant file, with the line of a snapshot before it.
MOST_FRONT = 1_048_640


def is_snapshot(data):
    return data.startswith(SNAPSHOT)


def resumed(data):
    """Returns the exit status of `resume`, and what it prints."""
    try:
        service, lines = begun(data)
    except Fault as fault:
        return fault.status, fault.last_line + "\n"
    return 0, "".join(service.answers(lines))


def restored(data):
    """Returns the exit status of `restore`, and what it prints."""
    return resumed(data) if is_snapshot(data) else (PLANT, "fault: snapshot 1\n")


def saved(data):
    """Returns the exit status of `snapshot`, and what it prints."""
    try:
        service, lines = begun(data)
        for _answer in service.answers(lines):
            pass
        return 0, service.last_snapshot()
    except Fault as fault:
        return fault.status, fault.last_line + "\n"


def begun(data):
    """Returns the service that begins with a plant file or a snapshot, and its lines."""
    core, plant_text, lines = snapshot_begun(data) if is_snapshot(data) else plant_begun(data)
    return Service(core, plant_text), lines


class Service:
    """A plant in service, and the text of its plant file."""

    def __init__(self, core, plant_text):
        self.core, self.plant_text = core, plant_text

    def answers(self, lines, first=1):
        """Yields the answer to each line. The first one has the number `first`. A plant file, with the line `P` before it and the line `---`
        after it, has one answer."""
        place = 0
        while place < len(lines):
            line, length = lines[place], 1
            if line == b"P":
                file, length = split_file(lines[place + 1:])
                yield self.change(first + place, file)
            else:
                yield self.answer(first + place, line)
            place += length

    def answer(self, number, line):
        """Returns the answer to a line that begins no plant file."""
        if requests_number(line):
            return self.renumber(number, line)
        return self.snapshot(number) if line == b"K" else answer_of_line(self.core, number, line)

    def snapshot(self, number):
        return snapshot_of(self.core, self.plant_text) or invalid_line(number)

    def last_snapshot(self):
        """Returns the snapshot after the last line."""
        snapshot = snapshot_of(self.core, self.plant_text)
        if not snapshot:
            raise Fault(PLANT, "fault: state")
        return snapshot

    def change(self, number, file):
        """Changes the plant to that of a file. A file that is not ended is None, and refused."""
        try:
            if file is None:
                raise NotChanged("the plant file is not ended")
            self.core, self.plant_text = changed_core(self.core, file)
        except NotChanged:
            return invalid_line(number)
        return f"P frame {self.core.books[0].frame}\n"

    def renumber(self, number, line):
        """Gives the next frame the number of a line `N`."""
        try:
            self.core = renumbered_core(self.core, self.plant_text, line)
        except NotRenumbered:
            return invalid_line(number)
        return f"N frame {self.core.books[0].frame}\n"


def split_file(lines):
    """Returns the plant file that lines begin with, and how many lines it takes with those before and after it. One that is not ended is None."""
    if b"---" not in lines:
        return None, 1 + len(lines)
    end = lines.index(b"---")
    return b"".join(line + b"\n" for line in lines[:end]), end + 2


def plant_begun(data):
    """Returns the core of a plant file as it is opened, the text of the file, and the lines of the service."""
    file, lines = split_service(data)
    text = text_of(file)
    plant, _none = judged_plant(text)
    return Core(plant), text, lines


def snapshot_begun(data):
    """Returns the core of a snapshot, the text of its plant file, and the lines of the service."""
    snapshot, lines = split_snapshot(data)
    try:
        saved = read_snapshot(snapshot)
        text = text_of(saved.plant_text)
        plant, _none = judged_plant(text)
        return Core(plant, books_of(plant, saved)), text, lines
    except SnapshotFault as fault:
        raise Fault(PLANT, f"fault: snapshot {fault.line}") from fault
    except StateFault as fault:
        raise Fault(PLANT, "fault: state") from fault


def split_snapshot(data):
    """Returns the snapshot up to the second line `---`, and the lines after it. Without any such line, it is read as if one followed."""
    bars = list(re.finditer(rb"(?m)^---(?:\n|\Z)", data))
    if (bars[0].start() if bars else len(data)) > MOST_FRONT:
        raise Fault(IO, "fault: io")
    end = bars[1].start() if len(bars) > 1 else len(data)
    if not bars:
        return data + b"---\n", []
    snapshot = data[:bars[0].start()] + b"---\n" + data[bars[0].end():end]
    return snapshot, data[bars[1].end():].split(b"\n") if len(bars) > 1 else []
