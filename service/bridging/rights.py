"""Reads from the plant file that is in force which modems each operator has."""

import pathlib
from dataclasses import dataclass, field

from service.reference.coverage import MetFault
from service.reference.plant import PlantFault, read_plant

MOST_PLANT = 1_048_576
# The first lines of the journal of a service: the number of its line, and that of the snapshot.
MOST_FRONT = 200


class Unreadable(Exception):
    """A plant file cannot be read."""


@dataclass(frozen=True)
class Rights:
    """The operators of a plant file, in their order, and the operator of each modem."""
    names: tuple = ()
    operator_of: dict = field(default_factory=dict)


def rights_of(data):
    """Returns the rights that the bytes of a plant file give."""
    try:
        plant = read_plant(data.decode())
    except PlantFault as fault:
        raise Unreadable(f"the plant file has fault {fault.number} {fault.detail}".rstrip()) from fault
    except (MetFault, ValueError) as fault:
        raise Unreadable(f"the plant file cannot be read: {fault}") from fault
    return Rights(tuple(row.name for row in plant.rows), {modem: row.name for row in plant.rows for modem in row.modems})


def plant_of_file(path):
    """Returns the plant file of a path up to its line ---."""
    try:
        data = b"\n" + pathlib.Path(path).read_bytes()
    except OSError as fault:
        raise Unreadable(f"cannot read {path}: {fault.strerror}") from fault
    return (data + b"\n").partition(b"\n---\n")[0][1:] + b"\n"


def plant_of_journal(path):
    """Returns the plant file of a channel's journal, or None if there is no journal, or one of another form."""
    try:
        with open(path, "rb") as file:
            data = file.read(2 * MOST_PLANT + MOST_FRONT)
    except OSError:
        return None
    front, separator, _ = data.partition(b"\n=---\n")
    lines = front.split(b"\n")
    if not separator or len(lines) < 2 or not lines[0].startswith(b"=line ") or not lines[1].startswith(b"=melfjits-snapshot "):
        return None
    return b"".join(line[1:] + b"\n" for line in lines[2:])


class PlantInForce:
    """The plant file of a channel that runs: that of its journal if it has a folder, otherwise the file that it begins with."""

    def __init__(self, path, folder):
        self.path, self.journal = path, pathlib.Path(folder, "journal") if folder else None
        self.data, self.rights = b"", Rights()

    def read(self):
        """Reads the plant file again, and returns whether the rights are others. They stay as they are if it cannot be read, which is said once."""
        data = self.journal and plant_of_journal(self.journal) or plant_of_file(self.path)
        if data == self.data:
            return False
        before, self.data = self.rights, data
        self.rights = rights_of(data)
        return before != self.rights

    def has_journal(self):
        """Returns whether the journal says which plant file is in force."""
        return self.journal is not None and self.journal.exists()
