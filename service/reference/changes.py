"""Changes the plant of a core that rests (docs/FORMATS.md, A change of the plant)."""

from dataclasses import replace

from .coverage import MetFault, met
from .program import Core, Fault, judged_plant, text_of
from .saving import snapshot_of
from .snapshots import read_snapshot
from .states import StateFault, books_of


class NotChanged(MetFault):
    """Reports why a plant stays as it is."""

    def __init__(self, reason):
        super().__init__(f"change of plant: {reason}", reason=reason)


def changed_core(core, file):
    """Returns the core of another plant file, in which each operator that stays goes on in its state, and the text of the file."""
    plant, text = plant_of(file)
    judge_shared(core.plant, plant)
    books = books_under(plant, core, text)
    met(f"change of plant: changed{change_of_classes(core.plant, plant)}")
    return Core(plant, books), text


def plant_of(file):
    """Returns the plant of the bytes of a plant file, and its text."""
    try:
        text = text_of(file)
        return judged_plant(text)[0], text
    except Fault as fault:
        raise NotChanged(f"the plant file has status {fault.status}") from fault


def judge_shared(old, new):
    """Tests what operators share: the table `plant` stays, and so does each class of the old plant. The new one may have more, in any order."""
    if replace(new, rows=[], classes={}) != replace(old, rows=[], classes={}):
        raise NotChanged("the table plant differs")
    if any(name not in new.classes for name in old.classes):
        raise NotChanged("a class is missing")
    if any(new.classes[name] != encoding for name, encoding in old.classes.items()):
        raise NotChanged("the encoding of a class differs")


def change_of_classes(old, new):
    """Returns what is counted of the classes of a plant that is changed."""
    if len(new.classes) > len(old.classes):
        return ", with more classes"
    return "" if list(new.classes) == list(old.classes) else ", with the classes in another order"


def books_under(plant, core, text):
    """Returns the books of a plant in the states of a core. They are read from its snapshot, so nothing is part of both cores."""
    snapshot = snapshot_of(core, text)
    if snapshot is None:
        raise NotChanged("the core does not rest")
    saved = read_snapshot(snapshot.encode())
    names = {row.name for row in plant.rows}
    saved.states = [state for state in saved.states if state.name in names]
    try:
        return books_of(plant, saved)
    except StateFault as fault:
        raise NotChanged(fault.rule) from fault
