"""Changes the plant of generated scripts at random lines, and compares what an operator observes whose row stays as it is.

    tools/run compare/changed_cases FIRST COUNT                    the seeds FIRST to FIRST + COUNT - 1, by the second implementation alone
    tools/run compare/changed_cases FIRST COUNT --program PATH     the same by a built program, compared with the second implementation

For each seed that has a valid plant file and a script, one operator is watched. Plant files after lines `P` change the rows of others at
random: their modems, limits, ranges and policies, which operators there are, and their order. They add classes, and give them another
order. Others are invalid, or change what may not change. Modems send messages that name added classes. Then:

  - The watched operator has the same replies, drop reasons, frames and state at the end as in a plant that is left alone. Its own lines
    are the same there: what its modems send, its ticks, and slice changes before the first line `P`. The watched operator names an added
    class only once it is in service. If it names one, the plant left alone has all added classes from the start.
  - A refused change leaves everything as it was: with empty lines in its place, all other output is the same.
  - With a program, the outputs of both implementations are the same.

Prints how many scripts and changes there were, and why the second implementation refused changes. Exits with 1 at the first seed that
differs.
"""

import random
import sys
from collections import Counter
from dataclasses import dataclass, field

from service.reference.plant import PlantFault, read_plant
from service.reference.program import Core, split_input
from service.reference.resuming import Service
from tools import show_help
from tools.compare.answers import Answers, Differs, show
from tools.compare.observing import observed
from tools.compare.script_changes import (CHANGED, addition, addition_of_class, class_to_name, counted, file_for_change, file_with_classes,
                                          lines_of_change, ticks_to_rest, with_room)
from tools.generator.case import case
from tools.generator.changes import File
from tools.generator.flows import pick

MOST_LINES = 150


@dataclass
class Change:
    """The number of a line `P`, how many lines it has with its plant file, and what the second implementation counts of it."""
    number: int
    length: int
    result: str

    def is_refused(self):
        return not self.result.startswith(CHANGED)


@dataclass
class Changed:
    """Two scripts: one of a plant file with changes of the plant, and one without.

    `watched` is the row that stays, and `named` says how often its modems name an added class. If they do, the plant file without changes
    has all added classes.
    """
    plant: str
    watched: object
    lines: list = field(default_factory=list)
    alone_plant: str = ""
    alone: list = field(default_factory=list)
    changes: list = field(default_factory=list)
    named: int = 0

    def input(self, lines):
        return input_of(self.plant, lines)

    def input_alone(self):
        return input_of(self.alone_plant, self.alone)

    def without_refused(self):
        """Returns the lines with empty ones in the place of refused changes."""
        lines = list(self.lines)
        for change in self.refused():
            lines[change.number - 1:change.number - 1 + change.length] = [b""] * change.length
        return lines

    def refused(self):
        return [change for change in self.changes if change.is_refused()]


def input_of(plant, lines):
    return plant.encode() + b"---\n" + b"\n".join(lines) + b"\n"


# Making a script

def changed_script(seed):
    """Returns the script of a seed with changes of its plant, or None if it has no valid plant."""
    words, data = case(seed)
    try:
        plant, script = split_input(data.decode())
        read_plant(plant)
    except (UnicodeDecodeError, PlantFault):
        return None
    if words == ["one"]:
        return None
    rng = random.Random(f"changed {seed}")
    maker = Maker(rng, with_room(rng, plant))
    places = {rng.randrange(len(script[:MOST_LINES]) + 1) for _ in range(pick(rng, (1, 3), (3, 4), (6, 3)))}
    for place, line in enumerate(script[:MOST_LINES] + [""]):
        if place in places:
            maker.change_plant()
        maker.add(line)
    maker.add("K")
    if rng.random() < 0.1:
        maker.half_change()
    if maker.made.named:
        # The file of the start with the classes that are in service now. None of the start has left.
        maker.made.alone_plant = file_with_classes(rng, maker.made.plant, maker.service.plant_text)
    return maker.made


class Maker:
    """Makes both scripts, and lets the second implementation do the one with changes."""

    def __init__(self, rng, plant):
        self.rng = rng
        self.service = Service(Core(read_plant(plant)), plant)
        self.made = Changed(plant, rng.choice(self.service.core.plant.rows), alone_plant=plant)
        self.first_classes = self.service.core.plant.classes
        self.rows = self.service.core.plant.rows
        self.original = File(plant, self.made.watched.name, ())

    def add(self, line):
        """Adds a line to both scripts. A tick of all operators is one of each that there is, and no slices change after a first change."""
        if line.startswith("Z") and self.made.changes:
            return
        for place, lines in ((self.made.lines, self.ticks(line, self.service.core.plant.rows)), (self.made.alone, self.ticks(line, self.rows))):
            place += [one.encode() for one in lines]
        self.do([one.encode() for one in self.ticks(line, self.service.core.plant.rows)])

    def ticks(self, line, rows):
        return [f"T {row.name}" for row in rows] if line == "T" else [line]

    def do(self, lines):
        return "".join(self.service.answers(lines))

    def change_plant(self):
        """Adds a change to the one script, mostly where the plant rests, and what new modems send after it."""
        if self.rng.random() < 0.85:
            self.let_rest()
        self.add_change(lines_of_change(file_for_change(self.rng, self.service, self.made.watched, self.original)))
        for _ in range(self.rng.choice((0, 0, 2, 4))):
            self.new_message()
        for _ in range(self.rng.choice((0, 1, 3))):
            self.message_of_a_class()

    def half_change(self):
        """Adds a change whose plant file has no end."""
        lines = self.service.plant_text.encode().split(b"\n")
        self.add_change([b"P", *lines[:self.rng.randrange(len(lines))]])

    def add_change(self, lines):
        result = counted("change of plant: ", lambda: self.do(lines))
        self.made.changes.append(Change(len(self.made.lines) + 1, len(lines), result))
        self.made.lines += lines

    def let_rest(self):
        """Lets each operator tick that is behind the others."""
        for line in ticks_to_rest(self.service.core):
            self.add(line)

    def new_message(self):
        """Lets a modem of another operator add a flow, in the script with changes alone."""
        rows = [row for row in self.service.core.plant.rows if row.name != self.made.watched.name]
        if rows:
            row = self.rng.choice(rows)
            self.add_of_row(row, addition(self.rng, row, "010200010601060F0102"))

    def message_of_a_class(self):
        """Lets a modem add a flow of a class."""
        row = self.rng.choice(self.service.core.plant.rows)
        name = class_to_name(self.rng, self.service.core, row, self.made.watched)
        if name is not None:
            self.made.named += name.encode() not in self.first_classes and row.name == self.made.watched.name
            self.add_of_row(row, addition_of_class(self.rng, row, name))

    def add_of_row(self, row, lines):
        """Adds what a modem of a row sends. The lines of the watched operator are in both scripts."""
        self.made.lines += lines
        if row.name == self.made.watched.name:
            self.made.alone += lines
        self.do(lines)


# Comparing

def judge_watched(answers, made):
    """Compares what the watched operator observes with changes and without them."""
    data = made.input(made.lines)
    changed, alone = answers.of(["resume"], data), answers.of(["resume"], made.input_alone())
    (own, state), (own_alone, state_alone) = observed(changed[1], made.watched), observed(alone[1], made.watched)
    if (changed[0], own) != (0, own_alone) or None not in (state, state_alone) and state != state_alone:
        raise Differs(data, changed, alone)
    return changed


def judge_refused(answers, made, changed):
    """Compares the output with that of empty lines in the place of refused changes, each of which has one line of the output."""
    data = made.input(made.without_refused())
    without = answers.of(["resume"], data)
    faults = {b"fault: line %d" % change.number for change in made.refused()}
    lines = [line for line in changed[1].split(b"\n") if line not in faults]
    if len(changed[1].split(b"\n")) - len(lines) != len(faults) or lines != without[1].split(b"\n"):
        raise Differs(data, without, changed)


def compare(answers, first, count):
    counts = Counter()
    for seed in range(first, first + count):
        made = changed_script(seed)
        if made is None:
            counts["seeds without a valid plant"] += 1
            continue
        try:
            judge_refused(answers, made, judge_watched(answers, made))
        except Differs as found:
            show(seed, *found.args)
            return 1
        counts["scripts with changes of plant"] += 1
        counts["messages of watched operators that name an added class"] += made.named
        counts.update(change.result for change in made.changes)
    for what, times in sorted(counts.items()):
        print(f"{times:9} {what}")
    return 0


def main():
    show_help(__doc__)
    words, program = sys.argv[1:], None
    if words[2:3] == ["--program"] and len(words) == 4:
        words, program = words[:2], words[3]
    if len(words) != 2 or not all(word.isdigit() for word in words):
        sys.exit(__doc__)
    sys.exit(compare(Answers(program), int(words[0]), int(words[1])))


if __name__ == "__main__":
    main()
