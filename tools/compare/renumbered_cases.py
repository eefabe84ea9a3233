"""Gives frames other numbers at random lines of generated scripts. Compares the output with that of the scripts without them.

    tools/run compare/renumbered_cases FIRST COUNT                    the seeds FIRST to FIRST + COUNT - 1, by the second implementation alone
    tools/run compare/renumbered_cases FIRST COUNT --program PATH     the same by a built program, compared with the second implementation

For each seed that has a valid plant file and a script, lines `N` come at random places. Most have a number that keeps the Alloc Start Time.
Lines `Z` after them count by the new numbers. Then:

  - The output is that of the script with empty lines in the place of the lines `N`, and with the first numbers in lines `Z`, except for the
    frame numbers, each of which is as far from its first number as the lines `N` say. So it is with the snapshot at the end.
  - A line `N` that is refused gives its own line and changes no other.
  - With a program, the outputs of both implementations are the same.

Prints how many scripts and lines `N` there were, and why the second implementation refused some. Exits with 1 at the first seed that
differs.
"""

import random
import sys
from collections import Counter
from dataclasses import dataclass, field

from service.reference.plant import PlantFault, read_plant
from service.reference.program import Core, split_input
from service.reference.resuming import Service
from tools import show_help
from tools.compare.answers import Answers, Differs, show
from tools.compare.observing import moved_back
from tools.compare.script_changes import GIVEN, counted, has_room_for_numbers, number_line, ticks_to_rest, with_other_start
from tools.generator.case import case
from tools.generator.flows import pick

MOST_LINES = 150


@dataclass
class Renumbered:
    """Two scripts of a plant file: one with lines `N`, one with empty lines in their place. `given` has the new number of each frame by its
    first one, in the order of the lines that are taken, and `refused` the numbers of the other lines."""
    plant: str
    lines: list = field(default_factory=list)
    alone: list = field(default_factory=list)
    given: list = field(default_factory=list)
    refused: list = field(default_factory=list)
    results: Counter = field(default_factory=Counter)

    def input(self, lines):
        return self.plant.encode() + b"---\n" + b"\n".join(lines) + b"\n"


# Making a script

def renumbered_script(seed):
    """Returns the script of a seed with lines `N`, or None if it has no valid plant, or one whose frames come near the last number."""
    words, data = case(seed)
    try:
        plant, script = split_input(data.decode())
        has_room = has_room_for_numbers(read_plant(plant))
    except (UnicodeDecodeError, PlantFault):
        return None
    if words == ["one"] or not has_room:
        return None
    rng = random.Random(f"renumbered {seed}")
    maker = Maker(rng, plant)
    places = {rng.randrange(len(script[:MOST_LINES]) + 1) for _ in range(pick(rng, (1, 3), (3, 4), (6, 3)))}
    for place, line in enumerate(script[:MOST_LINES] + [""]):
        if place in places:
            maker.renumber()
        maker.add(line)
    maker.let_rest()
    maker.add("K")
    return maker.made


class Maker:
    """Makes both scripts, and lets the second implementation do the one with lines `N`."""

    def __init__(self, rng, plant):
        self.rng, self.shift = rng, 0
        self.service = Service(Core(read_plant(plant)), plant)
        self.made = Renumbered(plant)

    def add(self, line):
        """Adds a line to both scripts. A slice change whose frame has no number under the new ones is left out."""
        moved = with_other_start(line, self.shift)
        self.add_both(line if moved is not None else "", moved or "")

    def add_both(self, line, moved):
        self.made.alone.append(line.encode())
        self.made.lines.append(moved.encode())
        list(self.service.answers([moved.encode()]))

    def let_rest(self):
        """Lets each operator tick that is behind the others."""
        for line in ticks_to_rest(self.service.core):
            self.add(line)

    def renumber(self):
        """Adds a line `N`, mostly where the plant rests, and an empty line to the other script."""
        if self.rng.random() < 0.9:
            self.let_rest()
        frame = self.service.core.books[0].frame
        line = number_line(self.rng, self.service.core)
        result = counted("frame number: ", lambda: list(self.service.answers([line])))
        self.made.lines.append(line)
        self.made.alone.append(b"")
        self.made.results[result] += 1
        if result != GIVEN:
            self.made.refused.append(len(self.made.lines))
            return
        to = self.service.core.books[0].frame
        self.made.given.append((frame - self.shift, to))
        self.shift += to - frame


# Comparing

def with_first_numbers(output, made):
    """Returns the lines of an output under the first numbers. Those that only lines `N` have are left out, and what a state has of frames."""
    faults, given, shift = {f"fault: line {number}" for number in made.refused}, list(made.given), 0
    lines = []
    for line in output.decode().splitlines():
        if given and line == f"N frame {given[0][1]}":
            first, to = given.pop(0)
            shift = to - first
        elif line not in faults:
            lines.append(moved_back(line, shift))
    return lines if not given else None


def judge(answers, made):
    """Compares the output with lines `N` and that without them."""
    data = made.input(made.lines)
    renumbered, alone = answers.of(["resume"], data), answers.of(["resume"], made.input(made.alone))
    expected = with_first_numbers(alone[1], Renumbered(made.plant))
    if (renumbered[0], with_first_numbers(renumbered[1], made)) != (alone[0], expected):
        raise Differs(data, renumbered, alone)


def compare(answers, first, count):
    counts = Counter()
    for seed in range(first, first + count):
        made = renumbered_script(seed)
        if made is None:
            counts["seeds without a valid plant, or near the last frame"] += 1
            continue
        try:
            judge(answers, made)
        except Differs as found:
            show(seed, *found.args)
            return 1
        counts["scripts with other frame numbers"] += 1
        counts.update(made.results)
    for what, times in sorted(counts.items()):
        print(f"{times:9} {what}")
    return 0


def main():
    show_help(__doc__)
    words, program = sys.argv[1:], None
    if words[2:3] == ["--program"] and len(words) == 4:
        words, program = words[:2], words[3]
    if len(words) != 2 or not all(word.isdigit() for word in words):
        sys.exit(__doc__)
    sys.exit(compare(Answers(program), int(words[0]), int(words[1])))


if __name__ == "__main__":
    main()
