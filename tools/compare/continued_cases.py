"""Restarts the plant of short generated scripts at random lines, changes it for others and gives its frames other numbers.

    tools/run compare/continued_cases FIRST COUNT                    the seeds FIRST to FIRST + COUNT - 1, by the second implementation alone
    tools/run compare/continued_cases FIRST COUNT --program PATH     the same by a built program, compared with the second implementation
    tools/run compare/continued_cases FIRST COUNT .. --workers N     the same in N processes, in place of 1

Each seed is a plant of 1 to 4 operators and a script of about 10 to 60 lines, which follows the state of the plant. At random places of the
script, each at least once:

  - A process ends after a line `K`, and the next one begins with the snapshot.
  - A line `P` changes the rows of all operators but one, adds operators or classes, or is refused.
  - A line `N` gives the next frame another number, or is refused.

Then:

  - With a program, each process prints what the second implementation prints, snapshots included.
  - The operator whose row stays has the same replies, drop reasons, frames and state as in a plant that is left alone, which is one process
    without lines `P` and `N`. Only the frames have other numbers. From the first change on, that plant has no line of other operators.

With a program, the plant left alone is run by the program, and every tenth one by both.

Prints how many of what there were, and inputs that are answered differently. Exits with 1 if there are any. The figures so far are on
standard error.
"""

import argparse
import random
import sys
from collections import Counter
from dataclasses import dataclass, field, replace
from functools import partial

from service.reference.answers import reference_answer
from service.reference.plant import read_plant
from service.reference.program import Core
from service.reference.resuming import Service, snapshot_begun
from tools import show_help
from tools.compare import trials
from tools.compare.observing import own_lines, settled_state, state_of
from tools.compare.program import Started
from tools.compare.script_changes import (CHANGED, GIVEN, addition, addition_of_class, class_to_name, counted, file_for_change, file_with_classes,
                                          has_room_for_numbers, lines_of_change, number_line, ticks_to_rest, with_other_start, with_room)
from tools.generator.changes import File
from tools.generator.flows import pick
from tools.generator.plants import plant, written
from tools.generator.scripts import Known, ScriptMaker

MOST_OPERATORS, MOST_CLASSES, AT_A_TIME, REPORT_EACH, BOTH_EACH = 4, 5, 50, 1_000, 10


@dataclass
class Part:
    """What one process is given: a plant file or a snapshot, and lines. And what the second implementation prints for it."""
    begin: bytes
    lines: list = field(default_factory=list)
    output: list = field(default_factory=list)

    def input(self):
        return input_of(self.begin, self.lines)

    def expected(self):
        return 0, "".join(self.output).encode()


@dataclass
class Continued:
    """A case: the processes one after the other, and the plant that is left alone.

    `watched` is the row that stays, `own` has the lines that its operator observes, under the first frame numbers, and `last` has those of
    the last snapshot.
    """
    text: str
    watched: object
    frame_us: int
    parts: list
    own: list = field(default_factory=list)
    last: list = field(default_factory=list)
    alone_text: str = ""
    alone: list = field(default_factory=list)
    counts: Counter = field(default_factory=Counter)

    def input_alone(self):
        return input_of(self.alone_text.encode(), self.alone)


def input_of(begin, lines):
    return begin + b"---\n" + b"\n".join(lines) + b"\n"


# Making a case

def continued_case(seed):
    """Returns the case of a seed."""
    rng = random.Random(f"continued {seed}")
    made = small_plant(rng)
    maker = Maker(rng, made, with_room(rng, written(rng, made)))
    count = pick(rng, (4, 2), (8, 4), (14, 3), (24, 1))
    steps = [maker.some_lines] * count + [maker.tick] * (count // 2) + maker.events()
    rng.shuffle(steps)
    for step in steps:
        step()
    maker.end()
    return maker.made


def small_plant(rng):
    """Returns a plant of few operators, seldom of one, with few classes, and with fewer elements than fill a MAP."""
    while True:
        made = plant(rng)
        is_small = len(made.operators) <= MOST_OPERATORS and len(made.classes) <= MOST_CLASSES and made.operators[0].name not in ("Full", "Slow")
        if is_small and (len(made.operators) > 1 or rng.random() < 0.4):
            return made


class Maker:
    """Makes a case, and lets the second implementation do it, except the plant left alone."""

    def __init__(self, rng, made, text):
        self.rng = rng
        self.service = Service(Core(read_plant(text)), text)
        rows = self.service.core.plant.rows
        self.watched = rng.choice(rows)
        self.made = Continued(text, self.watched, self.service.core.plant.frame_us, [Part(text.encode())], alone_text=text)
        self.original, self.first_classes = File(text, self.watched.name, ()), self.service.core.plant.classes
        self.shift, self.is_changed, self.named = 0, False, 0
        self.script = ScriptMaker(rng, made, self.service.core)
        self.follow()
        self.weights = self.script.weights()

    def follow(self):
        """Lets the maker of lines see the operators of a plant that has begun or was changed."""
        core, known = self.service.core, {one.operator.name: one for one in self.script.known}
        self.script.core = core
        self.script.known = [replace(known.get(row.name, Known(row, book)), operator=row, book=book) for row, book in zip(core.plant.rows, core.books)]

    def events(self):
        """Returns restarts, changes and other frame numbers. A plant near the last frame gets no other number."""
        numbers = pick(self.rng, (1, 5), (2, 3), (3, 1)) if has_room_for_numbers(self.service.core.plant) else 0
        return ([self.restart] * pick(self.rng, (1, 5), (2, 3), (3, 1)) + [self.change_plant] * pick(self.rng, (1, 4), (2, 4), (3, 1))
                + [self.renumber] * numbers)

    def do(self, lines):
        """Lets the second implementation do lines, which are the next of the process, and returns what it prints."""
        part = self.made.parts[-1]
        answers = list(self.service.answers(lines, len(part.lines) + 1))
        part.lines += lines
        part.output += answers
        return answers

    def add(self, line):
        """Adds a line. Near the last frame, a tick of all operators is one of each, since a refused one would end the line for the others."""
        split = line == "T" and not has_room_for_numbers(self.service.core.plant)
        for one in [f"T {row.name}" for row in self.service.core.plant.rows] if split else [line]:
            self.add_one(one)

    def add_one(self, line):
        """Adds a line to the script, and what has to be in its place to the plant left alone."""
        alone = self.line_alone(line)
        if alone is None:
            return
        self.made.alone += alone
        self.made.counts["lines of scripts"] += 1
        (answer,) = self.do([line.encode()])
        self.made.own += own_lines(answer.splitlines(), self.watched, self.shift)

    def line_alone(self, line):
        """Returns the lines in the place of a line, or None if the line has to be left out: a slice change of operators that are not alone."""
        if line.startswith("Z"):
            moved = None if self.is_changed else with_other_start(line, -self.shift)
            return None if moved is None else [moved.encode()]
        if not self.is_changed:
            return [line.encode()]
        if line in ("T", f"T {self.watched.name}"):
            return [b"T"]
        return [line.encode()] if line[:1] in ("M", "Q") and line.split(" ")[1].upper() in self.watched.modems else []

    # Steps

    def some_lines(self):
        for line in pick(self.rng, *self.weights)():
            self.add(line)

    def tick(self):
        self.add("T")

    def let_rest(self):
        for line in ticks_to_rest(self.service.core):
            self.add(line)

    def restart(self):
        """Ends a process, and begins another one with its snapshot."""
        self.let_rest()
        (snapshot,) = self.do([b"K"])
        if snapshot.startswith("fault"):
            self.made.counts["restarts of a plant that did not rest"] += 1
            return
        self.made.counts["restarts"] += 1
        self.made.parts.append(Part(snapshot.encode()))
        core, text, _ = snapshot_begun(self.made.parts[-1].input())
        self.service = Service(core, text)
        self.follow()

    def change_plant(self):
        """Changes the plant for others, mostly where it rests, and lets modems name new classes and new modems add flows."""
        if self.rng.random() < 0.85:
            self.let_rest()
        self.give_file(lines_of_change(file_for_change(self.rng, self.service, self.watched, self.original)))
        for _ in range(self.rng.choice((0, 0, 1, 2))):
            row = self.rng.choice(self.service.core.plant.rows)
            self.add_all(addition(self.rng, row, "010200010601060F0102"))
        for _ in range(self.rng.choice((0, 1, 2))):
            self.message_of_a_class()

    def give_file(self, lines):
        result = counted("change of plant: ", lambda: self.do(lines))
        self.made.counts[result] += 1
        if result.startswith(CHANGED):
            self.is_changed = True
            self.follow()

    def message_of_a_class(self):
        row = self.rng.choice(self.service.core.plant.rows)
        name = class_to_name(self.rng, self.service.core, row, self.watched)
        if name is not None:
            self.named += name.encode() not in self.first_classes and row.name == self.watched.name
            self.add_all(addition_of_class(self.rng, row, name))

    def add_all(self, lines):
        for line in lines:
            self.add(line.decode())

    def renumber(self):
        """Gives the next frame another number, mostly where the plant rests."""
        if self.rng.random() < 0.9:
            self.let_rest()
        frame = self.service.core.books[0].frame
        result = counted("frame number: ", lambda: self.do([number_line(self.rng, self.service.core)]))
        self.made.counts[result] += 1
        if result == GIVEN:
            self.shift += self.service.core.books[0].frame - frame
            self.follow()

    def end(self):
        """Ends the case with a snapshot of both plants, and at times with a plant file that has no end."""
        self.let_rest()
        self.made.last = self.do([b"K"])[0].splitlines()
        self.made.alone.append(b"K")
        if self.named:
            self.made.alone_text = file_with_classes(self.rng, self.made.text, self.service.plant_text)
            self.made.counts["messages of watched operators that name an added class"] += self.named
        if self.rng.random() < 0.05:
            lines = self.service.plant_text.encode().split(b"\n")
            self.give_file([b"P", *lines[:self.rng.randrange(len(lines))]])


# Comparing

class Different(Exception):
    """Reports what differs: what was compared, an input, what was answered, and what was expected."""


def require_same(what, data, answer, expected):
    if answer != expected:
        raise Different(what, data, answer, expected)


def judge(seed, made, program):
    """Compares each process with the second implementation, and what the watched operator observes with the plant left alone."""
    for place, part in enumerate(made.parts, 1):
        data = part.input()
        require_same(f"process {place}", data, answer_of(program, data), part.expected())
        made.counts["processes"] += 1
    judge_alone(made, alone_output(seed, made, program))


def answer_of(program, data):
    return reference_answer(["resume"], data) if program is None else program.answer(["resume"], data)


def alone_output(seed, made, program):
    """Returns what the plant left alone prints. The program and, for each tenth seed, the second implementation have to agree on it."""
    answer = answer_of(program, made.input_alone())
    if program is not None and seed % BOTH_EACH == 0:
        require_same("the plant left alone", made.input_alone(), answer, reference_answer(["resume"], made.input_alone()))
        made.counts["plants left alone that both ran"] += 1
    return answer[1].decode().splitlines()


def judge_alone(made, alone):
    """Compares the lines of the watched operator, and its state where both plants rest at the end."""
    own = own_lines(alone, made.watched)
    require_same("lines of the watched operator", made.input_alone(), made.own, own)
    made.counts += Counter(f"lines {line[0]} of watched operators" for line in own)
    state, state_alone = (state_of_watched(made, lines) for lines in (made.last, alone))
    if None not in (state, state_alone):
        require_same("state of the watched operator", made.input_alone(), state, state_alone)
        made.counts["states of watched operators"] += 1
        made.counts["flows of watched operators at the end"] += sum(line.startswith("flow ") for line in state)


def state_of_watched(made, lines):
    """Returns the state of the watched operator in a last snapshot, or None. Lines `N` leave of its frames how far they are from the next one."""
    return settled_state(lines, made.watched.name, made.frame_us) if made.counts[GIVEN] else state_of(lines, made.watched.name)


def continue_some(program, seeds):
    """Returns what is counted of the cases of some seeds, and a text for each that differs."""
    started, counts, found = None if program is None else Started(program), Counter(), []
    for seed in seeds:
        made = continued_case(seed)
        try:
            judge(seed, made, started)
        except Different as difference:
            found.append(shown(seed, *difference.args))
        counts += made.counts
    if started is not None:
        started.close()
    return counts, found


def shown(seed, what, data, answer, expected):
    return f"seed {seed}: {what} differs, with the input:\n{data.decode(errors='backslashreplace')}\nanswered: {text_of(answer)}\nexpected: {text_of(expected)}"


def text_of(answer):
    """Returns an answer, or lines, as a text."""
    if isinstance(answer, tuple):
        return f"status {answer[0]}\n{answer[1].decode(errors='backslashreplace')}"
    return "\n" + "\n".join(answer)


def main():
    show_help(__doc__)
    ask = argparse.ArgumentParser("continued_cases", add_help=False)
    ask.add_argument("first", type=int)
    ask.add_argument("count", type=int)
    ask.add_argument("--program")
    ask.add_argument("--workers", type=int, default=1)
    asked = ask.parse_args()
    tasks = trials.tasks_of(asked.first, asked.count, AT_A_TIME)
    sys.exit(trials.run(partial(continue_some, asked.program), tasks, asked.workers, REPORT_EACH))


if __name__ == "__main__":
    main()
