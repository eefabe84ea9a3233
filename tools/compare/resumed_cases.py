"""Cuts generated scripts at a random line, and compares what a plant outputs with what it outputs if it is resumed there.

    tools/run compare/resumed_cases FIRST COUNT                    the seeds FIRST to FIRST + COUNT - 1, by the second implementation alone
    tools/run compare/resumed_cases FIRST COUNT --program PATH     the same by a built program, compared with the second implementation
    tools/run compare/resumed_cases FIRST COUNT .. --spoiled N     with N spoiled snapshots of each script, in place of 20

For each seed that has a valid plant file and a script:

  - The output up to the cut, with a snapshot there, and the output of what is resumed from that snapshot, are together the output of the
    whole under `resume`. Both end with a snapshot, so the states are equal too. Without the snapshots it is the output under `serve`,
    where what is resumed is run by `run`. The snapshot at the cut is that which `snapshot` writes.
  - With a program, the outputs of both implementations are the same, snapshots included.
  - Snapshots are spoiled: bits and bytes are changed, numbers are other ones, fields are copied from other records, lines are cut,
    swapped and repeated. Half of them get a right last line again. With a program, both give the same status and first line of output.
    Without one, the second implementation only has to answer.

Prints how many cases there were, and the first lines that spoiled snapshots gave. Exits with 1 at the first seed that differs.
"""

import argparse
import random
import sys
from collections import Counter
from dataclasses import dataclass

from service.reference.answers import reference_answer
from service.reference.plant import PlantFault, read_plant
from service.reference.program import split_input
from tools import show_help
from tools.compare.answers import Answers, Differs, show
from tools.generator.case import case
from tools.generator.spoiling import spoiled

SPOILED, CUTS = 20, 8


@dataclass
class Cut:
    """A plant file, and the lines of a script before and after the line at which it is cut."""
    plant: str
    before: list
    after: list

    def input(self, *lines):
        return (self.plant + "---\n" + "".join(f"{line}\n" for line in lines)).encode()


def first_line(answer):
    return answer[0], answer[1].split(b"\n")[0]


# A script that is cut

def cut_of(seed):
    """Returns the script of a seed, cut at a line before which its plant rests, or None if it has none."""
    words, data = case(seed)
    try:
        plant, script = split_input(data.decode())
        read_plant(plant)
    except (UnicodeDecodeError, PlantFault):
        return None
    if words == ["one"]:
        return None
    rng = random.Random(f"cut {seed}")
    for _ in range(CUTS):
        place = rng.randrange(len(script) + 1)
        cut = Cut(plant, script[:place], script[place:])
        if rests(cut):
            return cut
    return None


def rests(cut):
    return not reference_answer(["resume"], cut.input(*cut.before, "K"))[1].endswith(b"fault: line %d\n" % (len(cut.before) + 1))


def judge_cut(answers, cut):
    """Compares the two parts of a script with the whole, and returns the snapshot between them."""
    whole = answers.of(["resume"], cut.input(*cut.before, "K", *cut.after, "K"))
    before = answers.of(["resume"], cut.input(*cut.before))
    first = answers.of(["resume"], cut.input(*cut.before, "K"))
    snapshot = first[1].removeprefix(before[1])
    saved = answers.of(["snapshot"], cut.input(*cut.before))
    if saved != (0, snapshot):
        raise Differs(cut.input(*cut.before), saved, (0, snapshot))
    # Empty lines before the rest of the script, so that its lines have the numbers that they have in the whole.
    rest = snapshot + b"---\n" + b"\n" * (len(cut.before) + 1) + "".join(f"{line}\n" for line in [*cut.after, "K"]).encode()
    second = answers.of(["resume"], rest)
    if (0, first[1] + second[1]) != whole or second[0] != 0:
        raise Differs(rest, second, (whole[0], whole[1].removeprefix(first[1])))
    served = answers.of(["serve"], cut.input(*cut.before, "", *cut.after, ""))
    # (the last snapshot is left out: nothing follows it)
    resumed = answers.of(["run"], snapshot + rest.removeprefix(snapshot)[:-2])
    if served != (0, before[1] + resumed[1]):
        raise Differs(rest, resumed, served)
    return snapshot


# Spoiled snapshots

def judge_spoiled(answers, seed, cut, snapshot, times=SPOILED):
    """Counts by their first lines what so many spoiled snapshots are answered."""
    rng, counts = random.Random(f"spoiled {seed}"), Counter()
    for _ in range(times):
        lines = ["T", *cut.after[:20], "K"]
        data = spoiled(rng, snapshot) + b"---\n" + "".join(f"{line}\n" for line in lines).encode()
        counts[kind_of(answers.of(["resume"], data, first_line))] += 1
    return counts


def kind_of(answer):
    """Returns what a spoiled snapshot gave: its fault without numbers and names, or that it was resumed."""
    status, line = first_line(answer)
    return f"status {status}: " + (" ".join(line.decode().split(" ")[:2]) if status else "resumed")


# Counting

def compare(answers, first, count, times):
    counts, kinds = Counter(), Counter()
    for seed in range(first, first + count):
        cut = cut_of(seed)
        if cut is None:
            counts["seeds without a plant that rests at a cut"] += 1
            continue
        try:
            kinds += judge_spoiled(answers, seed, cut, judge_cut(answers, cut), times)
        except Differs as found:
            show(seed, *found.args)
            return 1
        counts["scripts that were cut, resumed and compared with the whole"] += 1
    for what, times in [*sorted(counts.items()), *sorted(kinds.items())]:
        print(f"{times:9} {what}")
    return 0


def main():
    show_help(__doc__)
    ask = argparse.ArgumentParser("resumed_cases", add_help=False)
    ask.add_argument("first", type=int)
    ask.add_argument("count", type=int)
    ask.add_argument("--program")
    ask.add_argument("--spoiled", type=int, default=SPOILED)
    asked = ask.parse_args()
    sys.exit(compare(Answers(asked.program), asked.first, asked.count, asked.spoiled))


if __name__ == "__main__":
    main()
