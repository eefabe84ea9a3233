"""Writes the generated case of a seed: the arguments and the input of the program.

    tools/run compare/generate_case SEED              prints the input
    tools/run compare/generate_case --words SEED      prints the arguments, separated by blanks
    tools/run compare/generate_case --met FIRST COUNT runs the second implementation on so many cases, and prints how often it reached what,
                                                  the rarest first

The same seed gives the same case. tools/run compare/generated_cases uses `case`.
"""

import random
import sys

from service.reference import coverage
from service.reference.plant import read_plant
from service.reference.program import Core, answer
from tools import show_help
from tools.generator.faults import spoil_plant
from tools.generator.flows import pick
from tools.generator.plants import PLANT_OF_ONE, plant, written
from tools.generator.scripts import ScriptMaker, faulty_line, faulty_line_of_one


def case(seed):
    """Returns the arguments and the input of a seed."""
    rng = random.Random(seed)
    word = pick(rng, ("run", 74), ("history", 9), ("one", 7), ("check", 14))
    if word == "one":
        return ["one"], input_of_one(rng)
    made = plant(rng)
    text = plant_text(rng, made, 0.1 if word != "check" else 0.8)
    words = [word] + ([history_of(rng, made)] if word == "history" else [])
    return words, damaged(rng, text + script_text(rng, made))


def input_of_one(rng):
    lines = ScriptMaker(rng, PLANT_OF_ONE, core_of(PLANT_OF_ONE)).messages(pick(rng, (3, 2), (10, 4), (30, 2), (80, 0.5)))
    return finished(rng, lines, 0.06, lambda: faulty_line_of_one(rng))


def core_of(made):
    return Core(read_plant(written(random.Random(0), made)))


def history_of(rng, made):
    if rng.random() < 0.04:
        return rng.choice(("nobody", "", "a", "A ", "0"))
    return rng.choice(made.operators).name


def plant_text(rng, made, faulty):
    text = written(rng, made, spoil_plant if rng.random() < faulty else None)
    if rng.random() < 0.003:
        text = text.replace("\n", "\r\n")
    if rng.random() < 0.003:
        text += 'text = """\n---\n"""\n'
    return text


def script_text(rng, made):
    if rng.random() < 0.01:
        return rng.choice(("", "---", "---\n", "--- \n", "----\n", "---\r\nT\n", "---\n---\n", "---\n\n\n"))
    count = pick(rng, (5, 1), (20, 4), (50, 5), (120, 2), (300, 0.2))
    if len(made.operators) > 8:
        count = min(count, 50)
    maker = ScriptMaker(rng, made, core_of(made))
    lines = maker.long_waits() if made.operators[0].name == "Slow" else maker.lines(count)
    return "---\n" + finished(rng, lines, 0.04, lambda: faulty_line(rng, made)).decode()


def finished(rng, lines, faulty, a_faulty_line):
    """Returns the lines as text, with empty lines, at times a faulty one, and at times no LF at the end."""
    if rng.random() < 0.1:
        lines.insert(rng.randrange(len(lines) + 1), "")
    if rng.random() < faulty:
        lines.insert(rng.randrange(len(lines) + 1), a_faulty_line())
    text = "\n".join(lines) + ("\n" if rng.random() < 0.95 else "")
    return text.encode()


def damaged(rng, text):
    """Returns the bytes, at times with one of them changed, so that they may not be UTF-8."""
    data = text.encode()
    if rng.random() < 0.006 and data:
        place = rng.randrange(len(data))
        data = data[:place] + bytes([rng.randrange(256)]) + data[place + 1:]
    return data


def met(first, count):
    """Prints what the second implementation reached in the cases. What it reached while they were made is not counted."""
    cases = [case(seed) for seed in range(first, first + count)]
    coverage.COUNTS.clear()
    for words, data in cases:
        answer(words, data)
    for what, times in sorted(coverage.COUNTS.items(), key=lambda item: item[1]):
        print(f"{times:9} {what}")


def main():
    show_help(__doc__)
    if len(sys.argv) == 2 and sys.argv[1].isdigit():
        sys.stdout.buffer.write(case(int(sys.argv[1]))[1])
    elif len(sys.argv) == 3 and sys.argv[1] == "--words":
        print(" ".join(case(int(sys.argv[2]))[0]))
    elif len(sys.argv) == 4 and sys.argv[1] == "--met":
        met(int(sys.argv[2]), int(sys.argv[3]))
    else:
        sys.exit(__doc__)


if __name__ == "__main__":
    main()
