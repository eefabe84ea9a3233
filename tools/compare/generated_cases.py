"""Compares the built program with the second implementation on generated cases.

    tools/run compare/generated_cases FIRST COUNT [PROGRAM]    the cases of the seeds FIRST to FIRST + COUNT - 1, in two processes
    tools/run compare/generated_cases --shrink SEED [PROGRAM]  shrinks the case of one seed
    tools/run compare/generated_cases --threads FIRST COUNT [PROGRAM]   the same cases, with `threads` in place of `run`
    tools/run compare/generated_cases --capture FIRST COUNT [PROGRAM]   the same, with `capture`
    tools/run compare/generated_cases --trace FIRST COUNT [PROGRAM]     the same, with `trace`: the lines of checks and faults are compared

Output and exit status are compared whole. Prints how many cases agree, by command and status. If a case differs, it shrinks the one with
the lowest seed: it leaves out lines, tables and keys while the two still differ. It prints that case with both answers, and exits with 1.
PROGRAM is the built program, crates/plant_program/out/plant_program, by default.
"""

import multiprocessing
import pathlib
import sys
import time
from collections import Counter

from service.reference.answers import reference_answer
from tools import show_help
from tools.compare.program import PROGRAM, fixed_answer, program_answer
from tools.generator.case import case

PROCESSES = 2
AT_A_TIME = 50
SECONDS_TO_SHRINK = 60


def differ(program, words, data):
    return fixed_answer(words, program_answer(program, words, data)) != reference_answer(words, data)


# Comparing

def case_for(for_run, seed):
    """Returns the case of a seed, with another command in place of `run`."""
    words, data = case(seed)
    return ([for_run] if words == ["run"] else words), data


def compare_some(task):
    """Returns counts by command and status, and the first seed that differs, or None."""
    program, for_run, first, count = task
    counts = Counter()
    for seed in range(first, first + count):
        words, data = case_for(for_run, seed)
        expected = reference_answer(words, data)
        if fixed_answer(words, program_answer(program, words, data)) != expected:
            return counts, seed
        counts[words[0], expected[0]] += 1
    return counts, None


def compare(program, for_run, first, count):
    began, counts = time.monotonic(), Counter()
    tasks = [(program, for_run, seed, min(AT_A_TIME, first + count - seed)) for seed in range(first, first + count, AT_A_TIME)]
    with multiprocessing.Pool(PROCESSES) as pool:
        for some, differing in pool.imap(compare_some, tasks):
            counts += some
            if sum(counts.values()) % 10_000 < AT_A_TIME:
                print(f"{sum(counts.values())} agree", file=sys.stderr, flush=True)
            if differing is not None:
                pool.terminate()
                print(f"seed {differing} differs ({sum(counts.values())} agreed before it)", flush=True)
                show(program, *shrunk(program, *case_for(for_run, differing)))
                return 1
    print(f"{sum(counts.values())} cases agree (seeds {first} to {first + count - 1}), in {time.monotonic() - began:.0f} seconds")
    for (word, status), times in sorted(counts.items()):
        print(f"{times:9} {word}, status {status}")
    return 0


def show(program, words, data):
    print(f"words: {' '.join(words)}\ninput:")
    print(data.decode(errors="backslashreplace"))
    for who, (status, out) in (("program", program_answer(program, words, data)), ("second implementation", reference_answer(words, data))):
        print(f"{who}: status {status}")
        print(out.decode(errors="backslashreplace"))


# Shrinking

def shrunk(program, words, data):
    """Returns a smaller case of the same command that still differs."""
    until = time.monotonic() + SECONDS_TO_SHRINK

    def differs(text):
        return time.monotonic() < until and differ(program, words, text.encode())

    try:
        text = data.decode()
    except UnicodeDecodeError:
        return words, data
    if words == ["one"]:
        return words, join(fewer(text.split("\n"), lambda lines: differs(join(lines)))).encode()
    plant, script = split_case(text)
    while True:
        script = fewer(script, lambda lines: differs(whole(plant, lines)))
        smaller, script = fewer_operators(plant, script, differs)
        smaller = fewer_tables(smaller, script, differs)
        if smaller == plant or time.monotonic() > until:
            return words, whole(smaller, script).encode()
        plant = smaller


def join(lines):
    return "\n".join(lines)


def split_case(text):
    """Returns the tables of the plant file, each a list of lines, and the lines from `---` on."""
    lines = text.split("\n")
    place = lines.index("---") if "---" in lines else len(lines)
    tables = [[]]
    for line in lines[:place]:
        if line.startswith("["):
            tables.append([])
        tables[-1].append(line)
    return tables, lines[place:]


def whole(tables, script):
    return join([line for table in tables for line in table] + script)


def fewer(items, differs):
    """Leaves out ever smaller runs of items, as long as the two still differ."""
    size = max(1, len(items) // 2)
    while True:
        place = 0
        while place < len(items):
            without = items[:place] + items[place + size:]
            if differs(without):
                items = without
            else:
                place += size
        if size == 1:
            return items
        size //= 2


def fewer_operators(tables, script, differs):
    """Leaves out operators, each with its flows and its field of each slice change."""
    place = 0
    while True:
        heads = [at for at, table in enumerate(tables) if table and table[0].startswith("[[operator]]")]
        if place >= len(heads):
            return tables, script
        end = (heads + [len(tables)])[place + 1]
        fewer_tables_now = tables[:heads[place]] + tables[end:]
        fewer_lines = [without_field(line, 2 + place) for line in script]
        if differs(whole(fewer_tables_now, fewer_lines)):
            tables, script = fewer_tables_now, fewer_lines
        else:
            place += 1


def without_field(line, place):
    fields = line.split(" ")
    return " ".join(fields[:place] + fields[place + 1:]) if fields[0] == "Z" else line


def fewer_tables(tables, script, differs):
    tables = fewer(tables, lambda some: differs(whole(some, script)))
    for place in range(len(tables)):
        def differs_with(lines, place=place):
            return differs(whole(tables[:place] + [lines] + tables[place + 1:], script))
        tables = tables[:place] + [fewer(tables[place], differs_with)] + tables[place + 1:]
    return tables


def main():
    show_help(__doc__)
    words = sys.argv[1:]
    for_run = words[0][2:] if words[:1] in (["--threads"], ["--capture"], ["--trace"]) else "run"
    words = words if for_run == "run" else words[1:]
    if len(words) not in (2, 3):
        sys.exit(__doc__)
    program = words[2] if len(words) == 3 else PROGRAM
    if not pathlib.Path(program).exists():
        sys.exit(f"there is no program {program}: build it first, as the README says")
    if words[0] == "--shrink":
        found = case(int(words[1]))
        if not differ(program, *found):
            sys.exit("the two agree on this seed")
        show(program, *shrunk(program, *found))
        sys.exit(1)
    sys.exit(compare(program, for_run, int(words[0]), int(words[1])))


if __name__ == "__main__":
    main()
