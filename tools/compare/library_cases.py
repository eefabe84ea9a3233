"""Compares the bindings of the library for C with the program, on generated cases.

    tools/compare/library_cases [COUNT] [--first FIRST] [--library LIBRARY] [--program PROGRAM] [--jobs N]

The scripts of the seeds FIRST, 0 by default, to FIRST + COUNT - 1 become calls. COUNT is 10,000 by default. C, C++, Python and Rust make these
calls, and print the replies, drops, frames and MAPs. `run` has to print the same for the script: that of PROGRAM, by default
crates/plant_program/out/plant_program, and that of the second implementation. Without a program, the second implementation is compared
alone, and a line says so. A refused call has to be one of the line that `run` refuses, and a refused plant file has to have the same fault.
Cases of `one`, of an invalid line and of a text that is not UTF-8 have no calls, and are counted as skipped.

LIBRARY is a shared library, libmelfjits.so in some folder. Without one, it is linked from what tools/ci/build_channel_c built.

Prints how many cases agree, and the first that differ, with what was printed. Exits with 1 if one differs. Needs gcc, g++ and cargo.

The bindings have a program each, `perform_calls`. It reads cases: a line `plant LENGTH`, that many bytes of plant file, a line for each
call, and a line `end`. The calls are

    arrive MODEM BYTES    request MODEM SID MINISLOTS    tick PLACE    collect PLACE    reslice FROM START/LENGTH/BUDGET ..    reopen

`reopen` saves the channel, which rests before a frame, and goes on in one that is opened from the snapshot: after each frame of an even number.
It prints the outputs of a case as `run` does, with the place of an operator for its name, then `refused AT CODE` if the call AT, counted
from 0, was refused, and a line `end`.
"""

import argparse
import functools
import os
import pathlib
import subprocess
import sys
import tempfile
from collections import Counter

from service.reference.program import Fault, judged_plant, judged_script, split_input, text_of
from tools import ROOT
from tools.compare import c_library
from tools.compare.answers import Answers
from tools.compare.program import PROGRAM
from tools.compare.trials import run, tasks_of
from tools.generator.case import case

BINDINGS = ROOT / "bindings"
AT_A_TIME = 50
FIRST_PLANT_CODE = 10
STEP_CODES = range(20, 40)
ENDS = {None: "all calls performed", "plant": "plant file refused", "line": "a call refused"}


# Programs of the bindings

def build_drivers(folder, library):
    """Builds the programs of the bindings in a folder, and returns the command of each by its language."""
    linked = [f"-L{library.parent}", "-lmelfjits"]
    flags = ["-Wall", "-Wextra", "-Wpedantic", "-Werror", "-O1", *(f"-I{BINDINGS / name}" for name in ("c", "cpp"))]
    for compiler, standard, source in (("gcc", "c99", "c/perform_calls.c"), ("g++", "c++17", "cpp/perform_calls.cpp")):
        subprocess.run([compiler, f"-std={standard}", *flags, "-o", f"{folder}/by_{compiler}", BINDINGS / source, *linked], check=True)
    environment = {**os.environ, "MELFJITS_LIBRARY_FOLDER": str(library.parent), "CARGO_TARGET_DIR": f"{folder}/target"}
    cargo = ["cargo", "build", "--quiet", "--offline", "--locked", "--package", "melfjits", "--example", "perform_calls"]
    subprocess.run(cargo, cwd=BINDINGS / "rust", env=environment, check=True)
    return {"C": [f"{folder}/by_gcc"], "C++": [f"{folder}/by_g++"], "Python": [sys.executable, str(BINDINGS / "python/perform_calls.py")],
            "Rust": [f"{folder}/target/debug/examples/perform_calls"]}


def text_of_case(made):
    """Returns a case as the programs of the bindings read it."""
    return b"plant %d\n%b%bend\n" % (len(made.plant), made.plant, "".join(f"{call}\n" for _line, call in made.calls).encode())


def answers_of(driver, library, cases):
    """Returns what the program of a binding prints for each case."""
    given = b"".join(map(text_of_case, cases))
    environment = {**os.environ, "MELFJITS_LIBRARY": str(library), "LD_LIBRARY_PATH": str(library.parent)}
    printed = subprocess.run(driver, input=given, stdout=subprocess.PIPE, env=environment, check=False).stdout.decode()
    answers = printed.split("end\n")[:-1]
    return answers + ["the program ended before the end of this case\n"] * (len(cases) - len(answers))


# Calls of a script

class Case:
    """A case: its plant file, its calls with the line of each, and the names of its operators. An invalid plant file has no calls."""

    def __init__(self, data):
        """Reads the input of a case. Raises Fault if it is not UTF-8 or a line of its script is invalid."""
        self.data, self.calls, self.names = data, [], []
        text = text_of(data)
        self.plant = split_input(text)[0].encode()
        try:
            plant, script = judged_plant(text)
        except Fault:
            return
        self.names = [row.name for row in plant.rows]
        ticks = [0] * len(plant.rows)
        for line, step in judged_script(plant, script):
            self.calls += [(line, call) for call in calls_of(*step)]
            if step[0] == "tick":
                ticks[step[1]] += 1
                self.calls += [(line, "reopen")] if len(set(ticks)) == 1 and ticks[0] % 2 == 1 else []


def calls_of(what, *detail):
    """Returns the calls of a step of the second implementation."""
    if what == "arrive":
        _, modem, given = detail
        return [f"arrive {modem} {given.hex()}".rstrip() if isinstance(given, bytes) else f"request {modem} {given[0]} {given[1]}"]
    if what == "tick":
        return [f"tick {detail[0]}", f"collect {detail[0]}"]
    if what == "slices":
        return [f"reslice {detail[0]} " + " ".join(f"{share.start}/{share.length}/{share.budget}" for share in detail[1])]
    return []


def in_terms_of_calls(answer, names):
    """Returns the lines of `run` with the places of operators for their names, and the fault after them, or None."""
    lines = answer[1].decode().splitlines()
    fault = lines.pop() if lines and lines[-1].startswith("fault: ") else None
    fields = [line.split(" ") for line in lines]
    return [" ".join([row[0], str(names.index(row[1])), *row[2:]] if row[0] == "F" else row) for row in fields], fault


def is_same(printed, calls, expected, fault):
    """Tests whether a binding printed what `run` did, and refused what it refused."""
    lines = printed.splitlines()
    refused = lines.pop().split(" ") if lines and lines[-1].startswith("refused ") else None
    if lines != expected or (refused is None) != (fault is None):
        return False
    if fault is None:
        return True
    at, code = int(refused[1]), int(refused[2])
    kind, number = fault.split(" ")[1:3]
    if kind == "plant":
        return code == FIRST_PLANT_CODE - 1 + int(number)
    return code in STEP_CODES and calls[at][0] == int(number)


def cases_of(seeds):
    """Returns the cases of some seeds that have calls, each with its seed."""
    cases = []
    for seed in seeds:
        words, data = case(seed)
        try:
            cases += [] if words == ["one"] else [(seed, Case(data))]
        except Fault:
            pass
    return cases


# Comparing

def compare_some(answers, drivers, library, seeds):
    """Returns counts of the cases of some seeds, and a text for each that differs."""
    counts, faults, cases = Counter(), [], cases_of(seeds)
    counts["cases were skipped: no calls"] = len(seeds) - len(cases)
    printed = {name: answers_of(driver, library, [made for _, made in cases]) for name, driver in drivers.items()}
    for place, (seed, made) in enumerate(cases):
        expected, fault = in_terms_of_calls(answers.of(["run"], made.data), made.names)
        wrong = [name for name in drivers if not is_same(printed[name][place], made.calls, expected, fault)]
        counts[f"cases agree, {ENDS[fault.split(' ')[1] if fault else None]}"] += not wrong
        faults += [f"seed {seed}, {name}:\n{printed[name][place]}`run`:\n" + "\n".join([*expected, fault or ""]) for name in wrong]
    return counts, faults


def arguments():
    parser = argparse.ArgumentParser("library_cases", description=__doc__, formatter_class=argparse.RawDescriptionHelpFormatter)
    parser.add_argument("count", type=int, nargs="?", default=10_000)
    parser.add_argument("--first", type=int, default=0)
    parser.add_argument("--library", type=pathlib.Path)
    parser.add_argument("--program", type=pathlib.Path, default=pathlib.Path(PROGRAM))
    parser.add_argument("--jobs", type=int, default=2, metavar="N")
    return parser.parse_args()


def main():
    options = arguments()
    if options.library is None and not c_library.is_built():
        sys.exit("the library for C is not built (tools/ci/build_channel_c)")
    if not options.program.exists():
        print(f"there is no program {options.program}: the bindings are compared with the second implementation alone")
    answers = Answers(str(options.program) if options.program.exists() else None)
    with tempfile.TemporaryDirectory(prefix="library-cases-") as folder:
        if options.library is None:
            c_library.build_shared(folder)
        library = (options.library or pathlib.Path(folder, "libmelfjits.so")).resolve()
        compare = functools.partial(compare_some, answers, build_drivers(folder, library), library)
        sys.exit(run(compare, tasks_of(options.first, options.count, AT_A_TIME), options.jobs, 1000))


if __name__ == "__main__":
    main()
