"""Tries must-fail edits, many at once: the prover must refuse each function that an edit changes.

    tools/ci/edits [--all | --eighth N] [--unedited | --edits-alone] [--jobs N] [--libraries FOLDER] [CRATE | CRATE/NAME] .. [--while COMMAND ..]
    tools/ci/edits --check
    tools/ci/edits --counts

Without names it does what CI does: it tries the edits in the folders must-fail and edits of all crates, and one eighth of those in
edits/more. The number of commits chooses the eighth, so each is tried within eight runs. With --all it tries all. An edit that is named is
tried in any folder, and a crate that is named without edits/more, except with --all. tools/ci/edit_files.py says what an edit is. All
crates below have to be built: run `rt ci` first, or name a folder of crates where it was run.

With --while, a command runs that proves the crates (`rt ci`). The edits of a crate are tried as soon as the command prints that the crate
is proved, by processors that have nothing else to do. What became of the edits is printed when the command has ended. If it fails, its
status is the status of this tool, and the other edits are not tried.

Edits of different functions are applied to one copy of the crate. In this copy the body and the proof of every other function are left
out, and its contract stays: the edited functions are proved over the contracts of what they call, as in any check, and nothing else is
proved. If an edited function calls another edited one and no goal of its own is refused, it is tried again without that one. An edit that
changes something outside of functions is tried alone.

Two things must be proved in such a copy, so that an edit is refused for its wrong value and for nothing else. One is the twin of an edit,
if it has one: a harmless change of the same form. The other is each function that has no twin, as it is. With names, the functions are
tried as they are only with --unedited. --unedited leaves out the edits themselves, and --edits-alone the functions as they are.

Prints for each edit the function and the goals that the prover refused. Exits with 1 if an edit is not refused, cannot be applied, does not
compile or is not judged, or if a twin or a function as it is is not proved. Without names it also compares the number of edits of each crate
with tools/ci/edit_counts.txt, and exits with 1 if they differ, or if an edit adds a loop or a call and has no twin. --check does only
this, and reads all edits. --counts writes that file.
"""

import argparse
import collections
import concurrent.futures
import dataclasses
import os
import pathlib
import re
import subprocess
import sys
import time

from tools.ci import edit_files
from tools.ci.edit_files import Edit, WrongEdit, applied
from tools.proving.functions import texts_of, with_holes
from tools.proving.prover import Prover, crates_of, is_proved, kit_folder, reports_of

ROOT = pathlib.Path(__file__).resolve().parents[2]
COUNTS = "tools/ci/edit_counts.txt"
PROVED = re.compile(r"rt: (\w+) (?:proved|is kept)\b")
NOT_FOUND = re.compile(r"has no field|is not in scope|has no `|was not admitted|has-holes")


@dataclasses.dataclass(frozen=True)
class Outcome:
    """What became of an edit: whether it is as it must be, refused or proved, and what the prover said."""

    is_right: bool
    said: str


def refused_goals(crate, path, report, printed):
    """Returns the goals of a function that the prover refused, except for answers that only name what is gone."""
    own = re.escape(f"Rattle.{crate}.proofs.{path.replace('::', '.')}.")
    answers = re.findall(rf"`{own}(?:Answers|Invariants|Proof)\.([^`]*)`", report.said.partition("it calls")[0])
    errors = collections.defaultdict(list)
    folder = re.escape(f"./proofs/{path.replace('::', '/')}/")
    # An error may go on in lines that are indented.
    for goal, error in re.findall(rf"^{folder}\w+\.antt:\d+:\d+: error: `([^`]*)`: (.*(?:\n  .*)*)", printed, re.MULTILINE):
        errors[goal].append(error)
    refused = [goal for goal in answers if not errors[goal] or not all(map(NOT_FOUND.search, errors[goal]))]
    searched = re.findall(r"`search` did not prove `([^`]*)`", report.said)
    return list(dict.fromkeys([*report.open_goals, *searched, *refused]))


def judged(edit, reports, printed):
    """Returns what became of an edit that was tried with others, or nothing if it has to be tried without one of them."""
    own = {path: reports[path] for path in edit.functions if path in reports}
    for path, report in own.items():
        if goals := refused_goals(edit.crate, path, report, printed):
            said = f"{path}: {', '.join(goals)}"
            return Outcome(False, f"NOT PROVED: {said}") if edit.is_harmless else Outcome(True, f"refused: {said}")
    if own and all(map(is_proved, own.values())) and (len(own) == len(edit.functions) or not edit.is_harmless):
        said = f"{', '.join(own)} is proved with it"
        return Outcome(True, f"proved: {', '.join(own)}") if edit.is_harmless else Outcome(False, f"NOT REFUSED: {said}")
    return None


def unjudged(edit, reports, printed):
    """Returns what became of an edit that was tried alone, where the prover did not judge the functions that it changes."""
    lines = printed.splitlines()
    errors = re.findall(r"^(?:\S+: )?error\b.*(?:\n  .*)*", printed, re.MULTILINE)
    said = [f"{path}: {reports[path].said}" for path in edit.functions if path in reports]
    if errors and said and all(NOT_FOUND.search(error) for error in errors) and not edit.is_harmless:
        return Outcome(False, f"SAYS LITTLE: a proof file names what it takes away. Change a value and keep the names: {errors[0][:400]}")
    return Outcome(False, f"NOT JUDGED: {(errors or said or lines[-1:] or ['the prover said nothing'])[0][:400]}")


def batch_of(edits, texts):
    """Returns as many edits as can be tried at once, in order, and the texts with all of them."""
    batch, taken = [], set()
    for edit in edits:
        if taken.isdisjoint(edit.functions):
            try:
                changed = texts
                for pair in edit.pairs:
                    changed = applied(changed, *pair)
            except WrongEdit:
                continue
            batch.append(edit)
            taken.update(edit.functions)
            texts = changed
    return batch, texts


def halves(edits):
    """Returns a list in two halves."""
    middle = (len(edits) + 1) // 2
    return [edits[:middle], edits[middle:]]


def groups_of(edits):
    """Returns the edits in groups that can be tried together: each that is not local, all harmless ones, and all others."""
    together = [[edit for edit in edits if edit.is_local and edit.is_harmless == is_harmless] for is_harmless in (True, False)]
    return [[edit] for edit in edits if not edit.is_local] + [group for group in together if group]


def try_edits(prover, crate, edits):
    """Tries edits of one crate. Yields each with what became of it."""
    texts = texts_of(ROOT / "crates" / crate)
    waiting = groups_of(edits)
    while waiting:
        group = waiting.pop(0)
        batch, changed = batch_of(group, texts)
        kept = {path for edit in batch for path in edit.functions}
        printed = prover.check(crate, with_holes(crate, changed, kept), sorted(kept))
        reports = reports_of(printed)
        outcomes = {edit: judged(edit, reports, printed) for edit in batch}
        if len(batch) == 1 and outcomes[batch[0]] is None:
            outcomes[batch[0]] = unjudged(batch[0], reports, printed)
        yield from ((edit, outcome) for edit, outcome in outcomes.items() if outcome)
        left = [edit for edit in group if not outcomes.get(edit)]
        if left and len(left) == len(group):
            waiting += halves(left)
        elif left:
            waiting.append(left)


def unedited(edits):
    """Returns the functions that some edits change, as they are, except for those that a local twin shows to be proved."""
    shown = {path for edit in edits if edit.is_harmless and edit.is_local for path in edit.functions}
    paths = dict.fromkeys(path for edit in edits for path in edit.functions if path not in shown)
    return [Edit(edits[0].crate, f"{path}, as it is", (), (path,), True, is_harmless=True) for path in paths]


def tried_of(edits, wants_edits, wants_unedited):
    """Returns what is to be tried of some edits of one crate: the edits, their twins, and their functions as they are."""
    harmless = [edit for edit in edits if edit.is_harmless]
    wrong = [edit for edit in edits if not edit.is_harmless]
    return harmless + (unedited(edits) if wants_unedited else []) + (wrong if wants_edits else [])


def try_crate(prover, crate, edits):
    """Tries edits of a crate. Returns those that were judged, lines of what became of them, and how many are not as they must be."""
    start = time.monotonic()
    outcomes = dict(try_edits(prover, crate, edits))
    lines = [f"{edit}: {outcome.said}" for edit, outcome in outcomes.items() if edit.pairs or not outcome.is_right]
    wrong = sum(not outcome.is_right for outcome in outcomes.values())
    return outcomes.keys(), [*lines, f"{crate}: {said_of(outcomes)}, {wrong} wrong, {time.monotonic() - start:.0f} s"], wrong


def said_of(edits):
    """Returns how many edits, twins and functions as they are some are."""
    twins = sum(edit.is_harmless and bool(edit.pairs) for edit in edits)
    functions = sum(not edit.pairs for edit in edits)
    parts = [f"{twins} twins"] * bool(twins) + [f"{functions} functions as they are"] * bool(functions)
    return ", ".join([*parts, f"{len(edits) - twins - functions} edits"])


def follow(command, begin):
    """Runs a command, prints what it prints, and calls back for each crate that it says is proved. Returns its status."""
    with subprocess.Popen(command, stdout=subprocess.PIPE, text=True, errors="replace") as running:
        for line in running.stdout:
            print(line, end="", flush=True)
            if proved := PROVED.match(line):
                begin(proved[1])
    return running.returncode


def try_all(prover, edits, jobs, command):
    """Tries the edits of each crate, some crates at a time, and prints what became of them. Returns those that were judged, and how many are wrong."""
    running = {}
    with concurrent.futures.ThreadPoolExecutor(max(jobs, 1)) as pool:

        def begin(crate):
            if crate in edits and crate not in running:
                running[crate] = pool.submit(try_crate, prover, crate, edits[crate])

        status = follow(command, begin) if command else 0
        if status:
            prover.stop()
            pool.shutdown(cancel_futures=True)
            sys.exit(status if status > 0 else 128 - status)
        # Nothing is left to give way to.
        prover.gives_way = False
        for crate in sorted(edits, key=lambda it: -len(edits[it])):
            begin(crate)
        found, count = set(), 0
        for done in concurrent.futures.as_completed(running.values()):
            tried, lines, wrong = done.result()
            print(*lines, sep="\n", flush=True)
            found.update(tried)
            count += wrong
    return found, count


def wanted(given, crates):
    """Returns a function that says of the file of an edit whether it is to be tried, and prints which eighth of edits/more is."""
    if given.names:
        return lambda path: name_of(path) in given.names or crate_of(path) in given.names and (given.all or not edit_files.is_more(path))
    if given.all:
        return lambda path: True
    more = [path for crate in crates for path in edit_files.edit_paths(ROOT, crate) if edit_files.is_more(path)]
    eighth = edit_files.eighth_of_commits(ROOT) if given.eighth is None else given.eighth
    of_eighth = edit_files.of_eighth(more, eighth)
    print(f"tools/ci/edits: of the {len(more)} edits in edits/more, eighth {eighth} of 0 to {edit_files.EIGHTHS - 1} is tried: {len(of_eighth)}")
    return lambda path: not edit_files.is_more(path) or path in of_eighth


def crate_of(path):
    """Returns the name of the crate of an edit."""
    return path.relative_to(ROOT / "crates").parts[0]


def name_of(path):
    """Returns the name of an edit with that of its crate."""
    return f"{crate_of(path)}/{path.stem}"


def arguments():
    """Returns what the command line asks for."""
    parser = argparse.ArgumentParser(prog="edits", description=__doc__, formatter_class=argparse.RawDescriptionHelpFormatter, allow_abbrev=False)
    parser.add_argument("names", nargs="*", metavar="CRATE | CRATE/NAME")
    parser.add_argument("--all", action="store_true", help="try all edits in edits/more, and not one eighth of them")
    parser.add_argument("--eighth", type=int, choices=range(edit_files.EIGHTHS), help="which eighth of edits/more to try (default: by the number of commits)")
    parser.add_argument("--unedited", action="store_true", help="try only the twins, and the functions as they are: each must be proved")
    parser.add_argument("--edits-alone", action="store_true", help="do not try functions as they are")
    parser.add_argument("--check", action="store_true", help="try nothing: read all edits, and compare their number with the pinned one")
    parser.add_argument("--counts", action="store_true", help="try nothing: write the number of edits of each crate into edit_counts.txt")
    parser.add_argument("--jobs", type=int, default=len(os.sched_getaffinity(0)), help="how many crates at a time (default: one a processor)")
    parser.add_argument("--libraries", type=pathlib.Path, default=ROOT / "crates", help="the crates as they were built (default: crates)")
    parser.add_argument("--while", nargs=argparse.REMAINDER, default=[], dest="command", metavar="COMMAND", help="try edits while this runs")
    return parser.parse_args()


def print_lines(lines):
    """Prints lines, if there are any."""
    if lines:
        print(*lines, sep="\n", flush=True)


def list_faults(crates):
    """Returns what is wrong with the list of all edits."""
    return [*edit_files.count_faults(ROOT, crates, ROOT / COUNTS), *edit_files.twin_faults(ROOT, crates)]


def check(crates, edits, broken):
    """Prints what is wrong with the edits, which were all read. Returns the exit status."""
    faults = [*list_faults(crates), *(said for _, said in broken)]
    print_lines(faults)
    print(f"{said_of([edit for group in edits.values() for edit in group])}, {len(faults)} faults")
    return 1 if faults else 0


def main():
    given = arguments()
    crates = crates_of(ROOT)
    if given.counts:
        (ROOT / COUNTS).write_text(edit_files.HEAD + "".join(f"{line}\n" for line in edit_files.counts(ROOT, crates)))
        return 0
    if given.check:
        return check(crates, *edit_files.read_edits(ROOT, crates, lambda path: True))
    is_wanted = wanted(given, crates)
    chosen = {path for crate in crates for path in edit_files.edit_paths(ROOT, crate) if is_wanted(path)}
    if unknown := [name for name in given.names if not any(name in (name_of(path), crate_of(path)) for path in chosen)]:
        raise SystemExit(f"tools/ci/edits: no edit fits {', '.join(unknown)}")
    edits, broken = edit_files.read_edits(ROOT, crates, is_wanted)
    faults = [said for path, said in broken if path in chosen or not given.names]
    faults += [] if given.names else list_faults(crates)
    print_lines(faults)
    wants_unedited = given.unedited or not given.names and not given.edits_alone
    tried = {crate: tried_of(group, not given.unedited, wants_unedited) for crate, group in edits.items()}
    prover = Prover(kit_folder(), given.libraries.resolve(), crates, gives_way=bool(given.command))
    found, wrong = try_all(prover, tried, given.jobs, given.command)
    lost = [f"{edit}: NOT JUDGED: nothing is known of it" for group in tried.values() for edit in group if edit not in found]
    print_lines(lost)
    wrong += len(faults) + len(lost)
    print(f"{said_of(found)}, {wrong} wrong")
    return 1 if wrong or not found else 0


if __name__ == "__main__":
    sys.exit(main())
