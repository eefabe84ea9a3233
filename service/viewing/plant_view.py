"""Draws the output of `run` or of `serve` as a page that any browser opens without a network.

    plant_view [--plant FILE] [--highlight NAME] [--title TEXT] < OUTPUT > page.html
    plant_view [--plant FILE] [--highlight NAME] --svg TITLE=OUTPUT.. > picture.svg
    plant_view [--plant FILE] --csv < OUTPUT > numbers.csv

The page has a row for each frame, with its number and its time. Each operator has a colour and a
pattern of its own, and no two are alike. Grants have their SIDs, a corner of an unsolicited grant is
marked, polls have diagonal stripes, idle minislots are pale, and a red line is below a slice in which
a grant is pending. A dashed line is where slices change. Below the frames is a table of operators
with the use of their slices and budgets, of replies by code, and of drop reasons by modem.

--svg draws the first frames of several outputs side by side, for documents. --csv writes the same
numbers, one a line, as table,frame,operator,modem,what,number.

FILE is the plant file, or the whole input of `run` or `serve`. From the plant file come times and
budgets. From a script after `---` come what is committed of each budget, and which grants are
unsolicited. The frames alone show this of some grants, and the page says of how many they do not.
Without FILE, slices are read from the frames, and times and budgets are left out.

Of a service (`serve`, `resume`, `restore`), the page says where it began, where the plant or the
numbers of frames changed, and which lines were refused. Snapshots are passed over.
"""

import argparse
import pathlib
import sys

from service.reference.program import Fault
from service.viewing.budgets import Budgets, budgets_of_plant, read_budgets
from service.viewing.page import page
from service.viewing.picture import picture
from service.viewing.run_output import NoOutput, read_output
from service.viewing.sums import csv_lines, sums_of


def read_arguments():
    parser = argparse.ArgumentParser("plant_view", description=__doc__, formatter_class=argparse.RawDescriptionHelpFormatter)
    parser.add_argument("--plant", metavar="FILE", help="the plant file, or the whole input of `run` or `serve`")
    parser.add_argument("--highlight", metavar="NAME", help="the operator to highlight; the others are faded")
    parser.add_argument("--title", default="Frames of a plant", help="the title of the page")
    parser.add_argument("--csv", action="store_true", help="write the numbers alone")
    parser.add_argument("--svg", nargs="+", metavar="TITLE=OUTPUT", help="draw these outputs side by side")
    options = parser.parse_args()
    if options.csv and options.highlight:
        parser.error("--csv has no operator to highlight")
    return options


def budgets_of(path):
    if path is None:
        return Budgets()
    try:
        return read_budgets(text_of(path))
    except Fault as fault:
        raise NoOutput(f"{path}: {fault.last_line}") from fault


def titled_output(word):
    title, _, path = word.rpartition("=")
    try:
        return title or pathlib.Path(path).stem, read_output(text_of(path).split("\n"))
    except NoOutput as fault:
        raise NoOutput(f"{path}: {fault}") from fault


def text_of(path):
    """Returns the text of a file. A byte that is not UTF-8 is in no format, so it is read as a text that is quoted."""
    return pathlib.Path(path).read_bytes().decode(errors="backslashreplace")


def check_highlighted(name, outputs):
    """Refuses the name of an operator that no output has."""
    names = dict.fromkeys(known for run in outputs for known in run.names)
    if name is not None and name not in names:
        raise NoOutput(f"no operator is called {name}; there are {', '.join(names) or 'none'}")


def budgets_for(runs, budgets):
    """Returns the budgets without those of the script if it is not known which frames are the script's: those of several outputs, and those
    of an output in which numbers of frames came again."""
    is_ambiguous = len(runs) > 1 or any(run.replaced or run.renumberings for run in runs)
    return budgets_of_plant(budgets.plant) if budgets.plant and is_ambiguous else budgets


def write(options, out):
    budgets = budgets_of(options.plant)
    if options.svg:
        outputs = [titled_output(word) for word in options.svg]
        check_highlighted(options.highlight, [run for _, run in outputs])
        out.write(picture(outputs, budgets_for([run for _, run in outputs], budgets), options.highlight))
        return
    run = read_output(sys.stdin)
    check_highlighted(options.highlight, [run])
    budgets = budgets_for([run], budgets)
    sums = sums_of(run, budgets)
    if options.csv:
        out.writelines(line + "\n" for line in csv_lines(run, sums, budgets))
    else:
        out.write(page(options.title, run, sums, budgets, options.highlight))


def main():
    sys.stdin.reconfigure(newline="\n", errors="backslashreplace")
    try:
        write(read_arguments(), sys.stdout)
    except (NoOutput, OSError) as fault:
        sys.exit(f"plant_view: {fault}")


if __name__ == "__main__":
    main()
