"""Checks examples/: the outputs, and what each README.md shows of them. tools/ci/examples.sh starts it.

    tools/ci/examples.sh [PROGRAM]     Prints each example that differs, and exits with 1 if one does.

An input is `COMMAND.txt` or `COMMAND_more.txt`, and its output has the same name with `.out`. The first examples have names of their own.
The second implementation has to print this output, and so has the program, if it is built.

A block of any page that begins with ```stderr quotes standard error (tools/ci/quoted_errors.py). The second implementation writes no reasons
there, so these blocks are compared only if the program is built.

Another block of a README that begins with ``` and the name of an input shows the script of this input. Below each line is what it prints, and
below a message, indented, its words (service/dsx). A block of an input of `trace` shows the output, which has the lines of the script. All
blocks of an input together are the whole script, in order. A block of `toml` is a part of one of the plant files.

Together the examples reach each check of the table in docs/RULES.md, each confirmation code and each drop reason that a script can
reach. The plant file of examples/every_key has each key.
"""

import pathlib
import re
import sys

from service.messages.words import CODES, WordsFault, octets, parts_of_message, words_of
from service.reference import coverage
from service.reference.answers import reference_answer
from service.reference.book import StepRefused, arrive, open_book, work
from service.reference.program import MODEM_OF_ONE, Core, answer_line, judged_plant, lines_of, message_of, plant_of_one, steps_of
from tools import EXAMPLES, show_help
from tools.ci.quoted_errors import wrong_quotes
from tools.compare.program import PROGRAM, fixed_answer, program_answer

OF_ONE = ("first_flow", "several_messages")
WORDS = ("one", "check", "run", "trace")


# Outputs

def word_of(path):
    """Returns the command that an input is for."""
    word = path.stem.split("_")[0]
    return "one" if path.stem in OF_ONE else word if word in WORDS and path.parent != EXAMPLES else "run"


def status_of(output):
    """Returns the status that an output ends with."""
    return 4 if output.splitlines()[-1:] and output.splitlines()[-1].startswith(b"fault: line ") else 0


def wrong_answers(program, path):
    """Yields who prints something else for an input than the output next to it has."""
    data, output = path.read_bytes(), path.with_suffix(".out").read_bytes()
    right, word = (status_of(output), output), word_of(path)
    if reference_answer([word], data) != fixed_answer([word], right):
        yield f"{path}: the second implementation prints something else"
    if pathlib.Path(program).exists() and program_answer(program, [word], data) != right:
        yield f"{path}: the program prints something else"


# Documents


def transcript(word, text):
    """Yields the lines of a script, each with what it prints after it."""
    if word == "one":
        yield from transcript_of_one(text)
    elif word == "run":
        yield from transcript_of_run(text)
    elif word == "check":
        yield "ok"


def transcript_of_one(text):
    book = open_book(*plant_of_one())
    for line in lines_of(text):
        yield line
        for output in arrive(book, MODEM_OF_ONE, message_of(line)) + work(book):
            yield answer_line(output).replace(f" {MODEM_OF_ONE}", "").removeprefix("R ")


def transcript_of_run(text):
    plant, script = judged_plant(text)
    core = Core(plant)
    for place, line in enumerate(script, 1):
        yield line
        try:
            for step in steps_of(plant, line.split(" ")):
                yield from core.step(*step)
        except StepRefused:
            yield f"fault: line {place}"
            return


def with_words(lines):
    """Yields the lines as a README shows them."""
    for line in lines:
        yield line
        found = re.fullmatch("(?:[MR] [0-9A-F]{12} )?((?:[0-9A-F]{2})+)", line)
        if found:
            yield "  " + described(found.group(1))


def described(text):
    try:
        return " ".join(words_of(parts_of_message(octets(text, text))))
    except WordsFault as fault:
        return f"({fault})"


def blocks(text):
    """Returns the fenced blocks of a document: their names, and their lines."""
    return [(name, body.splitlines()) for name, body in re.findall(r"^```(\w+)\n(.*?)^```$", text, re.MULTILINE | re.DOTALL)]


def differences(folder):
    """Yields what a folder's README shows that is not printed."""
    shown = blocks((folder / "README.md").read_text())
    inputs = {path.stem: path.read_text() for path in sorted(folder.glob("*.txt"))}
    for name, text in inputs.items():
        word = word_of(folder / f"{name}.txt")
        right = (folder / f"{name}.out").read_text().splitlines() if word == "trace" else list(with_words(transcript(word, text)))
        shown_lines = [line for block, lines in shown if block == name for line in lines]
        for place in range(max(len(right), len(shown_lines))):
            pair = [lines[place] if place < len(lines) else "(nothing)" for lines in (shown_lines, right)]
            if pair[0] != pair[1]:
                yield f"{name}: the README has\n    {pair[0]}\nwhere it should have\n    {pair[1]}"
                break
    for block, lines in shown:
        if block == "toml" and not any("\n".join(lines) in text for text in inputs.values()):
            yield "no plant file has the block that begins with " + lines[0]
        elif block != "toml" and block not in inputs:
            yield f"there is no input {block}.txt"


# What the examples leave out

FORMATS = EXAMPLES.parent / "docs/FORMATS.md"
CAUSES = ("Empty", "NotOurs", "Short", "TidInUse", "UnknownAck", "NoSuchSid", "NotRequesting")
# The checks by which a request is answered, the last of them code 0.
CHECKS = range(1, 23)


def left_out():
    """Yields what no example shows. The second implementation has counted what it reached when it ran them."""
    met = [what.split(":")[0] for what in coverage.COUNTS]
    outputs = "".join(path.read_text() for path in EXAMPLES.glob("*/*.out"))
    codes = {int(code, 16) for code in re.findall("^R [0-9A-F]{12} [0-9A-F]{6}([0-9A-F]{2})", outputs, re.MULTILINE)}
    for check in CHECKS:
        if not any(f"{kind} check {check}" in met for kind in ("DSA", "DSC", "DSD")):
            yield f"no example meets check {check}"
    yield from (f"no example is answered {code}" for code in CODES if code not in codes)
    yield from (f"no example has the cause {cause}" for cause in CAUSES if f" {cause}\n" not in outputs)
    yield from (f"every_key has no {key}" for key in keys_of_plant_files() if not re.search(f"^{key} = ", every_key(), re.MULTILINE))


def every_key():
    return (EXAMPLES / "every_key/check.txt").read_text()


def keys_of_plant_files():
    """Returns the keys in the tables of a plant file, except the table `flow` itself."""
    section = FORMATS.read_text().split("\n## The plant file")[1].split("\n## ")[0]
    rows = re.findall(r"^\| ((?:`[a-z_]+`(?:, )?)+) \|", section, re.MULTILINE)
    return [key for row in rows for key in re.findall("`([a-z_]+)`", row) if key != "flow"]


def main():
    show_help(__doc__)
    program = sys.argv[1] if len(sys.argv) == 2 else PROGRAM
    inputs = sorted([*EXAMPLES.glob("*.txt"), *EXAMPLES.glob("*/*.txt")])
    found = [what for path in inputs for what in wrong_answers(program, path)]
    found += [f"{folder.name}: {what}" for folder in sorted(EXAMPLES.iterdir()) if folder.is_dir() for what in differences(folder)]
    found += left_out()
    quotes, wrong = wrong_quotes(program)
    found += wrong
    for line in found:
        print(line)
    is_built = pathlib.Path(program).exists()
    who = "the program and the second implementation" if is_built else "the second implementation (the program is not built)"
    compared = f"{quotes} quotes of standard error" + ("" if is_built else " that were not compared")
    print(f"{len(inputs)} examples, {compared}, {len(found)} faults, by {who}")
    sys.exit(1 if found else 0)


if __name__ == "__main__":
    main()
