"""Runs the cases of tests/ with the second implementation, if it has the command, and with the program, if it is built.

    tools/run ci/cases [PROGRAM]     Prints each case that differs, with what was printed and what is expected; exits with 1 if one differs.

A case is a command with its input, and the status and the output that it must give. CONTRIBUTING.md says how to write one.
"""

import os
import pathlib
import re
import shlex
import subprocess
import sys
from concurrent.futures import ThreadPoolExecutor
from dataclasses import dataclass, field, replace

from service.reference.answers import reference_answer
from tools import EXAMPLES, ROOT, show_help
from tools.compare.program import PROGRAM

PLANT = (EXAMPLES / "plant_p2.toml").read_text()
# What is expected, by its sign: the field of a case that keeps it, and the text before and after that of the line.
EXPECTED = {"=": ("output", "", "\n"), "x": ("digits", "", ""), "check": ("checks", "  check ", "\n"), "!": ("errors", "", "\n")}
OPTIONS = ("--input", "--json", "--strict", "--version", "-V", "--state", "--snapshot-every")
SPELLED = {b"r": b"\r", b"t": b"\t"}
# A row of a table: what `check` prints, the name of the case if it has one of its own, and the changes of the plant file.
ROW = re.compile(r"\+ (ok|plant [^~]*?)(?: \((.*?)\))? ~ (.*)")
# A number that is counted up, by how much where that is not 1, and how it is written.
COUNTED = re.compile(r"\{([0-9]+)(?:\+([0-9]+))?(?::([0-9a-zA-Z]+))?\}")


@dataclass
class Case:
    """A command with its input, and what is expected of it. Of a field that is None nothing is expected."""
    name: str
    status: int = None
    words: list = None
    plant: str = PLANT
    data: bytes = b""
    output: str = None
    digits: str = None
    checks: str = None
    absent: list = field(default_factory=list)
    errors: str = None


# Reading the cases

def cases_of(path):
    """Returns the cases of a file. Its first line says how many they are, and no two have the same name."""
    first, *texts = re.split("^# ", path.read_text(encoding="utf-8"), flags=re.MULTILINE)
    cases = [case for name, *lines in (text.split("\n") for text in texts) for case in cases_in(f"{path.name}: {name}", lines)]
    found = re.match("([0-9]+) cases: ", first)
    if found is None or int(found[1]) != len(cases):
        sys.exit(f"{path.name} has {len(cases)} cases, and begins with {first.strip()!r}")
    if len({case.name for case in cases}) != len(cases):
        sys.exit(f"{path.name} has two cases of one name")
    return cases


def cases_in(name, lines):
    """Returns the case of these lines, or of a table the case of each row."""
    rows = [line for line in lines if line and not line.startswith("//")]
    return [case_of_row(name, row) for row in rows] if rows and rows[0].startswith("+ ") else [case_of(name, lines)]


def case_of_row(table, row):
    """Returns the case of a row of a table: what `check` prints for a changed plant file. Its name is that of the row, or what is changed."""
    found = ROW.fullmatch(row)
    if found is None:
        sys.exit(f"{table}: {row!r} is no row of a table")
    result, name, changes = found[1], found[2], found[3].split(" ~ ")
    name = f"{table}: {name or ', '.join(line for change in changes for line in added_lines(change))}"
    expected = ["0 check", "= ok"] if result == "ok" else ["3 check", f"= fault: {result}"]
    return case_of(name, [*(f"~ {change}" for change in changes), *expected])


def added_lines(change):
    """Returns the lines of the new text of a change that its old text does not have."""
    old, _, new = parts_of(change)
    return [line for line in new.split("|") if line and line not in old.split("|")]


def parts_of(change):
    """Returns the old text of a change, its sign, and its new text."""
    return re.split(r" (\*?>) ", change, maxsplit=1)


def case_of(name, lines):
    case = Case(name)
    for line in lines:
        if line and not line.startswith("//"):
            take_line(case, line)
    if case.status is None:
        sys.exit(f"{name}: no line says a status and words")
    if (case.digits, case.checks, case.absent, case.errors) == (None, None, [], None):
        case.output = case.output or ""
    return case


def take_line(case, line):
    """Adds a line to a case, by its sign. A line that ends in a blank is refused, since nobody would see it."""
    if line.endswith(" "):
        sys.exit(f"{case.name}: a line ends in a blank")
    sign, _, text = line.partition(" ")
    if sign.isdigit():
        case.status, case.words = int(sign), shlex.split(text)
    elif sign in EXPECTED:
        place, before, after = EXPECTED[sign]
        setattr(case, place, (getattr(case, place) or "") + before + text + after)
    elif sign == "=*":
        case.output = (case.output or "") + repeated(text.replace("|", "\n"))
    elif sign == "check*":
        times, _, text = text.partition(" ")
        case.checks = (case.checks or "") + int(times) * f"  check {text}\n"
    elif sign == "-":
        case.absent.append(text)
    elif sign == "silent":
        case.errors = ""
    else:
        take_input(case, sign, text)


def take_input(case, sign, text):
    """Adds a line that is a part of the input."""
    if sign == "~":
        case.plant = changed(case.plant, text)
    elif sign == "alone":
        case.plant = ""
    elif sign in (">", "."):
        case.data += spelled(text) + (b"\n" if sign == ">" else b"")
    elif sign == "*":
        case.data += repeated(text.replace("|", "\n")).encode()
    elif sign == "P":
        case.data += change_of_plant(case.plant, text)
    elif sign in VARIED:
        digits, _, text = text.replace("|", "\n").partition(" ")
        case.data += "".join(text.replace("{}", varied) for varied in VARIED[sign](digits)).encode()
    else:
        sys.exit(f"{case.name}: no line of a case begins with {sign!r}")


def changed(plant, change):
    """Returns the plant with a change."""
    old, sign, new = parts_of(change.replace("|", "\n"))
    found = re.search(pattern_of(old), plant, re.DOTALL)
    if found is None:
        sys.exit(f"the plant has no {old!r} to change")
    return plant[:found.start()] + (repeated(new) if sign == "*>" else new) + plant[found.end():]


def change_of_plant(plant, changes):
    """Returns the lines that change a plant under `resume`: the line `P`, the plant file with changes that ` ~ ` separates, and `---`."""
    for change in changes.split(" ~ ") if changes else []:
        plant = changed(plant, change)
    return b"P\n" + spelled(plant) + b"---\n"


def repeated(text):
    """Returns, for `9 text`, the text so many times. A number in braces is counted up from one text to the next."""
    times, _, text = text.partition(" ")
    if "{" not in text:
        return text * int(times)
    return "".join(COUNTED.sub(lambda found: counted(found, place), text) for place in range(int(times)))


def beginnings(digits):
    """Returns the beginnings of some bytes, from that of no byte to all of them."""
    return ["-"] + [digits[:end] for end in range(2, len(digits) + 1, 2)]


def changes(digits):
    """Returns some bytes with each of them changed to each value, its own included."""
    return [digits[:place] + format(value, "02X") + digits[place + 2:] for place in range(0, len(digits), 2) for value in range(256)]


# The texts that are made of the bytes of a message, by the sign of the line.
VARIED = {"<": beginnings, "^": changes}


def counted(found, place):
    """Returns a number in braces after so many texts."""
    first, step, form = found.groups()
    return format(int(first) + place * int(step or 1), form or "d")


def spelled(text):
    """Returns the bytes of a text in which some are spelled."""
    return re.sub(rb"\\(?:([rt])|x([0-9A-F]{2}))", lambda found: SPELLED.get(found[1]) or bytes.fromhex(found[2].decode()), text.encode())


def pattern_of(text):
    """Returns the pattern of a text in which `…` is any text."""
    return ".*".join(map(re.escape, text.split("…")))


# Comparing

def is_like(printed, expected):
    """Tests whether a text is as the pattern of the expected one says."""
    return re.fullmatch(pattern_of(expected), printed, re.DOTALL) is not None


def checks_in(text):
    """Returns the lines of checks in a text of `trace`."""
    return "".join(line for line in text.splitlines(keepends=True) if line.startswith("  check "))


def differences(case, status, output, errors=None):
    """Yields pairs of what is printed and what is expected, where these differ."""
    printed = output.decode(errors="backslashreplace")
    pairs = [(f"status {status}", f"status {case.status}"), (printed, case.output), (output.hex().upper(), case.digits), (checks_in(printed), case.checks)]
    if errors is not None:
        pairs.append((errors.decode(errors="backslashreplace"), case.errors))
    yield from ((found, expected) for found, expected in pairs if expected is not None and not is_like(found, expected))
    yield from ((printed, f"(without) {text}") for text in case.absent if text in printed)


def by_program(program, case):
    """Returns what differs if the program runs a case. If standard error is expected, it runs once more with one that cannot be written."""
    data = case.plant.encode() + case.data
    done = subprocess.run([program, *case.words], input=data, capture_output=True, timeout=120, cwd=ROOT)
    found = list(differences(case, done.returncode, done.stdout, done.stderr))
    if case.errors is not None:
        with open("/dev/full", "wb") as full:
            done = subprocess.run([program, *case.words], input=data, stdout=subprocess.PIPE, stderr=full, timeout=120, cwd=ROOT)
        found += differences(case, done.returncode, done.stdout)
    return found


def by_reference(case):
    """Returns what differs if the second implementation runs a case. It has no help and no options, and of `trace` the lines of checks and
    faults alone."""
    if {"-h", "--help", *OPTIONS} & {word.partition("=")[0] for word in case.words}:
        return []
    known = fixed(case) if case.words == ["trace"] else case
    return list(differences(known, *reference_answer(case.words, case.plant.encode() + case.data)))


def fixed(case):
    """Returns a case of `trace` of which those lines alone are expected."""
    lines = (case.output or "").replace("…", "").splitlines(keepends=True)
    checks = case.checks or checks_in("".join(lines))
    return replace(case, output=checks + "".join(line for line in lines if line.startswith("fault: ")), checks=None)


def main():
    show_help(__doc__)
    program = os.path.abspath(sys.argv[1]) if len(sys.argv) == 2 else PROGRAM
    files = {path.name: cases_of(path) for path in sorted((ROOT / "tests").glob("*.txt"))}
    cases = [case for of_file in files.values() for case in of_file]
    found = [("the second implementation", case, pair) for case in cases for pair in by_reference(case)]
    is_built = pathlib.Path(program).exists()
    if is_built:
        with ThreadPoolExecutor(os.cpu_count()) as pool:
            answers = pool.map(lambda case: by_program(program, case), cases)
            found += [("the program", case, pair) for case, pairs in zip(cases, answers) for pair in pairs]
    for who, case, (printed, expected) in found:
        print(f"# {case.name}, by {who}\nprinted:\n{printed}\nexpected:\n{expected}")
    for name, of_file in files.items():
        print(f"{name}: {len(of_file)} cases")
    who = "the program and the second implementation" if is_built else "the second implementation (the program is not built)"
    print(f"{len(cases)} cases, {len(found)} differences, by {who}")
    sys.exit(1 if found or not cases else 0)


if __name__ == "__main__":
    main()
