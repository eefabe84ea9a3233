"""Compares the output of --json with the plain output, on each case of tests/ under check, run, trace and serve.

    tools/run ci/json_lines [PROGRAM]     Prints each difference; exits with 1 if there is one.

Each line of the plain output must have one object, in its order. Its member `text` must be the line, and the line that is made again
of the other members must be the same. Statuses and standard error must be the same. The outputs of run, of trace and of serve must
come from the same lines of the script, by the same checks, with the same numbers. After an invalid line only serve goes on.
"""

import json
import os
import re
import subprocess
import sys
from concurrent.futures import ThreadPoolExecutor

from service.reference.resuming import SNAPSHOT
from tools import ROOT, show_help
from tools.ci.cases import cases_of
from tools.compare.program import PROGRAM

COMMANDS = ("check", "run", "trace", "serve")
TYPES = {"10": "DSA-RSP", "13": "DSC-RSP", "16": "DSD-RSP"}
# Members that say which check decided an output, and what it compared.
DECISION = ("line", "check", "check_name", "held", "limit", "needed", "from_frame")
OUTPUTS = ("reply", "drop", "frame", "map")


def answer_of(program, words, data):
    done = subprocess.run([program, *words], input=data, capture_output=True, timeout=120)
    return done.returncode, done.stdout.decode(), done.stderr.decode()


# The plain line of an object

def reply_line(found):
    digits = found["bytes"]
    head = (TYPES[digits[:2]], int(digits[2:6], 16), int(digits[6:8], 16))
    if head != (found["message"], found["transaction"], found["code"]):
        return f"a reply whose members are not those of its bytes: {found}"
    return f"R {found['modem']} {digits}"


def fault_line(found):
    if found["fault"] == "line":
        return f"fault: line {found['line']}"
    if found["fault"] == "plant":
        return " ".join(["fault: plant", str(found["number"]), *([found["detail"]] if "detail" in found else [])])
    return f"fault: {found['fault']}"


def output_line(found):
    """Returns the line of an object of check, run or serve."""
    match found["type"]:
        case "reply":
            return reply_line(found)
        case "drop":
            return f"S {found.get('modem', '-')} {found['cause']}"
        case "frame":
            return " ".join(["F", found["operator"], str(found["frame"]), *found["elements"]])
        case "map":
            return f"MAP {found['frame']} {found['bytes']}"
        case "fault":
            return fault_line(found)
        case "ok":
            return "ok"
    return f"an object of another type: {found}"


def named_in(found):
    """Returns what a reply names, as a remark writes it."""
    names = (("reference", "reference"), ("SFID", "sfid"), ("SID", "sid"), ("parameter", "parameter"))
    return "".join(f", {name} {found[key]}" for name, key in names if key in found)


def about_in(found):
    """Returns what a step without an answer is about, as a remark writes it."""
    if "transaction" in found:
        return f", transaction {found['transaction']}"
    return f", SID {found['sid']} for {found['minislots']} minislots" if "sid" in found else ""


def trace_line(found):
    """Returns the line of an object of trace. Of a remark that says nothing else it is the text."""
    match found["type"]:
        case "line":
            head = f"line {found['line']}: "
            return head + found["text"].removeprefix(head)
        case "check":
            return f"  check {found['check']}, {found['check_name']}"
        case "reply":
            return f"    {found['message']} to {found['modem']}, transaction {found['transaction']}: {found['code_name']}{named_in(found)}"
        case "drop":
            modem = f" to {found['modem']}" if "modem" in found else ""
            return f"    no answer{modem}: {found['cause']}{about_in(found)}"
        case "frame":
            return f"    frame {found['frame']} of {found['operator']}"
        case "map":
            return f"    MAP of frame {found['frame']} made"
        case "comparison":
            numbers = sorted(found[key] for key in DECISION[3:] if key in found)
            return found["text"] if sorted(map(int, re.findall("[0-9]+", found["text"]))) == numbers else f"other numbers: {found}"
        case "remark":
            return found["text"]
        case "fault":
            return fault_line(found)
    return f"an object of another type: {found}"


# Comparing

def objects_in(text):
    """Returns the objects of an output, each of which has a line of its own."""
    return [json.loads(line) for line in text.splitlines()]


def differences(word, plain, objects):
    """Yields what differs between the plain answer of a command and its objects."""
    line_of = trace_line if word == "trace" else output_line
    if plain[0] != objects[0]:
        yield f"status {objects[0]}, without --json {plain[0]}"
    if plain[2] != objects[2]:
        yield f"standard error {objects[2]!r}, without --json {plain[2]!r}"
    lines, found = plain[1].split("\n"), objects_in(objects[1])
    if lines.pop() != "" or len(lines) != len(found):
        yield f"{len(found)} objects for {len(lines)} lines"
    for line, one in zip(lines, found):
        if one["text"] != line:
            yield f"text {one['text']!r} for the line {line!r}"
        if line_of(one) != line:
            yield f"{line_of(one)!r} is made of the object of the line {line!r}"


def decisions(text):
    """Returns the type of each output, its line of the script, and what decided it."""
    return [(found["type"], *(found.get(key) for key in DECISION)) for found in objects_in(text) if found["type"] in OUTPUTS]


def lines_of_service(text, script):
    """Yields each object of serve whose line of the script is none."""
    for found in objects_in(text):
        if found["type"] in OUTPUTS and not 1 <= found["line"] <= script.count(b"\n") + 1:
            yield f"a line that the script does not have: {found}"


def found_in(program, case):
    """Returns all that differs in a case."""
    data = case.plant.encode() + case.data
    answers = {}
    found = []
    for word in COMMANDS:
        plain, objects = answer_of(program, [word], data), answer_of(program, [word, "--json"], data)
        answers[word] = objects[1]
        found += [f"{word}: {difference}" for difference in differences(word, plain, objects)]
    run, trace, serve = (decisions(answers[word]) for word in ("run", "trace", "serve"))
    if run != trace:
        found.append(f"run has the outputs {run}, trace {trace}")
    if run != serve[:len(run)]:
        found.append(f"run has the outputs {run}, serve {serve}")
    found += lines_of_service(answers["serve"], data.partition(b"\n---\n")[2])
    return found


def is_compared(case):
    """Tests whether a case has an input of a plant file and a script that run takes, and that is not large. With --json no command takes a snapshot."""
    is_snapshot = (case.plant.encode() + case.data).startswith(SNAPSHOT)
    return case.words[:1] and case.words[0] in COMMANDS and len(case.plant) + len(case.data) < 300_000 and not is_snapshot


def main():
    show_help(__doc__)
    program = sys.argv[1] if len(sys.argv) == 2 else PROGRAM
    cases = [case for path in sorted((ROOT / "tests").glob("*.txt")) for case in cases_of(path) if is_compared(case)]
    with ThreadPoolExecutor(os.cpu_count()) as pool:
        found = [(case, difference) for case, differing in zip(cases, pool.map(lambda case: found_in(program, case), cases)) for difference in differing]
    for case, difference in found:
        print(f"# {case.name}: {difference}")
    print(f"{len(cases)} cases under {', '.join(COMMANDS)}, {len(found)} differences between --json and the plain lines")
    sys.exit(1 if found or not cases else 0)


if __name__ == "__main__":
    main()
