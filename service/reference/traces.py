"""Runs the command `trace`: of each message, the check that decided it. The other lines of the program are not compared."""

import re
from collections import Counter

from . import coverage
from .book import StepRefused
from .program import Core, Fault, LINE, judged_plant, judged_script, text_of

UNREAD = ("Empty", "NotOurs", "Short")
NAMES = (
    "unread", "transaction of the CMTS", "repeated", "transactions full", "faulty", "unknown class", "no encoding", "identifiers differ", "not together",
    "no identifier", "unknown flow", "not owner", "flow waits", "wrong set type", "no parameter set", "active not within admitted",
    "admitted not within provisioned", "flows full", "no SFID free", "no SID free", "elements over", "minislots over", "accepted",
)  # fmt: skip


def traced(data):
    """Returns the exit status of `trace`, and the lines that are fixed: those of checks, and that of a fault."""
    try:
        plant, script = judged_plant(text_of(data))
        steps = judged_script(plant, script)
    except Fault as fault:
        return fault.status, fault.last_line + "\n"
    core, text = Core(plant), ""
    for line, step in steps:
        try:
            text += "".join(f"  check {check}, {NAMES[check]}\n" for check in decided(core, step))
        except StepRefused:
            return LINE, f"{text}fault: line {line}\n"
    coverage.met("status 0 of trace")
    return 0, text


def decided(core, step):
    """Does a step, and answers the check that decided it, if one did."""
    before = Counter(coverage.COUNTS)
    lines = core.step(*step)
    if any(line.startswith("S ") and line.split(" ")[2] in UNREAD for line in lines):
        return [0]
    found = [re.fullmatch("(?:DSA|DSC|DSD) check ([0-9]+)(?:: .*)?", what) for what in coverage.COUNTS - before]
    return [int(check.group(1)) for check in found if check]


def fixed(text):
    """Returns the lines of the program's text that are fixed."""
    lines = text.decode().splitlines(keepends=True)
    return "".join(line for line in lines if line.startswith(("  check ", "fault: "))).encode()
