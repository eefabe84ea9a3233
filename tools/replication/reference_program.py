"""Answers lines as they come by the second implementation, as `plant_script resume` does: for tests, where the program is not built.

It does not know the line P.

    python3 -m tools.replication.reference_program resume
"""

import sys

from service.reference.program import Fault, judged_script
from service.reference.resuming import plant_begun, snapshot_begun
from service.reference.saving import snapshot_of
from service.reference.services import line_of
from service.replication.plant_process import SNAPSHOT

BAR = b"---\n"


def read_beginning(lines):
    """Returns the core and the text of the plant file that the input begins with."""
    first = next(lines, b"")
    is_snapshot = first.startswith(SNAPSHOT)
    bars, text = 2 if is_snapshot else 1, first
    for line in lines:
        text += line
        bars -= line == BAR
        if not bars:
            break
    return (snapshot_begun if is_snapshot else plant_begun)(text)


def answer_of_line(core, plant_text, number, line):
    """Returns the answer to a line: a snapshot, or what its steps output, and its number if it is invalid."""
    if line == b"K":
        return snapshot_of(core, plant_text) or f"fault: line {number}\n"
    out = []
    try:
        core.run(judged_script(core.plant, [line_of(line)]), lambda text: out.append(text + "\n"))
    except Fault:
        out.append(f"fault: line {number}\n")
    return "".join(out)


def answer_lines(lines, out):
    core, plant_text, _ = read_beginning(lines)
    for number, line in enumerate(lines, 1):
        out.write(answer_of_line(core, plant_text, number, line.removesuffix(b"\n")).encode())
        out.flush()


def main():
    try:
        answer_lines(iter(sys.stdin.buffer), sys.stdout.buffer)
    except Fault as fault:
        print(fault.last_line)
        sys.exit(fault.status)


if __name__ == "__main__":
    main()
