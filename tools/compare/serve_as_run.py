"""Compares `serve` with `run` on each example that has a plant and a script.

    tools/run compare/serve_as_run [PROGRAM]

`serve` has to print what `run` prints, and to continue after an invalid line. Then each valid script gets invalid lines between its
lines: `serve` has to print the same, and one line more for each of them, with its number. Last, the lines are written one at a time
through a pipe, and the answer to each is read before the next is written. So an answer waits neither for another line nor for the end of
the input. Prints a line for each input; exits with 1 if one differs.
"""

import subprocess
import sys

from tools import EXAMPLES, show_help
from tools.compare.program import PROGRAM, program_answer

INVALID = [b"X", b"M 020000000001 0", b"Q 0200000000FF 1 1", b"T Nobody", b"T " + 5000 * b"A", b"\xff\xfe", b"Z 1"]


def split(text):
    """Returns the lines of the plant file up to `---`, and those of the script."""
    lines = text.split(b"\n")
    bar = lines.index(b"---") + 1
    return lines[:bar], lines[bar:]


def serves_as_run(program, text):
    """Tests whether `serve` prints what `run` does, up to where `run` ends."""
    status, ran = program_answer(program, ["run"], text)
    got, served = program_answer(program, ["serve"], text)
    if status == 3:
        return (got, served) == (status, ran)
    return got == 0 and served.startswith(ran) and (status != 0 or served == ran)


def continues_after_invalid_lines(program, text):
    """Tests whether invalid lines are reported by their numbers and change nothing."""
    status, ran = program_answer(program, ["run"], text)
    if status != 0:
        return True
    plant, script = split(text)
    mixed, faults = [], []
    for place, line in enumerate(script):
        mixed += [INVALID[place % len(INVALID)], line]
        faults.append(b"fault: line %d" % len(mixed[:-1]))
    got, served = program_answer(program, ["serve"], b"\n".join(plant + mixed))
    lines = served.split(b"\n")
    reported = [line for line in lines if line.startswith(b"fault: ")]
    rest = b"\n".join(line for line in lines if not line.startswith(b"fault: "))
    return got == 0 and reported == faults and rest == ran


def answers_at_once(program, text):
    """Tests whether each line of a valid script is answered before the next is written."""
    status, _ran = program_answer(program, ["run"], text)
    if status != 0:
        return True
    plant, script = split(text)
    with subprocess.Popen([program, "serve"], stdin=subprocess.PIPE, stdout=subprocess.PIPE) as served:
        served.stdin.write(b"\n".join(plant) + b"\n")
        for number, line in enumerate(script, 1):
            # (the line after it is invalid: its error line marks the end of this answer)
            served.stdin.write(line + b"\nX\n")
            served.stdin.flush()
            while not served.stdout.readline().startswith(b"fault: line %d" % (2 * number)):
                pass
        served.stdin.close()
        return served.stdout.read() == b"" and served.wait() == 0


def main():
    show_help(__doc__)
    program = sys.argv[1] if len(sys.argv) == 2 else PROGRAM
    wrong = 0
    for example in sorted(EXAMPLES.rglob("*.txt")):
        text = example.read_bytes()
        if b"---" not in text.split(b"\n"):
            continue
        for test in serves_as_run, continues_after_invalid_lines, answers_at_once:
            well = test(program, text)
            wrong += not well
            print(f"{'same' if well else 'DIFFERS'}: {example.relative_to(EXAMPLES)} ({test.__name__})")
    return 1 if wrong else 0


if __name__ == "__main__":
    sys.exit(main())
