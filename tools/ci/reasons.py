"""Checks what the built program writes to standard error, by one case for each mistake.

    tools/run ci/reasons [PROGRAM]     Prints each case that differs, and exits with 1 if one does.
"""

import pathlib
import subprocess
import sys

HERE = pathlib.Path(__file__).resolve().parents[1]
PROGRAM = str(HERE.parent / "crates/plant_program/out/plant_program")
PLANT = (HERE.parent / "examples/plant_p2.toml").read_text()
NO_BAR = "no line is ---, so the whole input was read as the plant file: write --- before the script\n"
USAGE = "The program reads a plant file and a script from standard input: plant_script run < script.txt\n"
NO_BACKOFF = ("warning: plant, line {}: data_start and data_end are 0: modems whose requests collide repeat them at the same minislot, and collide again: "
              "write greater ones, as data_start = 2 and data_end = 8\n")
UNKNOWN = 'unknown operator "C": the operators are A, B'


def changed(old, new):
    """The plant with its first `old` changed to `new`."""
    assert old in PLANT, old
    return PLANT.replace(old, new, 1)


def script(*lines):
    """The plant with a script behind it."""
    return PLANT + "---\n" + "".join(line + "\n" for line in lines)


def line(number, text, wrong):
    """Returns the message of a line of a script after the plant, whose last line is the 34th."""
    return f'line {number + 35} (script line {number}), "{text}": {wrong}\n'


# Words, input, exit status, and standard error: all of it, or what it ends in where it begins with dots.
CASES = [
    ("", "", 2, "..\n" + USAGE),
    ("walk", "", 2, "..\n" + USAGE),
    ("history", "", 2, "..\n" + USAGE),
    ("history C", script("T"), 2, UNKNOWN + "\n"),
    ("run", "", 3, "the input is empty: write a plant file, a line --- and a script to standard input\n"),
    ("run", "---\nT\n", 3, "no plant file before the line ---: write the plant file first\n"),
    ("run", "[plant]\nT\n", 3, "..\n" + NO_BAR),
    ("run", "[plant]\r\n---\r\n", 3, "..\nline 2: --- is followed by a carriage return (CRLF): end lines with LF alone\n"),
    ("run", PLANT, 0, NO_BAR),
    ("check", PLANT, 0, NO_BACKOFF.format(1)),
    ("check", changed("ucd_count = 1", "ucd_count = 1\ndata_end = 8"), 0, ""),
    ("check", changed("[plant]", "[plant"), 3, '..: "[plant"\n' + NO_BAR),
    ("check", changed("frame_us = 2000\n", ""), 3, "plant, line 1: frame_us is missing: it must be an integer from 1 to 1000000\n"),
    ("check", changed("inbox = 4", "inbox = 0"), 3, "operator[0] (A), line 17: inbox must be an integer from 1 to 256, not 0\n"),
    ("check", changed('"020000000002"', '"02000000002"'), 3, 
     'operator[0] (A), line 21: modems[1] must be 12 hexadecimal digits, not "02000000002" (11 digits)\n'),
    ("check", changed("[40, 32]", "[39, 32]"), 3,
     "operators A (line 12) and B (line 25): slices overlap: minislots 8 to 39 and 39 to 70\n"),
    ("check", changed("[513, 528]", "[272, 528]"), 3, 
     "operators A (line 14) and B (line 27): sids overlap: SIDs 257 to 272 and 272 to 528\n"),
    ("check", changed("[513, 768]", "[512, 768]"), 3, 
     "operators A (line 13) and B (line 26): sfids overlap: SFIDs 257 to 512 and 512 to 768\n"),
    ("check", changed("020000000003", "020000000002"), 3,
     "modem 020000000002 is listed twice: operator[0].modems[1] (line 21) and operator[1].modems[0] (line 34)\n"),
    ("check", changed("elements = 8", "elements = 226"), 3,
     "a MAP could need 241 elements, and has at most 240: 234 from elements, 2 for each of the 2 operators, and 3: "
     "lower elements by 1 in total\n"),
    ("check", changed("budget = 32", "budget = 33"), 3, "operator[0] (A), line 18: budget 33 is too large: the slice has 32 minislots\n"),
    ("check", PLANT + '[[operator.flow]]\nmodem = "020000000003"\nencoding = "0601070A0400419CE0"\n', 3,
     "operator[1] (B), line 31: budget 32 is too small: 68 minislots are committed to provisioned flows\n"),
    ("run", changed("head = 8", "head = 8\nack_wayt = 9") + "---\n", 0, "warning: line 4: unknown key plant.ack_wayt (did you mean ack_wait?)\n"),
    ("threads", changed("[plant]", "[[flow]]\n[plant]") + "---\n", 0,
     "warning: line 1: unknown table [[flow]] (did you mean [[operator.flow]]?)\n"),
    ("check", changed("[plant]", "[[classes]]\n[plant]"), 0,
     "warning: line 1: unknown table [[classes]] (did you mean class?)\n" + NO_BACKOFF.format(2)),
    ("check", script("T", "T C"), 4, line(2, "T C", UNKNOWN)),
    ("run", script("T\r"), 4, line(1, "T\\r", "it ends in a carriage return (CRLF): end lines with LF alone")),
    ("run", script("T\tA"), 4, line(1, "T\\tA", "it has a tab: separate fields by one space")),
    ("run", script("M 0200000000001 00"), 4,
     line(1, "M 0200000000001 00", 'address must be 12 hexadecimal digits, not "0200000000001" (13 digits)')),
    ("run", script("M 020000000009 00"), 4, line(1, "M 020000000009 00", "unknown modem 020000000009: add it to modems of an operator")),
    ("run", script("Q 020000000001 70000 1"), 4, line(1, "Q 020000000001 70000 1", 'sid must be an integer from 0 to 65535, not "70000"')),
    ("run", script("T", "Z 1 8/32/32 40/32/32"), 4,
     line(2, "Z 1 8/32/32 40/32/32", "operator A is at frame 1: new slices must start at a later frame, not at 1")),
    ("threads", script("T", "Z 2 8/33/32 40/32/32"), 4,
     line(2, "Z 2 8/33/32 40/32/32", "operators A and B: slices overlap: minislots 8 to 40 and 40 to 71")),
    ("capture", script("T", "Z 1 8/32/32 40/32/32"), 4,
     line(2, "Z 1 8/32/32 40/32/32", "operator A is at frame 1: new slices must start at a later frame, not at 1")),
    ("trace", script("T", "Z 1 8/32/32 40/32/32"), 4,
     line(2, "Z 1 8/32/32 40/32/32", "operator A is at frame 1: new slices must start at a later frame, not at 1")),
    ("run", script("K"), 4, line(1, "K", "K is a line of serve --state, resume, restore and snapshot: a script after a plant file has M, Q, T and Z")),
    ("run plant.toml", "", 2, "..\nA command reads standard input, or a file with the option --input: plant_script run --input script.txt\n"),
    ("trace", changed("head = 8", "head = 8\nack_wayt = 9") + "---\n", 0, "warning: line 4: unknown key plant.ack_wayt (did you mean ack_wait?)\n"),
    ("trace", PLANT, 0, NO_BAR),
    ("history A", script("T", "Z 2 8/32/33 40/32/32"), 4,
     line(2, "Z 2 8/32/33 40/32/32", "operator A: budget 33 is too large: the slice has 32 minislots")),
    ("one", "0F0001\n\n0F0\n", 4, 'line 3, "0F0": message is invalid: it must have an even number of hexadecimal digits, not 3\n'),
    ("one", b"T\n\xff\n", 6, "the input is not UTF-8: byte 3 is invalid\n"),
    ("one", "\n" * 1_048_577, 6, "the input is too long: at most 1048576 bytes are read\n"),
    ("--help", "", 0, ""),
    ("run", script("T"), 0, ""),
]


def is_right(words, data, status, wanted):
    """Whether the program, run by these words on this input, ends with this status and says what is wanted."""
    data = data if isinstance(data, bytes) else data.encode()
    done = subprocess.run([PROGRAM, *words.split()], input=data, capture_output=True, timeout=120)
    told = done.stderr.decode()
    said = told.endswith(wanted[2:]) if wanted.startswith("..") else told == wanted
    if said and done.returncode == status:
        return True
    print(f"WRONG  {words}: expected status {status} and {wanted!r}, got {done.returncode} and {told!r}")
    return False


def is_right_output():
    """Whether a write that fails is told as one."""
    with open("/dev/full", "wb") as full:
        done = subprocess.run([PROGRAM, "check"], input=PLANT.encode(), stdout=full, stderr=subprocess.PIPE, timeout=120)
    return (done.returncode, done.stderr) == (6, b"writing to standard output failed: the output is incomplete\n")


def main():
    global PROGRAM
    if sys.argv[1:] in (["-h"], ["--help"]):
        print(__doc__.strip())
        return 0
    if sys.argv[1:]:
        PROGRAM = sys.argv[1]
    right = [is_right(*case) for case in CASES] + [is_right_output()]
    print(f"{sum(right)} of {len(right)} reasons are right")
    return 0 if all(right) else 1


if __name__ == "__main__":
    sys.exit(main())
