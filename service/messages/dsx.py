"""Translates messages between words and bytes.

    dsx KIND tid=N WORD..      prints the message in hexadecimal
    dsx flow WORD..            prints a flow encoding, as a plant file has it
    dsx words HEX..            prints each message as words
    dsx words flow HEX..       prints each flow encoding as words
    dsx read HEX..             prints the words, each byte, which TLVs the program refuses, and the first fault that shows in the
                               bytes alone
    dsx read flow HEX..        prints the same of flow encodings
    dsx lines                  copies an input or an output of the program, and writes the words of each message below it
    dsx script                 copies an input of the program in which messages may be words; leaves out comments (#) and indented lines
    dsx names                  prints all words of fields, with their subtypes and names
    dsx split ..               separates a modem's request into what the program takes and the rest: dsx split --help
    dsx join ..                puts the program's reply and the rest together: dsx join --help

KIND is dsa, dsc, dsd, dsa-ack, dsc-ack, or a reply: dsa-rsp, dsc-rsp, dsd-rsp. Acknowledgements and replies have code=N, 0 by default;
dsd has sfid=N.

The fields are in the order of the words, in one encoding; the word `flow` begins another one. Numbers are decimal, or hexadecimal after
0x. type= takes be, nrtps, rtps, ugs or a number; class= takes a name; error= takes SUBTYPE/CODE.

    dsx dsa tid=1 ref=1 set=6 type=ugs size=64 interval=2000 grants=1
    dsx dsa tid=2 ref=1 set=2 reserved=64000 flow ref=1 set=4

Other words make invalid messages: 15=0200 is subtype 15 with these bytes, tlv43=AABB a TLV of type 43 next to the encodings, cut=0701
bytes that end an encoding, rest=1805 bytes that end the message, unused=N reserved bytes that are not 0.

`read` judges a message without the state of an operator. The checks 2, 3, 5, 10 to 12 and 15 to 21 need that state, and the earliest check
decides. It takes each service class to exist, and each interval but 0 to be a frame or longer.

Exit status: 0 success, 2 wrong words or bytes, 6 standard input or output failed, so that output is lost.
"""

import re
import sys

from . import splitting
from .streams import IO_STATUS, MOST_BYTES, InputFault, OutputFault, copied, leave_output, report, write_lines
from .verdicts import first_fault, marks_of
from .words import (FIELDS, KINDS, WordsFault, bytes_of_flow, bytes_of_message, nearest, octets, parts_of_flow, parts_of_message, shortened,
                    words_of)

REQUESTS = ("DSA-REQ", "DSC-REQ", "DSD-REQ")
# A line of TOML: a table, or a key with a value.
OF_PLANT = re.compile(r"\[|melfjits-snapshot |[\w.\"'-]+\s*=")


def shown(data):
    return data.hex().upper() or "-"


def parts(data, is_flow):
    return parts_of_flow(data) if is_flow else parts_of_message(data)


def words_line(data, is_flow=False):
    words = words_of(parts(data, is_flow))
    return " ".join(words) or "-"


def read(data, is_flow):
    """Returns the words, the bytes part by part, and for a request its first fault."""
    found = parts(data, is_flow)
    marks = {} if is_flow else marks_of(data, found)
    lines = [words_line(data, is_flow), ""]
    lines += [part_line(part, marks.get(place)) for place, part in enumerate(found)]
    if found and found[0].text in REQUESTS:
        fault = first_fault(data)
        lines += ["", "nothing in its bytes is at fault" if fault is None else fault]
    return lines


def part_line(part, mark):
    return f"{'  ' * part.depth + part.data.hex().upper():<34}  {part.text}" + (f"  {mark}" if mark else "")


def each(words, lines_of):
    """Yields the lines of each message, or of each flow encoding after the word `flow`."""
    is_flow = words[:1] == ["flow"]
    for text in words[1:] if is_flow else words:
        yield from lines_of(b"" if text == "-" else octets(text, text), is_flow)


def place_of_message(line):
    """Returns where the message begins in a line of an input or output, or None if it has none."""
    found = re.match("([MR] [0-9A-Fa-f]{12} )?", line)
    return found.end() if found.end() > 0 or re.fullmatch("([0-9A-Fa-f]{2})+", line) else None


def lines(texts):
    for line in texts:
        yield line
        place = place_of_message(line)
        if place is not None and line[place:] != "-":
            yield "  " + described(line[place:])


def described(text):
    try:
        return words_line(octets(text, text))
    except WordsFault as fault:
        return f"({fault})"


def script(texts):
    """Yields the plant file as it is, and the script after `---`. An input of `one` has no plant file."""
    held = comments(texts)
    last = held.pop() if held else ""
    if last == "---" or OF_PLANT.match(last):
        yield from [*held, last]
        if last != "---":
            yield from through_dashes(texts)
        yield from spelled(texts)
    else:
        yield from spelled([last])
        yield from spelled(texts)


def comments(texts):
    """Returns the lines up to the first that is neither empty, nor a comment, nor indented. A plant file or a script may begin with them."""
    held, size = [], 0
    for line in texts:
        held.append(line)
        size += len(line) + 1
        if line and not line.startswith((" ", "#", "\t", "\r")):
            break
        if size > MOST_BYTES:
            raise InputFault(f"the first {MOST_BYTES} characters of the input are comments")
    return held


def through_dashes(texts):
    """Yields the lines up to `---`, which ends the plant file."""
    for line in texts:
        yield line
        if line == "---":
            return


def spelled(texts):
    """Yields the lines of a script, with bytes in place of words."""
    for text in texts:
        line = text.split("#")[0].rstrip(" ")
        if line and not line.startswith(" "):
            yield spelled_line(line)


def spelled_line(line):
    """Returns a line in which words were the message."""
    found = re.match("(M [0-9A-Fa-f]{12} )?", line)
    words = line[found.end():].split()
    return line[:found.end()] + shown(bytes_of_message(words)) if words and words[0] in KINDS else line


def names(_):
    for subtype, (word, name, unit) in FIELDS.items():
        yield f"{word + '=':<12} {subtype:>3}  {name}" + (f", {unit}" if unit else "")


def alone(command, words):
    """Checks that a command is given without words."""
    if words:
        raise WordsFault(f"{command} takes no words, and not {shortened(words[0])}")


def some(command, words):
    """Checks that a command is given a message or an encoding."""
    if words in ([], ["flow"]):
        raise WordsFault(f"{command} needs hexadecimal, such as {command} 0F0001180A010200010601060F0102")


def lines_of_words(words):
    """Returns what the command that words are prints, line by line."""
    command, rest = words[0] if words else "--help", words[1:]
    if command in ("-h", "--help"):
        return __doc__.splitlines()
    if command in ("read", "words"):
        some(command, rest)
        return each(rest, read if command == "read" else lambda data, is_flow: [words_line(data, is_flow)])
    if command in ("lines", "script", "names"):
        alone(command, rest)
        return names(rest) if command == "names" else copied(lines if command == "lines" else script)
    if command in ("split", "join"):
        return splitting.lines_of_split(rest) if command == "split" else splitting.lines_of_join(rest)
    if command == "flow":
        return [shown(bytes_of_flow(rest))]
    if command not in KINDS:
        known = [*KINDS, "flow", "words", "read", "lines", "script", "names", "split", "join"]
        raise WordsFault(f"{shortened(command)}: " + nearest(command, "message or command", known))
    return [shown(bytes_of_message(words))]


def status_of(words):
    """Runs a command, and returns its exit status."""
    try:
        write_lines(lines_of_words(words))
        return 0
    except WordsFault as fault:
        report(f"dsx: {fault}")
        return 2
    except InputFault as fault:
        report(f"dsx: {fault}")
    except OutputFault as fault:
        leave_output()
        report(f"dsx: {fault}")
    return IO_STATUS


def main():
    try:
        sys.exit(status_of(sys.argv[1:]))
    except KeyboardInterrupt:
        leave_output()
        sys.exit(130)


if __name__ == "__main__":
    main()
