"""Compares the program with the second implementation on cut and changed messages. Checks that the other operator is not affected.

    tools/run compare/crafted_messages [PROGRAM]

Each run has one message to operator A of the plant of two operators, while a modem of B has a flow and sends a bandwidth request. The
messages are every prefix of a message of each kind and every small change: every other value of every byte of a DSA-REQ, every single bit
of the others. The program has to print what the second implementation prints. B's replies, B's frame and B's history have to be those
without the message. Prints a table, and exits with 1 at the first run that differs.
"""

import sys

from service.reference.answers import reference_answer
from tools import EXAMPLES, show_help
from tools.compare.program import PROGRAM, program_answer

P2 = (EXAMPLES / "plant_p2.toml").read_text()
A1, B1 = "020000000001", "020000000003"
DSA = "0F0001180A010200010601060F0102"
OF_B = [f"M {B1} {DSA}", f"M {B1} 11000100", f"Q {B1} 513 3"]
ADDED = [f"M {A1} {DSA}", f"M {A1} 11000100"]
# A name, the lines of A before it, the message, and whether every value of each byte is tried.
MESSAGES = (
    ("DSA-REQ", [], DSA, True),
    ("DSA-REQ of two encodings", [], "0F0002180A010200010601020F0102180A010200010601040F0102", False),
    ("DSA-REQ of unsolicited grants", [], "0F000318170102000106010613020020140400000FA01601020F0106", False),
    ("DSA-ACK", [f"M {A1} {DSA}"], "11000100", False),
    ("DSC-REQ", ADDED, "120002180F0204000001010601060701020F0102", False),
    ("DSC-ACK", ADDED + [f"M {A1} 1200021809020400000101060106"], "14000200", False),
    ("DSD-REQ", ADDED, "150003000000000101", False),
)


def prefixes(message):
    return [message[:length] for length in range(len(message))]


def changed_bytes(message):
    return [message[:place] + bytes([value]) + message[place + 1:]
            for place in range(len(message)) for value in range(256) if value != message[place]]


def changed_bits(message):
    return [message[:place] + bytes([message[place] ^ 1 << bit]) + message[place + 1:] for place in range(len(message)) for bit in range(8)]


def script(lines, message=None):
    sent = [] if message is None else [f"M {A1} {message.hex().upper() if message else '-'}"]
    return (P2 + "---\n" + "\n".join([*lines, *OF_B, *sent, "T"]) + "\n").encode()


def of_b(answered):
    """Returns the lines of B's modem and B's frame."""
    status, out = answered
    return status, [line for line in out.decode().splitlines() if line.startswith((f"R {B1}", f"S {B1}", "F B "))]


def differing(program, lines, message):
    """Returns what differs with a message, or None."""
    data, without = script(lines, message), script(lines)
    answer = program_answer(program, ["run"], data)
    if answer != reference_answer(["run"], data):
        return "the program and the second implementation differ"
    if of_b(answer) != of_b(reference_answer(["run"], without)):
        return "B notices"
    if program_answer(program, ["history", "B"], data) != reference_answer(["history", "B"], without):
        return "B's history is another"
    return None


def main():
    show_help(__doc__)
    program = sys.argv[1] if len(sys.argv) == 2 else PROGRAM
    total = 0
    for name, lines, text, every_value in MESSAGES:
        message = bytes.fromhex(text)
        crafted = prefixes(message) + (changed_bytes(message) if every_value else changed_bits(message)) + [message]
        for one in crafted:
            found = differing(program, lines, one)
            if found:
                sys.exit(f"{name} as {one.hex().upper()}: {found}")
        print(f"{len(crafted):6} of {name}")
        total += len(crafted)
    print(f"{total:6} crafted messages: the second implementation agrees, and B notices none")


if __name__ == "__main__":
    main()
