#!/usr/bin/env python3
"""Adds a best effort flow for a modem, requests minislots for it, and prints its grants. A client of plant-bridge (docs/BRIDGE.md).

    plant_client.py SOCKET MODEM MINISLOTS

SOCKET is the socket of the modem's operator, and MODEM the address. It ends once all minislots are granted, and somebody else has to tick
the channel. In a real MAC layer, the modem sends the messages that are made here, and the reply goes to the modem.

Exit status: 1 no connection, or it has ended; 2 wrong arguments; 3 the flow or the request is refused.
"""

import os
import socket
import sys

DSA_REQ, DSA_RSP, DSA_ACK = 15, 16, 17
FLOW, SFID, SID = 24, 2, 3
# The flow: reference 1, admitted and active, best effort (docs/FORMATS.md, Upstream service flow encoding).
ENCODING = bytes.fromhex("010200010601060F0102")


class Bridge:
    """A connection to the bridge. It counts the lines that it writes, as the bridge does."""

    def __init__(self, path):
        self.socket = socket.socket(socket.AF_UNIX, socket.SOCK_STREAM)
        self.socket.connect(path)
        self.answers, self.number = self.socket.makefile("r", encoding="ascii", errors="replace"), 0

    def write(self, line):
        """Writes a line, and returns its number."""
        self.socket.sendall(line.encode() + b"\n")
        self.number += 1
        return self.number

    def read(self):
        """Returns the next answer: the number of its line or `-`, and its words."""
        line = self.answers.readline()
        if not line.endswith("\n"):
            sys.exit("plant_client: the bridge has closed the connection")
        number, *words = line.split()
        return number, words

    def answer_of(self, number):
        """Returns the words of the answer to a line, and skips other answers."""
        while True:
            found, words = self.read()
            if found == str(number):
                return words


def refused(words):
    print(f"plant_client: {' '.join(words)}", file=sys.stderr)
    sys.exit(3)


def values_of(data):
    """Returns the values of a list of TLVs by their types."""
    values = {}
    while data:
        values[data[0]], data = data[2:2 + data[1]], data[2 + data[1]:]
    return values


def add_flow(bridge, modem):
    """Adds the flow, acknowledges the response, and returns the SID of the flow."""
    transaction = os.getpid() % 0x8000
    header = transaction.to_bytes(2, "big")
    request = bytes([DSA_REQ]) + header + bytes([FLOW, len(ENCODING)]) + ENCODING
    words = bridge.answer_of(bridge.write(f"M {modem} {request.hex().upper()}"))
    reply = bytes.fromhex(words[2]) if words[0] == "R" else b""
    if len(reply) < 4 or reply[0] != DSA_RSP or reply[3] != 0:
        refused(words)
    bridge.write(f"M {modem} {(bytes([DSA_ACK]) + header + bytes([0])).hex().upper()}")
    flow = values_of(values_of(reply[4:])[FLOW])
    sid = int.from_bytes(flow[SID], "big")
    print(f"flow {int.from_bytes(flow[SFID], 'big')} has SID {sid}", flush=True)
    return sid


def print_grants(bridge, modem, sid, minislots):
    """Requests minislots, and prints the grants until all are granted."""
    number = bridge.write(f"Q {modem} {sid} {minislots}")
    while minislots > 0:
        found, words = bridge.read()
        if found == str(number):
            refused(words)
        for element in words[3:] if words[0] == "F" else ():
            fields = element.split("/")
            if fields[0] == str(sid) and len(fields) == 4:
                print(f"frame {words[2]}: {fields[3]} minislots from minislot {fields[2]} on", flush=True)
                minislots -= int(fields[3])


def main():
    if len(sys.argv) != 4 or not sys.argv[3].isdigit():
        print("usage: plant_client.py SOCKET MODEM MINISLOTS", file=sys.stderr)
        sys.exit(2)
    path, modem, minislots = sys.argv[1:]
    try:
        bridge = Bridge(path)
        print_grants(bridge, modem, add_flow(bridge, modem), int(minislots))
    except OSError as fault:
        sys.exit(f"plant_client: {path}: {fault.strerror}")


if __name__ == "__main__":
    main()
