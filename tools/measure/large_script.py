"""Writes large inputs of `run`, with which the program is measured.

    tools/run measure/large_script operators [OPERATORS]
    tools/run measure/large_script flows TICKS [FLOWS]
    tools/run measure/large_script standing FLOWS ROUNDS
    tools/run measure/large_script maps OPERATORS FLOWS TICKS

`operators` has OPERATORS operators (8 by default, at most 32) with 16 modems each, and a script of 20,000 lines, about one megabyte. Each
modem adds a flow, then sends bandwidth requests and changes the flow in turn. All frames are ticked after each round. The operators share
1,024 minislots, 208 elements (160 if there are 32) and 8,000 identifiers, so with more of them fewer flows are admitted.

`flows` has one operator with 1,024 provisioned flows, or FLOWS. As many are active as its 234 elements allow: 117 best effort flows of 2
elements each, in proportion if there are fewer flows. All of these request more than is granted, and then TICKS frames are ticked. Two
inputs that differ in TICKS give the cost of a tick.

`standing` has one operator with FLOWS idle provisioned flows. In each of ROUNDS rounds its modem adds a flow, acknowledges the reply and
deletes the flow, with a tick after each 16. Two inputs that differ in ROUNDS give the cost of a round, and of a line of history.

`maps` has OPERATORS operators, each with FLOWS active flows that request, and TICKS ticks of all of them. Two inputs that differ in TICKS
give the cost of a tick's frames and MAP.
"""

import sys

from tools import show_help
from tools.generator.plant_text import channel_text, operator_text

LINES = 20_000


def addresses(place):
    return [f"02{place + 1:02X}000000{modem + 1:02X}" for modem in range(16)]


def change(sfid, tid, kilobits):
    sets = f"0204{sfid:08X}0601060701030804{kilobits:08X}09040000BB800F01020A04000000640B020040C81000000000000000000000000000000000"
    return f"12{tid:04X}18{len(sets) // 2:02X}{sets}"


def line(turn, first, modem, address):
    sfid = first + modem % 13
    tid = 100 + turn
    if turn == 0:
        return f"M {address} 0F0001180A010200010601060F0102"
    if turn == 1:
        return f"M {address} 11000100"
    if turn % 4 in (1, 2):
        return f"Q {address} {sfid} {(turn * 7 + modem) % 60 + 1}"
    if turn % 4 == 0:
        return f"M {address} 14{tid - 1:04X}00"
    return f"M {address} {change(sfid, tid, 100_000 + turn * modem)}"


def of_operators(operators=8):
    text = channel_text(1024, 0, ack_wait=4, hold=2)
    minislots, identifiers = 1024 // operators, 8000 // operators
    # A MAP has at most 240 elements: those of the operators, 2 for each operator, and 3.
    elements = min(208, 237 - 2 * operators) // operators
    for place in range(operators):
        slice_, ids = (place * minislots, minislots), (1 + place * identifiers, (place + 1) * identifiers)
        text += operator_text(f"OP{place + 1}", addresses(place), slice_, ids, elements, flows=32, transactions=64)
    lines, turn = [], 0
    while len(lines) < LINES:
        for place in range(operators):
            lines += [line(turn, 1 + place * identifiers, modem, address) for modem, address in enumerate(addresses(place))]
        lines.append("T")
        turn += 1
    return text + "---\n" + "\n".join(lines[:LINES]) + "\n"


def provisioned(modem, set_type):
    return f'[[operator.flow]]\nmodem = "{modem}"\nencoding = "0601{set_type:02X}0F0102"\n'


def of_flows(ticks, flows=1024):
    modem = "020000000001"
    active = 117 * flows // 1024
    text = channel_text(4096, 0)
    text += operator_text("A", [modem], (0, 4096), (1, 2000), 234, flows=1024, transactions=64)
    text += "".join(provisioned(modem, 7 if place % 8 == 0 and place < 8 * active else 1) for place in range(flows))
    asked = "".join(f"Q {modem} {1 + place} {60000 + place}\n" for place in range(active))
    return text + "---\n" + asked + "T\n" * ticks


def of_standing(flows, rounds):
    modem = "020000000001"
    text = channel_text(4096, 0, ack_wait=4, hold=1)
    text += operator_text("A", [modem], (0, 4096), (1, 2000), 234, flows=1024, transactions=64)
    text += provisioned(modem, 1) * flows
    lines = []
    for turn in range(rounds):
        added, deleted = 2 * turn % 30_000 + 1, 2 * turn % 30_000 + 2
        lines += [f"M {modem} 0F{added:04X}180A010200010601060F0102", f"M {modem} 11{added:04X}00",
                  f"M {modem} 15{deleted:04X}0000{flows + 1:08X}"]
        if turn % 16 == 15:
            lines.append("T")
    return text + "---\n" + "\n".join(lines) + "\n"


def of_maps(operators, flows, ticks):
    text, asked = channel_text(4096, 0), ""
    for place in range(operators):
        modem = f"0200000000{place:02X}"
        identifiers = (1 + place * 100, 100 + place * 100)
        text += operator_text(f"OP{place}", [modem], (place * 4096 // operators, 4096 // operators), identifiers, 2 * flows, flows=flows)
        text += provisioned(modem, 7) * flows
        asked += "".join(f"Q {modem} {identifiers[0] + flow} {60000 + flow}\n" for flow in range(flows))
    return text + "---\n" + asked + "T\n" * ticks


def main():
    show_help(__doc__)
    if sys.argv[1:2] == ["operators"] and len(sys.argv) in (2, 3):
        sys.stdout.write(of_operators(*map(int, sys.argv[2:])))
    elif sys.argv[1:2] == ["flows"] and len(sys.argv) in (3, 4):
        sys.stdout.write(of_flows(*map(int, sys.argv[2:])))
    elif sys.argv[1:2] == ["standing"] and len(sys.argv) == 4:
        sys.stdout.write(of_standing(*map(int, sys.argv[2:])))
    elif sys.argv[1:2] == ["maps"] and len(sys.argv) == 5:
        sys.stdout.write(of_maps(*map(int, sys.argv[2:])))
    else:
        sys.exit(__doc__)


if __name__ == "__main__":
    main()
