"""Writes named inputs that reach every command and every step of the program: written by hand, a few lines each.

    tools/run compare/handwritten_inputs            the names, each with the arguments it is for
    tools/run compare/handwritten_inputs NAME       the input of this name
    tools/run compare/handwritten_inputs --met      what the second implementation reached in all of them, and how often
    tools/run compare/handwritten_inputs --compare [PROGRAM]    compares the built program with the second implementation on all of them

tools/compare/failed_allocations.sh runs the program on them.
"""

import sys

from service.reference import coverage
from service.reference.answers import reference_answer
from service.reference.encodings import tlv
from tools import show_help
from tools.compare.program import PROGRAM, program_answer
from tools.generator import message_bytes
from tools.generator.message_bytes import flow, spelled
from tools.generator.plant_text import channel_text, operator_text

A1, A2, B1 = "020000000001", "020000000002", "020000000003"
SET_TYPE, PRIORITY, SUSTAINED, RESERVED, SCHEDULING = 6, 7, 8, 10, 15
POLLING, GRANT_SIZE, GRANT_INTERVAL, GRANTS = 17, 19, 20, 22


# Messages

def dsa(modem, tid, *tlvs):
    return message(modem, message_bytes.dsa(tid, *tlvs))


def dsc(modem, tid, *tlvs):
    return message(modem, message_bytes.dsc(tid, *tlvs))


def dsd(modem, tid, sfid):
    return message(modem, message_bytes.dsd(tid, sfid))


def dsa_ack(modem, tid, code=0):
    return message(modem, message_bytes.dsa_ack(tid, code))


def dsc_ack(modem, tid, code=0):
    return message(modem, message_bytes.dsc_ack(tid, code))


def message(modem, data):
    return f"M {modem} {data.hex().upper() if data else '-'}"


def request(modem, sid, minislots):
    return f"Q {modem} {sid} {minislots}"


BEST_EFFORT = {SET_TYPE: 6, SCHEDULING: 2}
POLLED = {SET_TYPE: 6, SCHEDULING: 4, POLLING: 4000}
UNSOLICITED = {SET_TYPE: 6, SCHEDULING: 6, GRANT_SIZE: 32, GRANT_INTERVAL: 4000, GRANTS: 2}


# Plants

def channel(frame_minislots=72, head=8, **more):
    return channel_text(frame_minislots, head, **{"ack_wait": 2, "resends": 1, "hold": 3, **more})


def operator(name, modems, start, length, first, last, elements=12, provisions=(), **more):
    text = operator_text(name, modems, (start, length), (first, last), elements, **{"inbox": 2, **more})
    return text + "".join(f'[[operator.flow]]\nmodem = "{modem}"\nencoding = "{fields(stated)}"\n' for modem, stated in provisions)


def fields(stated):
    return spelled(stated.items()).hex()


GOLD = '\n[[class]]\nname = "gold"\nencoding = "' + fields({PRIORITY: 5, RESERVED: 64_000}) + '"\n'


def two_operators(**of_a):
    return (channel() + GOLD + operator("A", [A1, A2], 8, 32, 257, 272, **of_a)
            + operator("B", [B1], 44, 28, 513, 528, policy='"aged"\nstep = 2'))


def script(plant, *lines):
    return plant + "---\n" + "".join(f"{line}\n" for line in lines)


# The inputs

def additions():
    return script(
        two_operators(transactions=16),
        dsa(A1, 1, flow({1: 1, **BEST_EFFORT})), dsa_ack(A1, 1),
        dsa(A1, 2, flow({1: 1, SET_TYPE: 4, RESERVED: 8000}), flow({1: 1, SET_TYPE: 2, RESERVED: 64_000})), dsa_ack(A1, 2),
        dsa(A2, 3, flow({1: 1, 4: b"gold\0", SET_TYPE: 2})), dsa_ack(A2, 3, 4),
        dsa(B1, 3, flow({1: 9, **UNSOLICITED})), dsa_ack(B1, 3), "T")


def refused_additions():
    twice = flow({1: 1, SET_TYPE: 2})
    return script(
        two_operators(transactions=64, flows=2, provisions=[(A1, {SET_TYPE: 1})]),
        dsa(A1, 0x8000), dsa(A1, 1, b"\x18\x05\x01"), dsa(A1, 2, tlv(22, b"")), dsa(A1, 3, flow({1: 1, 15: b"\x02\x00"})),
        dsa(A1, 4, flow({1: 1, 7: 8})), dsa(A1, 5, flow({1: 1, 4: b"none\0"})), dsa(A1, 6),
        dsa(A1, 7, flow({1: 1, SET_TYPE: 2}), flow({1: 2, SET_TYPE: 4})), dsa(A1, 8, twice, twice), dsa(A1, 9, flow(BEST_EFFORT)),
        dsa(A1, 10, flow({1: 1, SCHEDULING: 2})), dsa(A1, 11, flow({1: 1, SET_TYPE: 0})), dsa(A1, 12, flow({1: 1, SET_TYPE: 6, SCHEDULING: 4})),
        dsa(A1, 13, flow({1: 1, SET_TYPE: 2}), flow({1: 1, SET_TYPE: 4, PRIORITY: 1})),
        dsa(A1, 14, flow({1: 1, **UNSOLICITED, GRANTS: 100})), dsa(A1, 15, flow({1: 1, **BEST_EFFORT, RESERVED: 99_000_000})),
        dsa(A1, 16, flow({1: 1, **BEST_EFFORT})), dsa(A2, 17, flow({1: 2, **BEST_EFFORT})))


def no_identifiers():
    """Returns a script in which no SFID is free, no SID is free, or no transaction is left."""
    few = two_operators(transactions=2).replace("sfids = [257, 272]", "sfids = [257, 257]")
    few = few.replace("\nsids = [513, 528]", "\nsids = [513, 513]") + f'[[operator.flow]]\nmodem = "{B1}"\nencoding = "060101"\n'
    lines = [dsa(modem, tid, flow({1: 1, **BEST_EFFORT})) for modem, tid in ((A1, 1), (A1, 2), (A1, 3), (B1, 1), (B1, 2))]
    return script(few, *lines, dsc(B1, 3, flow({2: 513, **BEST_EFFORT})), dsc(A1, 4), dsd(A1, 5, 257))


def changes():
    return script(
        two_operators(transactions=16, provisions=[(A2, {SET_TYPE: 3, PRIORITY: 5, RESERVED: 64_000}), (A2, {SET_TYPE: 1})]),
        dsa(A1, 1, flow({1: 1, **BEST_EFFORT})), dsa_ack(A1, 1), request(A1, 258, 9),
        dsc(A1, 2, flow({2: 259, **POLLED})), dsc_ack(A1, 2), dsc(A1, 3, flow({2: 259, **UNSOLICITED})), dsc_ack(A1, 3, 1),
        dsc(A2, 4, flow({2: 257, SET_TYPE: 6, PRIORITY: 4})), dsc_ack(A2, 4), dsc(A2, 5, flow({2: 257, SET_TYPE: 0})), dsc_ack(A2, 5),
        dsc(A2, 6, flow({2: 258, SET_TYPE: 2})), dsc_ack(A2, 6, 9), dsc(A2, 7, flow({2: 258, SET_TYPE: 4}), flow({2: 258, SET_TYPE: 2})),
        dsc_ack(A2, 7), "T")


def refused_changes():
    return script(
        two_operators(transactions=64, provisions=[(A1, {SET_TYPE: 7, PRIORITY: 5, RESERVED: 64_000}), (A1, {SET_TYPE: 1, SCHEDULING: 4, POLLING: 4000})]),
        dsc(A1, 1, flow({2: 999, **BEST_EFFORT})), dsc(A2, 2, flow({2: 257, **BEST_EFFORT})), dsc(A1, 3, flow({2: 257, **BEST_EFFORT})),
        dsc(A1, 4, flow({2: 257, **BEST_EFFORT})), dsc_ack(A1, 3), dsc(A1, 5, flow({2: 257, SET_TYPE: 1})),
        dsc(A1, 6, flow({2: 257, SET_TYPE: 6, SCHEDULING: 6})), dsc(A1, 7, flow({2: 257, SET_TYPE: 2}), flow({2: 257, SET_TYPE: 4, RESERVED: 1})),
        dsc(A1, 8, flow({2: 257, SET_TYPE: 6, PRIORITY: 6})), dsc(A1, 9, flow({2: 258, **POLLED, POLLING: 2000})),
        dsc(A1, 10, flow({SET_TYPE: 0})), dsc(A1, 11, flow({2: 258, 22: b""})), dsc(A1, 12, flow({2: 258, 4: b"none\0"})), dsc(A1, 13),
        dsc(A1, 14, flow({2: 257, SET_TYPE: 2}), flow({2: 258, SET_TYPE: 4})), dsc(A1, 15, *[flow({2: 257, SET_TYPE: 2})] * 3),
        dsa(A2, 16, flow({1: 1, SET_TYPE: 2})), dsa_ack(A2, 16), dsc(A2, 17, flow({2: 259, **UNSOLICITED, GRANTS: 20})),
        dsc(A2, 18, flow({2: 259, **BEST_EFFORT, RESERVED: 99_000_000})), dsc(A2, 0xFFFF, b"\x18\xFF"))


def deletions():
    return script(
        two_operators(transactions=16, provisions=[(A1, {SET_TYPE: 7})]),
        dsd(A1, 0x9000, 257), dsd(A1, 1, 999), dsd(A2, 2, 257), dsd(A1, 3, 257), dsd(A1, 3, 258),
        dsa(A1, 4, flow({1: 1, **BEST_EFFORT})), dsd(A1, 5, 257), dsd(A1, 4, 257), dsa_ack(A1, 4), dsd(A1, 6, 257), "T", "T", "T", "T")


def acknowledgements():
    return script(
        two_operators(transactions=16),
        dsa_ack(A1, 1), dsa(A1, 1, flow({1: 1, **BEST_EFFORT})), dsa_ack(A2, 1), dsc_ack(A1, 1), dsa_ack(A1, 1, 255), dsa_ack(A1, 1),
        dsa(A1, 2, flow({1: 1, **BEST_EFFORT})), "T", "T", dsa_ack(A1, 2), dsc(A1, 3, flow({2: 257, **POLLED})), dsc_ack(A1, 3, 1),
        dsc(A1, 4, flow({2: 257, **POLLED})), dsc(A1, 4), dsc_ack(A1, 4), dsc(A1, 4), dsc(A1, 2), message(A1, b"\x14\x00\x04"), message(A1, b""), message(A1, b"\x16\x00\x04\x00"))


def timers():
    """Returns repeats, and responses that are retransmitted, abandoned and dropped."""
    return script(
        two_operators(transactions=16, provisions=[(A2, {SET_TYPE: 1})]),
        dsa(A1, 1, flow({1: 1, **BEST_EFFORT})), dsa(A1, 1), dsc(A2, 1, flow({2: 257, **BEST_EFFORT})), dsd(A2, 2, 999),
        "T", "T", "T", "T", "T", dsa(A1, 1, flow({1: 1, **BEST_EFFORT})), "T A", "T A", dsa_ack(A1, 1), dsa(A1, 1), "T A", "T A", "T A", "T A")


def frames():
    """Returns a frame with each kind of flow, requests of each kind, grants short, long and pending."""
    return script(
        two_operators(provisions=[
            (A1, {SET_TYPE: 7, PRIORITY: 1}), (A1, {SET_TYPE: 7, SCHEDULING: 3, PRIORITY: 2, POLLING: 4000, RESERVED: 64_000}),
            (A2, {SET_TYPE: 7, SCHEDULING: 4, POLLING: 2000}), (A2, {**UNSOLICITED, SET_TYPE: 7})]),
        request(A1, 257, 50), request(A1, 258, 3), request(A2, 259, 20), request(A2, 260, 1), request(A1, 259, 1), request(A1, 0, 1), "T",
        request(A1, 257, 0), "T", "T", request(A1, 257, 65_535), "T", "T A", "T A", "T B")


def other_slices():
    return script(
        two_operators(provisions=[(A1, {SET_TYPE: 7, RESERVED: 400_000})]), request(A1, 257, 60), "Z 1 40/32/8 8/28/28", "T",
        dsa(A1, 1, flow({1: 1, **BEST_EFFORT, RESERVED: 640_000})), "T", "Z 4 8/8/8 44/28/28", dsa(A1, 2, flow({1: 1, **BEST_EFFORT, RESERVED: 640_000})),
        "T", "T", "T", "Z 2 8/8/8 44/28/28")


def slices_that_meet():
    return script(two_operators(), "T", "Z 9 8/32/32 39/20/20", "T")


def many_operators():
    """Returns a MAP of 32 operators, each with a poll due and a grant pending."""
    modems = [f"0200000001{place:02X}" for place in range(32)]
    plant = channel(104) + "".join(
        operator(f"Op{place}", [modem], 8 + 3 * place, 3, 1 + 2 * place, 2 + 2 * place, flows=1, elements=3,
                 provisions=[(modem, {SET_TYPE: 7, SCHEDULING: 4, POLLING: 2000})]) for place, modem in enumerate(modems))
    return script(plant, *(request(modem, 1 + 2 * place, 9) for place, modem in enumerate(modems)), "T")


def last_frame():
    return script(channel(first_frame=4_294_967_294) + operator("A", [A1], 8, 64, 1, 4), "Z 4294967295 16/32/32", "T", "T", "T")


def messages_of_one():
    lines = [dsa(A1, 1, flow({1: 1, **BEST_EFFORT})), dsa_ack(A1, 1), dsc(A1, 2, flow({2: 257, **POLLED})), dsc_ack(A1, 2, 1), dsd(A1, 3, 257),
             dsd(A1, 3, 257), dsa(A1, 4, flow({1: 1, 15: b"\x02\x00"})), dsa(A1, 3), message(A1, b"")]
    return "".join(line.split(" ")[2] + "\n" for line in lines)


def faulty_message_of_one():
    return messages_of_one() + "0F000\n"


def faulty_line():
    return script(two_operators(), "T", request(A1, 65_536, 1))


def plant_no_toml():
    return "[plant\n"


def plant_key_missing():
    return two_operators().replace('policy = "strict"\n', "")


def plant_bad_value():
    return two_operators(provisions=[(A1, {SET_TYPE: 7, PRIORITY: 5}), (A1, {SET_TYPE: 2})])


def plant_slices_meet():
    return two_operators().replace("slice = [44, 28]", "slice = [39, 28]")


def plant_address_twice():
    return two_operators().replace(B1, A2)


def plant_provisioned_over():
    return two_operators(provisions=[(A1, {SET_TYPE: 7, RESERVED: 9_000_000})])


INPUTS = {
    "additions": ("run", "history A"), "refused_additions": ("run",), "no_identifiers": ("run",), "changes": ("run", "history A"),
    "refused_changes": ("run",), "deletions": ("run",), "acknowledgements": ("run", "history A"), "timers": ("run",), "frames": ("run", "history B"),
    "other_slices": ("check", "run", "history A"), "slices_that_meet": ("run",), "many_operators": ("check", "run"), "last_frame": ("run", "history A"),
    "messages_of_one": ("one",), "faulty_message_of_one": ("one",), "faulty_line": ("check", "run", "history A", "history C"),
    "plant_no_toml": ("check",), "plant_key_missing": ("check",), "plant_bad_value": ("check", "run"), "plant_slices_meet": ("check",),
    "plant_address_twice": ("check",), "plant_provisioned_over": ("check",),
}


def all_inputs():
    """Yields the name, the arguments and the input of each."""
    for name, orders in INPUTS.items():
        for order in orders:
            yield name, order.split(" "), globals()[name]().encode()


def met():
    for _, words, data in all_inputs():
        reference_answer(words, data)
    for what, times in sorted(coverage.COUNTS.items()):
        print(f"{times:9} {what}")


def compare(program):
    differing = [(name, words) for name, words, data in all_inputs()
                 if program_answer(program, words, data) != reference_answer(words, data)]
    for name, words in differing:
        print(f"{name} {' '.join(words)}: the program and the second implementation differ")
    print(f"{len(list(all_inputs())) - len(differing)} of {len(list(all_inputs()))} inputs agree")
    sys.exit(1 if differing else 0)


def main():
    show_help(__doc__)
    if len(sys.argv) == 1:
        for name, words, _ in all_inputs():
            print(name, *words)
    elif sys.argv[1:] == ["--met"]:
        met()
    elif sys.argv[1] == "--compare" and len(sys.argv) <= 3:
        compare(sys.argv[2] if len(sys.argv) == 3 else PROGRAM)
    elif len(sys.argv) == 2 and sys.argv[1] in INPUTS:
        sys.stdout.write(globals()[sys.argv[1]]())
    else:
        sys.exit(__doc__)


if __name__ == "__main__":
    main()
