"""Compares what tshark reads in captures with what `run` prints, for each example that has a plant and a script.

    tools/run compare/captures_in_tshark [PROGRAM]     Needs python3 and tshark (Debian: apt-get install tshark).

tshark has to read a packet for each message of a modem, each reply and each MAP. Each has the right check of its header, and none of the
CMTS's is malformed. Each has the sender, receiver, type, transaction ID and confirmation code of the script and of the lines of `run`. A
reply also has the SIDs of its flows. A MAP has its time, its header, and the SID, IUC and offset of each element, among which are the
grants of the lines `F`. Prints a line for each input; exits with 1 if one differs.
"""

import re
import shutil
import subprocess
import sys
import tempfile

from service.messages.words import KINDS
from service.reference.encodings import number_of, split_tlvs
from service.reference.messages import FLOW
from service.reference.plant import read_plant
from service.reference.program import split_input
from tools import EXAMPLES, show_help
from tools.compare.program import PROGRAM, program_answer

CMTS, ALL_MODEMS = "020000000000", "01E02F000001"
MAP = 3
BY_TYPE = {kind.number: kind for kind in KINDS.values()}
CODES = [f"docsis_{kind}.confcode" for kind in ("dsarsp", "dsaack", "dscrsp", "dscack", "dsdrsp")]
SID_OF_FLOW = "docsis_tlv.sflow.sid"
HEADER = ("docsis_mgmt.upchid", "docsis_map.ucdcount", "docsis_map.numie", "docsis_map.allocstart", "docsis_map.acktime")
ELEMENT = ("docsis_map.sid", "docsis_map.iuc", "docsis_map.offset")
GOOD_CHECK, ERROR = "1", 0x00800000
FIELDS = ["frame.time_epoch", "docsis_mgmt.src", "docsis_mgmt.dst", "docsis_mgmt.type", "docsis_mgmt.tranid", *CODES, SID_OF_FLOW, *HEADER,
          *ELEMENT, "docsis.hcs.status", "_ws.malformed", "_ws.expert.severity"]


# What tshark reads

def seen(capture):
    """Returns the packets of a capture, each as its fields with their values."""
    with tempfile.NamedTemporaryFile(suffix=".pcap") as file:
        file.write(capture)
        file.flush()
        words = ["tshark", "-r", file.name, "-T", "fields", "-E", "separator=|", "-E", "aggregator=,", *[w for f in FIELDS for w in ("-e", f)]]
        done = subprocess.run(words, stdout=subprocess.PIPE, stderr=subprocess.PIPE, text=True, timeout=120)
    if done.returncode:
        raise SystemExit(f"tshark fails: {done.stderr}")
    return [dict(zip(FIELDS, line.split("|"))) for line in done.stdout.splitlines()]


def values(packet, field):
    """Returns the numbers of a field, in decimal or after 0x."""
    return [int(value, 0) for value in packet[field].split(",") if value]


def address(text):
    return text.replace(":", "").upper()


def read_of(packet):
    """Returns what tshark reads of a packet, in the form of `message` and `map_of`."""
    ends = (address(packet["docsis_mgmt.src"]), address(packet["docsis_mgmt.dst"]), *values(packet, "docsis_mgmt.type"))
    if ends[2] == MAP:
        header = tuple(number for field in HEADER for number in values(packet, field))
        return ends, round(float(packet["frame.time_epoch"]) * 1_000_000), header, list(zip(*[values(packet, field) for field in ELEMENT]))
    codes = [code for field in CODES for code in values(packet, field)]
    return ends, values(packet, "docsis_mgmt.tranid"), codes, values(packet, SID_OF_FLOW)


def is_malformed(packet):
    return bool(packet["_ws.malformed"]) or any(severity >= ERROR for severity in values(packet, "_ws.expert.severity"))


# What the script and `run` have

def message(source, target, data):
    """Returns of a message its sender, receiver and type, its transaction ID and confirmation code, and the SIDs of its flows."""
    kind = BY_TYPE.get(data[0])
    if kind is None:
        return (source, target, data[0]), [], [], []
    place, fixed = 1, {}
    for word, width in kind.fixed:
        fixed[word] = number_of(data[place:place + width])
        place += width
    code = [fixed["code"]] if "code" in fixed else []
    flows = [value for number, value in split_tlvs(data[place:])[0] if kind.has_tlvs and number == FLOW]
    return (source, target, data[0]), [fixed["tid"]], code, [number_of(value) for flow in flows for number, value in split_tlvs(flow)[0] if number == 3]


def is_whole(data):
    """Tests whether a message has all of its fixed part, or is of a type that has none."""
    kind = BY_TYPE.get(data[0])
    return kind is None or len(data) > sum(width for _, width in kind.fixed)


def map_of(frame, data, frame_us):
    """Returns of a MAP, which goes to all modems, its time and its header, and its elements."""
    words = [number_of(data[place:place + 4]) for place in range(16, len(data), 4)]
    header = (data[0], data[1], data[2], number_of(data[4:8]), number_of(data[8:12]))
    return (CMTS, ALL_MODEMS, MAP), frame * frame_us % (2**32 * 1_000_000), header, [(w >> 18, w >> 14 & 15, w & 16383) for w in words]


def sent_by(script, status, lines):
    """Returns the messages that modems sent before the step that is refused, if one is."""
    end = int(lines[-1].split(" ")[2]) - 1 if status else len(script)
    fields = [line.split(" ") for line in script[:end]]
    return [(who, bytes.fromhex(data)) for kind, who, data in (f for f in fields if f[0] == "M") if data != "-"]


def printed_by(lines, frame_us):
    """Yields the replies and MAPs that `run` prints."""
    for kind, who, *rest in (line.split(" ") for line in lines):
        if kind == "R":
            yield message(CMTS, who, bytes.fromhex(rest[0]))
        elif kind == "MAP":
            yield map_of(int(who), bytes.fromhex(rest[0]), frame_us)


def grants_by(lines):
    """Returns the elements that `run` prints in the lines of frames, by frame: SID, IUC and first minislot."""
    grants = {}
    for line in lines:
        if line.startswith("F "):
            _, frame, *elements = re.fullmatch(r"F (.+?) (\d+)((?: \d+/(?:\d+/\d+/\d+|P))*)", line).groups()
            grants.setdefault(int(frame), []).extend(tuple(map(int, e.split("/")[:3])) for e in elements[0].split() if not e.endswith("/P"))
    return grants


# Both

def differences(text, status, lines, file):
    """Yields what tshark reads that differs from the script and from `run`."""
    plant_text, script = split_input(text)
    frame_us = read_plant(plant_text).frame_us
    packets = seen(file)
    received, sent = [p for p in packets if address(p["docsis_mgmt.src"]) == CMTS], [p for p in packets if address(p["docsis_mgmt.src"]) != CMTS]
    yield from (f"a wrong check of the header: {p}" for p in packets if p["docsis.hcs.status"] != GOOD_CHECK)
    yield from (f"malformed: {p}" for p in received if is_malformed(p))
    yield from unequal("from the CMTS", [read_of(p) for p in received], list(printed_by(lines, frame_us)))
    messages = sent_by(script, status, lines)
    if len(messages) != len(sent):
        yield f"{len(sent)} messages are read, {len(messages)} were sent"
    whole = [(read_of(p), message(who, CMTS, data)) for p, (who, data) in zip(sent, messages) if is_whole(data)]
    yield from unequal("to the CMTS", [read[:3] for read, _ in whole], [right[:3] for _, right in whole])
    elements = {p_map[1]: p_map[3] for p_map in map(read_of, received) if p_map[0][2] == MAP}
    for frame, grants in grants_by(lines).items():
        time = frame * frame_us
        if time in elements and not set(grants) <= set(elements[time]):
            yield f"frame {frame}: tshark reads {elements[time]}, `run` has {grants}"


def unequal(what, read, right):
    if len(read) != len(right):
        yield f"{what}: {len(read)} packets, not {len(right)}"
    yield from (f"{what}: tshark reads {one}, and not {other}" for one, other in zip(read, right) if one != other)


def faults_of(program, text):
    status, out = program_answer(program, ["run"], text.encode())
    captured, file = program_answer(program, ["capture"], text.encode())
    lines = out.decode().splitlines()
    if status != captured:
        return [f"status {captured}, not {status}"]
    if out.startswith(b"fault: ") and file == out:
        return []
    return list(differences(text, status, lines, file))


def inputs():
    """Yields each input with its name."""
    for example in sorted(EXAMPLES.rglob("*.txt")):
        text = example.read_text()
        if "---" in text.split("\n"):
            yield str(example.relative_to(EXAMPLES)), text


def main():
    show_help(__doc__)
    program = sys.argv[1] if len(sys.argv) == 2 else PROGRAM
    if not shutil.which("tshark"):
        sys.exit("tshark is not installed (Debian: apt-get install tshark)")
    differing = 0
    for name, text in inputs():
        found = faults_of(program, text)
        differing += bool(found)
        print(f"{'WRONG' if found else 'right'}  {name}")
        for line in found:
            print(f"       {line}")
    sys.exit(differing > 0)


if __name__ == "__main__":
    main()
