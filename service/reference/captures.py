"""Runs the command `capture`: writes a run as a pcap file of DOCSIS management frames."""

import zlib

from .book import StepRefused
from .coverage import met
from .program import Core, Fault, LINE, judged_plant, judged_script, text_of

CMTS, ALL_MODEMS = bytes.fromhex("020000000000"), bytes.fromhex("01E02F000001")
MAP, DYNAMIC_SERVICE = 3, range(15, 23)
LONGEST = 65_511


def captured(data):
    """Returns the exit status of `capture`, and the file; or the line of a fault."""
    try:
        plant, script = judged_plant(text_of(data))
        steps = judged_script(plant, script)
    except Fault as fault:
        return fault.status, (fault.last_line + "\n").encode()
    core, capture = Core(plant), Capture(plant)
    for _, step in steps:
        try:
            lines = core.step(*step)
        except StepRefused:
            return LINE, capture.file
        capture.add(step, lines)
    met("status 0 of capture")
    return 0, capture.file


class Capture:
    """A file so far. A packet other than a MAP has the time at which the frame of the next MAP begins."""

    def __init__(self, plant):
        self.next, self.frame_us = plant.first_frame, plant.frame_us
        self.file = little(0xA1B2C3D4, 4) + little(2, 2) + little(4, 2) + bytes(8) + little(65_541, 4) + little(143, 4)

    def add(self, step, lines):
        what, *detail = step
        if what == "arrive" and isinstance(detail[2], bytes):
            self.message(CMTS, bytes.fromhex(detail[1]), detail[2])
        for kind, who, *rest in (line.split(" ") for line in lines):
            if kind == "R":
                self.message(bytes.fromhex(who), CMTS, bytes.fromhex(rest[0]))
            elif kind == "MAP":
                self.next = int(who)
                self.packet(ALL_MODEMS, CMTS, MAP, bytes.fromhex(rest[0]))
                self.next += 1

    def message(self, target, source, data):
        if data:
            self.packet(target, source, data[0], data[1:])

    def packet(self, target, source, kind, payload):
        if len(payload) > LONGEST:
            return
        frame = framed(target, source, kind, payload)
        seconds, microseconds = divmod(self.next * self.frame_us, 1_000_000)
        self.file += b"".join(little(number, 4) for number in (seconds % 2**32, microseconds, len(frame), len(frame))) + frame


def framed(target, source, kind, payload):
    """Returns a management message in its MAC frame."""
    version = 2 if kind in DYNAMIC_SERVICE else 1
    body = target + source + (6 + len(payload)).to_bytes(2, "big") + bytes([0, 0, 3, version, kind, 0]) + payload
    header = b"\xC2\x00" + (len(body) + 4).to_bytes(2, "big")
    return header + little(header_sum(header), 2) + body + little(zlib.crc32(body), 4)


def header_sum(data):
    """Returns the CRC of X.25."""
    rest = 0xFFFF
    for byte in data:
        rest ^= byte
        for _ in range(8):
            rest = rest >> 1 ^ (0x8408 if rest & 1 else 0)
    return rest ^ 0xFFFF


def little(number, width):
    return number.to_bytes(width, "little")
