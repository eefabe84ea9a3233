"""Reads what a channel answers, and writes it for a client: as a line with a number, or as an object of JSON (docs/BRIDGE.md)."""

import json
import re
from dataclasses import dataclass, field

from service.reference.resuming import SNAPSHOT

REPLY = re.compile(r"R ([0-9A-F]{12}) (([0-9A-F]{2})([0-9A-F]{4})([0-9A-F]{2})(?:[0-9A-F]{2})*)")
DROP = re.compile(r"S ([0-9A-F]{12}) (\w+)")
START = re.compile(r"S line (\d+)(?: frame (\d+))?")
FRAME = re.compile(r"F (\w+) (\d+)((?: \S+)*)")
MAP = re.compile(r"MAP (\d+) ([0-9A-F]+)")
NUMBER = re.compile(r"N frame (\d+)")
CHANGE = re.compile(r"P frame (\d+)")
FAULT = re.compile(r"fault: (\w+)(?: .*)?")
MESSAGES = {"10": "DSA-RSP", "13": "DSC-RSP", "16": "DSD-RSP"}


@dataclass(slots=True)
class Output:
    """A line of the channel, or a snapshot. `members` are those of `serve --json`, as far as they are known, without text and line."""
    text: str
    type: str = "other"
    members: dict = field(default_factory=dict)

    def line_for(self, number):
        """Returns the bytes for a client, with the number of its line or `-`. Each line of a snapshot has the number."""
        return "".join(f"{number or '-'} {line}\n" for line in self.text.split("\n")).encode()

    def object_for(self, number):
        """Returns the object for a client. Without a number, it has no member `line`."""
        members = {**self.members, "text": self.text, "type": self.type} | ({"line": number} if number else {})
        return json.dumps(members, sort_keys=True, separators=(",", ":")).encode() + b"\n"


def reply_members(found):
    return {"modem": found[1], "bytes": found[2], "message": MESSAGES.get(found[3], ""), "transaction": int(found[4], 16), "code": int(found[5], 16)}


# The kinds of lines: pattern, type, and the members of what is found.
KINDS = (
    (FRAME, "frame", lambda found: {"operator": found[1], "frame": int(found[2]), "elements": found[3].split()}),
    (MAP, "map", lambda found: {"frame": int(found[1]), "bytes": found[2]}),
    (REPLY, "reply", reply_members),
    (DROP, "drop", lambda found: {"modem": found[1], "cause": found[2]}),
    (FAULT, "fault", lambda found: {"fault": found[1]}),
    (START, "start", lambda found: {"frame": int(found[2])} if found[2] else {}),
    (NUMBER, "number", lambda found: {"frame": int(found[1])}),
    (CHANGE, "change", lambda found: {"frame": int(found[1])}),
)


def read_text(text):
    """Returns the output of a line or a snapshot."""
    for pattern, name, members in KINDS:
        if found := pattern.fullmatch(text):
            return Output(text, name, members(found))
    return Output(text, "snapshot" if text.startswith(SNAPSHOT.decode()) else "other")


def read_output(data):
    """Returns the output of a line or a snapshot, given as bytes. An object of `serve --json` keeps its members, except its line number."""
    text = data.decode("utf-8", "backslashreplace").removesuffix("\n")
    if not text.startswith("{"):
        return read_text(text)
    try:
        members = json.loads(text)
        output = read_text(members.pop("text"))
    except (ValueError, TypeError, KeyError, AttributeError):
        return Output(text)
    members.pop("line", None)
    output.type, output.members = str(members.pop("type", output.type)), {**output.members, **members}
    return output
