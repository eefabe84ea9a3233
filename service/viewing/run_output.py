"""Reads the lines that `run` or a service printed.

A service is `serve`, with a folder or without one, `resume` or `restore`. docs/FORMATS.md has their output.
"""

import functools
import re
from dataclasses import dataclass, field

from service.reference.encodings import number_of
from service.reference.messages import RESPONSE

RESPONSE_NAMES = {number: f"{kind}-RSP" for kind, number in RESPONSE.items()}
NULL = 7
# A plant has at most so many operators.
MOST_OPERATORS = 32
# So much of a line is quoted.
QUOTED = 60


class NoOutput(Exception):
    """Reports that the input is not what `run` or a service printed."""


@dataclass
class RunOutput:
    """What a run printed. Frames are by operator: `frames[name][number]` are the elements as `run` printed them.

    `faults` are the lines `fault: ..` without their first word, and `is_ended_by_fault` says whether one of them is the last line. The rest
    is of a service: `starts` are numbers of lines and of frames (None where operators were at different frames), `changes` and `renumberings`
    are the frames of the answers to `P` and `N`, `snapshots` counts the answers to `K`. `replaced` counts frames whose number came again.
    """
    names: list = field(default_factory=list)
    frames: dict = field(default_factory=dict)
    replies: list = field(default_factory=list)
    causes: list = field(default_factory=list)
    maps: int = 0
    frame_minislots: int = 0
    head: int = 0
    faults: list = field(default_factory=list)
    is_ended_by_fault: bool = False
    starts: list = field(default_factory=list)
    changes: list = field(default_factory=list)
    renumberings: list = field(default_factory=list)
    snapshots: int = 0
    replaced: int = 0

    def numbers(self):
        return sorted({number for frames in self.frames.values() for number in frames})

    @property
    def is_of_service(self):
        """Tests whether the output has what `run` does not print: an answer of a service, or a line after a fault."""
        return bool(self.starts or self.changes or self.renumberings or self.snapshots
                    or len(self.faults) > 1 or self.faults and not self.is_ended_by_fault)


# Lines. Each reader takes the fields of a line of its form.

def read_frame(run, name, number, elements):
    if name not in run.frames:
        if len(run.names) == MOST_OPERATORS:
            raise NoOutput(f"a page has at most {MOST_OPERATORS} operators, and {name} is one more")
        run.names.append(name)
        run.frames[name] = {}
    part_of(elements)
    run.replaced += int(number) in run.frames[name]
    run.frames[name][int(number)] = elements


def read_reply(run, address, message):
    data = bytes.fromhex(message)
    run.replies.append((address, RESPONSE_NAMES[data[0]], data[3]))


def read_cause(run, address, cause):
    run.causes.append((address, cause))


def read_map(run, _number, body):
    data = bytes.fromhex(body)
    run.maps += 1
    if run.maps == 1:
        read_frame_of_map(run, data)


def read_frame_of_map(run, data):
    """Reads the frame's length and its head, as the first MAP says them."""
    elements = [number_of(data[place:place + 4]) for place in range(16, len(data), 4)]
    offsets = [(element & 0x3FFF, element >> 14 & 15, element >> 18) for element in elements]
    run.frame_minislots = [offset for offset, code, sid in offsets if code == NULL and sid == 0][0]
    run.head = offsets[1][0] if offsets[0][2] == 0x3FFF else 0


def read_fault(run, what):
    run.faults.append(what)


def read_start(run, line, frame):
    run.starts.append((int(line), frame and int(frame)))


def read_change(run, frame):
    run.changes.append(int(frame))


def read_renumbering(run, frame):
    run.renumberings.append(int(frame))


def read_nothing(_run):
    pass


ADDRESS, NUMBER = "([0-9A-Fa-f]{12})", "([0-9]{1,20})"
FORMS = [(re.compile(form), reader) for form, reader in (
    (f"F ([0-9A-Za-z]{{1,16}}) {NUMBER} (.+)", read_frame), (f"MAP {NUMBER} ([0-9A-Fa-f]+)", read_map), (f"R {ADDRESS} ([0-9A-Fa-f]+)", read_reply),
    (f"S {ADDRESS} ([0-9A-Za-z]+)", read_cause), ("fault: (.+)", read_fault), (f"S line {NUMBER}(?: frame {NUMBER})?", read_start),
    (f"P frame {NUMBER}", read_change), (f"N frame {NUMBER}", read_renumbering), ("", read_nothing))]
SNAPSHOT, END = re.compile("melfjits-snapshot [0-9]+ ([0-9]+)"), re.compile("end [0-9]+ [0-9]+")


def read_output(lines):
    """Reads an output, or raises NoOutput with the number and the text of the line that has no form of an output."""
    run, numbered = RunOutput(), enumerate((line.rstrip("\n") for line in lines), 1)
    for place, line in numbered:
        try:
            read_line(run, line, numbered)
        except (ValueError, LookupError) as fault:
            raise NoOutput(f"line {place} is no line that `run` or `serve` prints: {line[:QUOTED]}") from fault
        except NoOutput as fault:
            raise NoOutput(f"line {place}: {fault}: {line[:QUOTED]}") from fault
    return run


def read_line(run, line, rest):
    """Reads a line. The first line of a snapshot takes its other lines from `rest`."""
    begins = SNAPSHOT.fullmatch(line)
    if begins:
        pass_snapshot(int(begins[1]), rest)
        run.snapshots += 1
    else:
        found, reader = next(((found, reader) for form, reader in FORMS if (found := form.fullmatch(line))), (None, None))
        if found is None:
            raise ValueError(line)
        reader(run, *found.groups())
    run.is_ended_by_fault = line.startswith("fault: ") or run.is_ended_by_fault and line == ""


def pass_snapshot(left, rest):
    """Takes the lines of a snapshot after its first one. `left` is the number of bytes of its plant file, in which any line may be."""
    for _, line in rest:
        if left > 0:
            left -= len(line.encode()) + 1
        elif END.fullmatch(line):
            return
    raise NoOutput("the snapshot has no last line `end ..`")


SPAN = re.compile(r"(\d+)/(\d+)/(\d+)/([1-9]\d*)")
PENDING = re.compile(r"(\d+)/P")


@dataclass(frozen=True)
class Part:
    """An operator's part of a frame: its spans (SID, IUC, start, length), and the SIDs whose grants are pending."""
    spans: tuple
    pending: tuple

    @property
    def start(self):
        return self.spans[0][2]

    @property
    def length(self):
        return sum(length for _, _, _, length in self.spans)

    @property
    def given(self):
        """Returns the number of minislots of grants and polls."""
        return sum(length for sid, _, _, length in self.spans if sid)


@functools.lru_cache(maxsize=100_000)
def part_of(elements):
    spans, pending = [], []
    for element in elements.split(" "):
        span, waits = SPAN.fullmatch(element), PENDING.fullmatch(element)
        if span:
            spans.append(tuple(map(int, span.groups())))
        elif waits:
            pending.append(int(waits.group(1)))
        else:
            raise NoOutput(f"`{element}` is no element of a frame")
    if not spans:
        raise NoOutput("a frame without a span")
    return Part(tuple(spans), tuple(pending))


def frame_of(run, budgets):
    """Returns a frame's minislots and those of its head: as the plant file says, or the first MAP, or as far as the spans go."""
    if budgets.plant:
        return budgets.plant.frame_minislots, budgets.plant.head
    ends = (part.start + part.length for frames in run.frames.values() for part in map(part_of, set(frames.values())))
    return run.frame_minislots or max(ends, default=1), run.head
