"""Runs the commands of the program: what each prints, and its exit status."""

import re

from .book import LAST_FRAME, Share, StepRefused, arrive, open_book, tick, unfit, work
from .coverage import MetFault, met
from .maps import map_of
from .plant import PlantFault, is_address, read_plant

MOST_INPUT = 1_048_576
WORDS, PLANT, LINE, IO = 2, 3, 4, 6
HELP = "The words are: one, check, run, serve, threads, capture, trace, history OP\n"

PLANT_OF_ONE = """
[plant]
frame_minislots = 72
head = 8
frame_us = 2000
bytes_per_minislot = 16
short_max = 4
channel = 1
ucd_count = 1
[[operator]]
name = "A"
slice = [8, 32]
sfids = [257, 512]
sids = [257, 272]
flows = 4
transactions = 4
inbox = 4
budget = 32
elements = 8
policy = "strict"
modems = ["020000000001", "020000000002"]
"""
MODEM_OF_ONE = "020000000001"


class Fault(MetFault):
    def __init__(self, status, last_line):
        super().__init__(f"status {status}", status=status, last_line=last_line)


def answer(words, data):
    """Returns the exit status and the text for the program's arguments and the bytes of its input."""
    out = []
    try:
        do_words(words, data, out)
        met(f"status 0 of {words[0]}")
        return 0, "".join(line + "\n" for line in out)
    except Fault as fault:
        return fault.status, "".join(line + "\n" for line in out) + fault.last_line + "\n"


def do_words(words, data, out):
    if words and words[-1] in ("--help", "-h"):
        out.append(HELP)
    elif words == ["one"]:
        do_one(text_of(data), out)
    elif words == ["check"]:
        do_check(text_of(data), out)
    elif words == ["run"]:
        do_run(text_of(data), out)
    elif words == ["threads"]:
        do_threads(text_of(data), out)
    elif len(words) == 2 and words[0] == "history":
        do_history(words[1], text_of(data), out)
    else:
        raise Fault(WORDS, "fault: words")


def text_of(data):
    if len(data) > MOST_INPUT:
        raise Fault(IO, "fault: io")
    try:
        return data.decode("utf-8")
    except UnicodeDecodeError as fault:
        raise Fault(IO, "fault: io") from fault


def lines_of(text):
    """Returns the lines. Each ends with LF, which the last may lack."""
    lines = text.split("\n")
    return lines[:-1] if lines[-1] == "" else lines


# one

def do_one(text, out):
    messages = [message_of_one(place, line) for place, line in enumerate(lines_of(text), 1) if line]
    book = open_book(*plant_of_one())
    for message in messages:
        for output in arrive(book, MODEM_OF_ONE, message) + work(book):
            out.append(hexadecimal(output[2]) if output[0] == "R" else f"S {output[2]}")


def plant_of_one():
    plant = read_plant(PLANT_OF_ONE)
    return plant, plant.rows[0]


def message_of_one(place, line):
    message = message_of(line)
    if message is None:
        met("line fault: one")
        raise Fault(LINE, f"fault: line {place}")
    return message


def message_of(field):
    """Returns the bytes that a field has: `-` none, else hexadecimal; None if it has none."""
    if field == "-":
        return b""
    if re.fullmatch("([0-9A-Fa-f]{2})+", field) is None:
        return None
    return bytes.fromhex(field)


def hexadecimal(data):
    return data.hex().upper() if data else "-"


# check, run, threads, history

def do_check(text, out):
    plant, script = judged_plant(text)
    judged_script(plant, script)
    out.append("ok")


def do_run(text, out):
    plant, script = judged_plant(text)
    Core(plant).run(judged_script(plant, script), out.append)


def do_threads(text, out):
    """Returns the lines of `run`, those of each operator together, in their order, then the MAPs. A fault is printed alone."""
    plant, script = judged_plant(text)
    lines = []
    Core(plant).run(judged_script(plant, script), lines.append)
    for row in plant.rows:
        out.extend(line for line in lines if is_of(row, *line.split(" ")[:2]))
    out.extend(line for line in lines if line.startswith("MAP "))


def is_of(row, kind, who):
    """Tests whether a line is an operator's: a reply or a cause of one of its modems, or its frame."""
    return kind in ("R", "S") and who in row.modems or kind == "F" and who == row.name


def do_history(name, text, out):
    plant, script = judged_plant(text)
    names = [row.name for row in plant.rows]
    if name not in names:
        raise Fault(WORDS, "fault: words")
    core = Core(plant)
    try:
        core.run(judged_script(plant, script), lambda line: None)
    finally:
        out.extend(core.histories[names.index(name)])


def judged_plant(text):
    plant, script = split_input(text)
    try:
        return read_plant(plant), script
    except PlantFault as fault:
        raise Fault(PLANT, f"fault: plant {fault.number} {fault.detail}".rstrip()) from fault


def split_input(text):
    """Returns the plant file up to the first line `---`, and the lines of the script after it."""
    lines = text.split("\n")
    if "---" not in lines:
        return text, []
    place = lines.index("---")
    return "".join(line + "\n" for line in lines[:place]), lines_of("\n".join(lines[place + 1:]))


def judged_script(plant, lines):
    """Returns the steps of a script with the number of each step's line."""
    steps = []
    for place, line in enumerate(lines, 1):
        if line == "":
            continue
        of_line = steps_of(plant, line.split(" "))
        if of_line is None:
            met(f"line fault: {line[0] if line[0] in 'MQTZ' else 'other'}")
            raise Fault(LINE, f"fault: line {place}")
        steps += [(place, step) for step in of_line]
    return steps


def steps_of(plant, fields):
    """Returns the steps of a line, or None if it is invalid."""
    if fields[0] == "M" and len(fields) == 3:
        return heard(plant, fields[1], message_of(fields[2]))
    if fields[0] == "Q" and len(fields) == 4:
        numbers = [number_of(field) for field in fields[2:]]
        return heard(plant, fields[1], None if None in numbers else tuple(numbers))
    if fields[0] == "T" and len(fields) == 1:
        return [("tick", place) for place in range(len(plant.rows))]
    if fields[0] == "T" and len(fields) == 2:
        return [("tick", place) for place, row in enumerate(plant.rows) if row.name == fields[1]] or None
    if fields[0] == "Z" and len(fields) == 2 + len(plant.rows):
        shares = [share_of(field) for field in fields[2:]]
        start = number_of(fields[1], 10, LAST_FRAME)
        return None if start is None or None in shares else [("slices", start, shares)]
    return None


def heard(plant, address, what):
    """Returns the steps of a message or a request: it arrives, and its operator works."""
    if what is None or not is_address(address):
        return None
    for place, row in enumerate(plant.rows):
        if address.upper() in row.modems:
            return [("arrive", place, address.upper(), what), ("work", place)]
    return None


def number_of(field, most_digits=5, greatest=65_535):
    if re.fullmatch("[0-9]+", field) is None or len(field) > most_digits or int(field) > greatest:
        return None
    return int(field)


def share_of(field):
    numbers = [number_of(part) for part in field.split("/")]
    return None if len(numbers) != 3 or None in numbers else Share(*numbers)


# The core: all operators' books side by side, and the MAPs

class Core:
    def __init__(self, plant, books=None):
        self.plant = plant
        self.books = books or [open_book(plant, row) for row in plant.rows]
        self.histories = [[] for _ in plant.rows]
        self.parts = {}

    def run(self, steps, write):
        for line, step in steps:
            try:
                for text in self.step(*step):
                    write(text)
            except StepRefused as refused:
                raise Fault(LINE, f"fault: line {line}") from refused

    def step(self, what, *detail):
        """Does a step, and answers its lines."""
        return {"arrive": self.arrive, "work": self.work, "tick": self.tick, "slices": self.other_slices}[what](*detail)

    def arrive(self, place, modem, what):
        if isinstance(what, bytes):
            self.histories[place].append(f"M {modem} {hexadecimal(what)}")
        else:
            self.histories[place].append(f"Q {modem} {what[0]} {what[1]}")
        return [answer_line(output) for output in arrive(self.books[place], modem, what)]

    def work(self, place):
        self.histories[place].append("W")
        return [answer_line(output) for output in work(self.books[place])]

    def tick(self, place):
        *resent, (_, frame, spans, pending) = tick(self.books[place])
        self.histories[place].append("T")
        lines = [answer_line(output) for output in resent]
        lines.append(frame_line(self.plant.rows[place].name, frame, spans, pending))
        return lines + self.collect(place, frame, spans, pending)

    def collect(self, place, frame, spans, pending):
        """Returns an operator's part of a frame; the last part gives the MAP."""
        parts = self.parts.setdefault(frame, {})
        parts[place] = (spans, pending)
        if len(parts) < len(self.books):
            return []
        return [f"MAP {frame} {hexadecimal(map_of(self.plant, frame, list(self.parts.pop(frame).values())))}"]

    def other_slices(self, start, shares):
        """Gives all operators their new slices, or none."""
        for book, share in zip(self.books, shares):
            why = unfit(book, start, share)
            if why is not None:
                met(f"other slices: {why}")
                raise StepRefused
        if slices_meet(shares):
            met("other slices: two of them meet")
            raise StepRefused
        for place, share in enumerate(shares):
            self.books[place].next_share = (start, share)
            self.histories[place].append(f"Z {start} {share.start}/{share.length}/{share.budget}")
        met("other slices: taken")
        return []


def slices_meet(shares):
    held = [minislot for share in shares for minislot in range(share.start, share.start + share.length)]
    return len(held) != len(set(held))


def answer_line(output):
    kind, modem, what = output
    return f"R {modem} {hexadecimal(what)}" if kind == "R" else f"S {modem} {what}"


def frame_line(name, frame, spans, pending):
    elements = [f"{sid}/{code}/{start}/{length}" for sid, code, start, length in spans]
    return " ".join(["F", name, str(frame), *elements, *(f"{sid}/P" for sid in pending)])
