"""Runs `serve --state FOLDER`: each line is in the journal of a folder before it is answered (docs/FORMATS.md, A service with a folder)."""

import itertools
import os
import re
import sys

from .changes import NotChanged, changed_core
from .journals import Journal
from .numbering import NotRenumbered, renumbered_core, requests_number
from .program import IO, MOST_INPUT, PLANT, WORDS, Core, Fault, judged_plant, text_of
from .saving import snapshot_of, snapshot_text
from .services import MOST_LINE, answer_of_line, split_service
from .snapshots import SnapshotFault, read_snapshot
from .states import StateFault, books_of

# A longer line is invalid. So much of it is stored that it stays so.
MOST_STORED = MOST_LINE + 1
EVERY, MOST_EVERY, MOST_COUNT = 10_000, 2**63, 2**64 - 1
CHUNK = 65_536


def has_state_option(words):
    return "--state" in words[:words.index("--") if "--" in words else len(words)]


def asked(words):
    """Returns the folder, and after how many lines the state is saved."""
    rest, values = list(words), {}
    for name in ("--state", "--snapshot-every"):
        if name in rest and rest.index(name) + 1 < len(rest):
            place = rest.index(name)
            values[name], rest[place:place + 2] = rest[place + 1], []
    every = values.get("--snapshot-every", str(EVERY))
    if rest not in (["serve"], ["serve", "--"]) or "--state" not in values or not re.fullmatch("[0-9]+", every):
        raise Fault(WORDS, "fault: words")
    if not 1 <= int(every) <= MOST_EVERY:
        raise Fault(WORDS, "fault: words")
    return values["--state"], int(every)


def read_plant_file(read):
    """Returns the plant file, and what was read after the line `---`. Without that line all of the input is the plant file."""
    data = b""
    while len(data) <= MOST_INPUT + len(b"---\n"):
        found = re.search(rb"(?m)^---\n", data)
        if found:
            return data[:found.start()], data[found.end():]
        chunk = read()
        if not chunk:
            return split_service(data)[0], b""
        data += chunk
    return data, b""


def is_command(line):
    """Returns whether a line requests a snapshot or another frame number."""
    return line == b"K" or requests_number(line)


def batches(chunks):
    """Yields the lines that each reading of the input ends. The last one of the input need not be ended."""
    part = b""
    for chunk in chunks:
        *lines, part = (part + chunk).split(b"\n")
        part = part[:MOST_STORED]
        yield from split_at_commands([line[:MOST_STORED] for line in lines])
    if part:
        yield from split_at_commands([part])


def split_at_commands(lines):
    """Yields the lines up to each command, with the command, and those after the last one, with None."""
    while lines:
        end = next((place for place, line in enumerate(lines) if is_command(line)), None)
        if end is None:
            yield lines, None
            return
        yield lines[:end], lines[end]
        lines = lines[end + 1:]


class StateService:
    """A plant in service, the text of its plant file, how many lines are done, and the journal that leads there."""

    def __init__(self, journal, core, plant_text, count):
        self.journal, self.core, self.plant_text, self.count = journal, core, plant_text, count
        self.since = 0

    def first_line(self):
        """Returns the line that says where the service goes on; it has the frame if all operators are before the same one."""
        frames = {book.frame for book in self.core.books}
        frame = f" frame {frames.pop()}" if len(frames) == 1 else ""
        return f"S line {self.count + 1}{frame}\n"

    def do_lines(self, lines):
        """Returns the answers to lines."""
        answers = []
        for line in lines:
            self.count += 1
            answers.append(answer_of_line(self.core, self.count, line))
        self.since += len(lines)
        return "".join(answers)

    def do_batch(self, lines):
        """Returns the answers to lines that are in the journal."""
        self.journal.append(lines)
        return self.do_lines(lines)

    def do_command(self, line):
        """Returns the answer to a command, after its state is saved. One that is refused is done as a line of a script."""
        try:
            core = renumbered_core(self.core, self.plant_text, line) if requests_number(line) else self.core
        except NotRenumbered:
            return self.do_batch([line])
        snapshot = snapshot_of(core, self.plant_text)
        if snapshot is None:
            return self.do_batch([line])
        self.core, self.count = core, self.count + 1
        self.save(snapshot)
        return f"N frame {core.books[0].frame}\n" if requests_number(line) else snapshot

    def change(self, file):
        """Changes the plant to that of a plant file, and saves the new state."""
        try:
            self.core, self.plant_text = changed_core(self.core, file)
        except NotChanged as fault:
            raise Fault(PLANT, "fault: state") from fault
        self.save(snapshot_of(self.core, self.plant_text))

    def save(self, snapshot):
        self.journal.replace(lines_of_state(self.count, snapshot))
        self.since = 0

    def save_after(self, every):
        """Puts the state in the place of the lines since the last one, if they are so many and the plant rests."""
        snapshot = snapshot_of(self.core, self.plant_text) if self.since >= every else None
        if snapshot is not None:
            self.save(snapshot)


def lines_of_state(count, snapshot):
    """Returns the lines of a journal's snapshot: how many lines were done before, and the state."""
    return f"line {count}\n{snapshot}".encode().split(b"\n")[:-1]


def begin(journal, file, plant):
    """Begins a journal with a plant file, and returns the service. No operator is saved, so each begins anew."""
    text = file.decode()
    journal.replace(lines_of_state(0, snapshot_text(text, plant.first_frame, [])))
    return StateService(journal, Core(plant), text, 0)


def go_on(journal, file):
    """Restores the saved state, does the lines since again, and returns the service with the plant of a plant file."""
    found = journal.recover()
    if found is None:
        raise Fault(PLANT, "fault: state")
    snapshot, lines = found
    service = restored(journal, snapshot)
    service.do_lines(lines)
    if file != service.plant_text.encode():
        service.change(file)
    return service


def restored(journal, snapshot):
    """Returns the service in a saved state."""
    first = re.fullmatch(b"line (0|[1-9][0-9]{0,19})", snapshot[0] if snapshot else b"")
    if first is None or int(first[1]) > MOST_COUNT:
        raise Fault(PLANT, "fault: state")
    try:
        saved = read_snapshot(b"".join(line + b"\n" for line in snapshot[1:]))
        text = text_of(saved.plant_text)
        plant, _none = judged_plant(text)
        return StateService(journal, Core(plant, books_of(plant, saved)), text, int(first[1]))
    except (SnapshotFault, StateFault, Fault) as fault:
        raise Fault(PLANT, "fault: state") from fault


def serve_state(words, read, write):
    """Serves with a folder, and returns the exit status. `read` returns the next bytes of the input, none at its end."""
    folder = ""
    try:
        folder, every = asked(words)
        with Journal(folder) as journal:
            file, rest = read_plant_file(read)
            plant, _none = judged_plant(text_of(file))
            service = go_on(journal, file) if journal.found else begin(journal, file, plant)
            write(service.first_line())
            for lines, command in batches(itertools.chain([rest], iter(read, b""))):
                if lines:
                    write(service.do_batch(lines))
                if command is not None:
                    write(service.do_command(command))
                service.save_after(every)
        return 0
    except Fault as fault:
        last_line, status = fault.last_line, fault.status
        why = repr(fault.__cause__ or fault)
    except OSError as fault:
        last_line, status, why = "fault: io", IO, fault
    print(f"serve --state {folder}: {why}", file=sys.stderr)
    write(last_line + "\n")
    return status


def write_output(text):
    """Writes to standard output. Standard output that accepts nothing is reported by the status of the next write, or never."""
    data = text.encode()
    while data:
        data = data[os.write(1, data):]


def run(words):
    """Runs the command with the standard streams, and returns the exit status."""
    try:
        return serve_state(words, lambda: os.read(0, CHUNK), write_output)
    except OSError:
        return IO
