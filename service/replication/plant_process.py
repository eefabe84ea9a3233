"""Runs `plant_script resume` for a replica: gives it lines, and returns the output of each line.

After each line the process gets a marker, a line that is invalid. The program answers an invalid line by `fault: line n` with the line's
own number, which no other line has, and changes nothing. So all output up to the answer of the marker belongs to the line before it. No
other way of the program tells where the answer to a line ends: an accepted acknowledgement has no output, and nor has an empty line.

The lines of the process have other numbers than those of the stream: there are markers, and the process may have begun with a snapshot. An
output `fault: line n` gets the number that its line has in the stream.

A line P begins a plant file, which the line --- ends. It has one answer, so the marker follows the line ---. Both lines have to be in the
same message: otherwise the plant file could take the lines of other publishers, and markers.
"""

import subprocess

MARKER = b"-"
# Less than a pipe holds, so that a write of lines never waits for a reader of the output.
MOST_BYTES = 32_768
SNAPSHOT = b"melfjits-snapshot "
CHANGE, BAR = b"P", b"---"
OUT_OF_MEMORY = b"fault: memory"


class PlantFailed(Exception):
    """The program ended, or ran out of memory: its answers are no longer those of the lines alone."""


def beginning(text):
    """Returns what the program begins with: a plant file up to the line ---, or a snapshot, and the line --- after it."""
    if not text.startswith(SNAPSHOT):
        text = (b"\n" + text).partition(b"\n---\n")[0].removeprefix(b"\n")
    return text + (b"" if text.endswith(b"\n") or not text else b"\n") + b"---\n"


def units_of(lines):
    """Yields the lines of a message that have one answer together: one line, or a plant file. A plant file that is not ended is refused."""
    place = 0
    while place < len(lines):
        length = 1
        if lines[place] == CHANGE:
            length = (lines.index(BAR, place) + 1 if BAR in lines[place:] else len(lines)) - place
        unit = lines[place:place + length]
        yield unit if unit[0] != CHANGE or unit[-1] == BAR else [MARKER] + [b""] * (length - 1)
        place += length


def text_of(unit):
    return b"".join(b"%s\n" % line for line in (*unit, MARKER))


def chunks_of(units):
    """Yields units some at a time, as many as fit into a pipe with their markers."""
    chunk, size = [], 0
    for unit in units:
        length = len(text_of(unit))
        if chunk and size + length > MOST_BYTES:
            yield chunk
            chunk, size = [], 0
        chunk.append(unit)
        size += length
    if chunk:
        yield chunk


class PlantProcess:
    """A process of the program, which has begun with a plant file or a snapshot."""

    def __init__(self, program, text):
        self.process = subprocess.Popen([*program, "resume"], stdin=subprocess.PIPE, stdout=subprocess.PIPE)
        self.count = 0
        self.write(beginning(text))

    def write(self, data):
        try:
            self.process.stdin.write(data)
            self.process.stdin.flush()
        except BrokenPipeError:
            self.failed(b"")

    def failed(self, said):
        """Raises what ended the program."""
        self.process.kill()
        raise PlantFailed(f"the program ended with status {self.process.wait()} {said.decode(errors='replace').strip()}".rstrip())

    def answers(self, lines, first):
        """Returns the outputs of the lines of a message, the first of which has the number `first` in the stream."""
        outputs = []
        for chunk in chunks_of(units_of(lines)):
            self.write(b"".join(map(text_of, chunk)))
            for unit in chunk:
                outputs += [self.answer(first + len(outputs), len(unit)), *([] for _ in unit[1:])]
        return outputs

    def answer(self, number, length):
        """Returns the output up to the next marker, with the number of its line in the stream in place of that of the process."""
        own, marker = b"fault: line %d\n" % (self.count + 1), b"fault: line %d\n" % (self.count + length + 1)
        self.count += length + 1
        found, last = [], b""
        while (line := self.process.stdout.readline()) != marker:
            if not line.endswith(b"\n") or line.startswith(OUT_OF_MEMORY):
                self.failed(line or last)
            last = line
            if line.startswith(SNAPSHOT):
                found += [line[:-1], *self.plant_text(line)]
            else:
                found.append(b"fault: line %d" % number if line == own else line[:-1])
        return found

    def plant_text(self, line):
        """Returns the lines of the plant file in a snapshot, which may look like any output. The line before it states its bytes."""
        text = self.process.stdout.read(int(line.split()[2]))
        return text.split(b"\n")[:-1]

    def snapshot(self):
        """Returns a snapshot of the plant, or None if the plant does not rest."""
        self.write(b"K\n%s\n" % MARKER)
        found = self.answer(0, 1)
        return b"".join(b"%s\n" % line for line in found) if found[0].startswith(SNAPSHOT) else None

    def end(self):
        """Ends the program."""
        self.process.stdin.close()
        self.process.stdout.close()
        self.process.wait()
