"""Writes a script for a trial, and finds the answer to each of its lines by the command `resume`."""

import bisect
import random
import re
import subprocess

from tools import EXAMPLES
from tools.generator.message_bytes import dsa, dsa_ack, dsc, dsc_ack, dsd, flow

PLANT = (EXAMPLES / "plant_p2.toml").read_bytes()
MODEMS = (b"020000000001", b"020000000002", b"020000000003")
FLOWS = (257, 258, 259, 260, 513, 514, 515, 516)
# Parameters by subtype: best effort, real-time polling, unsolicited grants.
ASKED = ({15: 2, 7: 3}, {15: 4, 16: 0x17, 17: 20_000}, {15: 6, 19: 64, 20: 20_000, 22: 1})
ODD = (b"", b"x", b"-", b"+T", b"=line 7", b"M 020000000001 0F", b"fault: line 3", b"\xff", b"T C", b"T\r", b"S line 1 frame 0", b"Q " + 5000 * b"7")
SLICES = (b"8/32/32 40/32/32", b"8/24/24 32/40/40", b"8/16/16 40/32/32", b"8/40/40 40/32/32")
# Numbers of the same frame are so far apart, since a frame has 72 minislots.
APART = 2**29
FRAME = re.compile(rb"(?m)^(?:F (\w+) (\d+)|N frame (\d+)$)")


def request_line(rng):
    """Returns a line with a random message of a modem."""
    tid, sfid, asked = rng.randrange(1, 60), rng.choice(FLOWS), rng.choice(ASKED)
    message = rng.choice((dsa(tid, flow({1: 1, 6: 7, **asked})), dsc(tid, flow({2: sfid, 6: 7, **asked})), dsd(tid, sfid), dsa_ack(tid), dsc_ack(tid)))
    return b"M %s %s" % (rng.choice(MODEMS), message.hex().upper().encode())


def some_lines(rng, frame):
    """Returns a few lines after so many frames: ticks of all operators, or of one after the other with a line between them, and others."""
    kind = rng.random()
    if kind < 0.25:
        return [b"T"]
    if kind < 0.35:
        return [b"T A", request_line(rng), b"T B"]
    if kind < 0.6:
        return [b"Q %s %d %d" % (rng.choice(MODEMS), rng.choice(FLOWS), rng.randrange(1, 9))]
    if kind < 0.95:
        return [request_line(rng)]
    if kind < 0.97:
        return [b"Z %d %s" % (frame + rng.randrange(6), rng.choice(SLICES))]
    if kind < 0.99:
        return some_commands(rng, frame)
    return [rng.choice(ODD)]


def some_commands(rng, frame):
    """Returns a request for a snapshot or for another frame number, after so many frames, or both while operators are apart."""
    kind = rng.random()
    if kind < 0.4:
        return [b"K"]
    if kind < 0.8:
        return [b"N %d" % other_number(rng, frame)]
    return [b"T A", b"K", b"N %d" % other_number(rng, frame), b"T B"]


def other_number(rng, frame):
    """Returns another number for a frame."""
    return frame % APART + APART * rng.randrange(1, 7)


def frame_after(lines, frame):
    """Returns the frame before which all operators are after a few lines."""
    if lines[-1].startswith(b"N "):
        return int(lines[-1][2:])
    return frame + (lines[-1] in (b"T", b"T B"))


def script(seed, count):
    """Returns the lines of a script, about so many."""
    rng, lines, frame = random.Random(seed), [], 0
    while len(lines) < count:
        more = some_lines(rng, frame)
        lines += more
        frame = frame_after(more, frame)
    return lines


def joined(lines):
    return b"".join(line + b"\n" for line in lines)


def served(program, lines):
    """Returns what `resume` prints for lines."""
    done = subprocess.run([*program, "resume"], input=PLANT + b"---\n" + joined(lines), stdout=subprocess.PIPE, timeout=600, check=True)
    return done.stdout


def split_answers(program, lines):
    """Returns the answer to each line. An invalid line after each line has an answer that no other line has, and changes nothing."""
    text = served(program, [both for line in lines for both in (line, b"-")])
    answers = []
    for number in range(1, len(lines) + 1):
        answer, _, text = text.partition(b"fault: line %d\n" % (2 * number))
        answers.append(answer.replace(b"fault: line %d\n" % (2 * number - 1), b"fault: line %d\n" % number))
    return answers


class Load:
    """The lines of a script, and what an uninterrupted run answers to them."""

    def __init__(self, program, seed, count):
        self.lines = script(seed, count)
        self.answers = split_answers(program, self.lines)
        self.text = served(program, self.lines)
        if b"".join(self.answers) != self.text:
            raise RuntimeError("the answers to the lines are not those of the whole script")
        # Where the answer to each line begins, and where the last one ends.
        self.places = [0]
        for answer in self.answers:
            self.places.append(self.places[-1] + len(answer))

    def place(self, number):
        """Returns where the answer to a line begins. For a number that is too great it is the end."""
        return self.places[min(number, len(self.places)) - 1]

    def touched(self, first, size):
        """Returns the last line of whose answer a byte is among so many bytes from the answer of line `first` on."""
        if not size:
            return first - 1
        return max(first - 1, bisect.bisect_left(self.places, self.place(first) + size, hi=len(self.lines)))

    def frame_before(self, number):
        """Returns the frame before which all operators are at a line, or None if they are before different ones."""
        frames = {b"A": 0, b"B": 0}
        for name, frame, to in FRAME.findall(self.text[:self.place(number)]):
            if to:
                frames = dict.fromkeys(frames, int(to))
            else:
                frames[name] = int(frame) + 1
        return frames[b"A"] if frames[b"A"] == frames[b"B"] else None
