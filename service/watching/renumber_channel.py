"""Gives the frames of a channel other numbers, long before they end, by a line `N`. The unit plant-renumber@.service runs it, each hour.

    renumber_channel PLANT PIPE

PLANT is the plant file and PIPE the pipe of the channel. Variables of the environment:

    ANSWERS   the file to which the channel appends its answers
    FOLDER    the folder of the channel: the plant file of its journal counts, and not PLANT
    STATE     if this and FOLDER are empty, the channel knows no line N, and nothing is done

Nothing is done before half of all numbers, 2,147,483,648, or if no MAP comes within 5 seconds. The frame then gets the least number that fits
(docs/FORMATS.md, Another frame number). That depends on the frame, so the line is written at once after a MAP. If a tick comes first, or if
operators have ticked apart, the channel refuses it by `fault: line n`, and nothing is changed. Then this tries again after the next MAP, with
one line more each time, for the frames after it. At most one of them fits.

Exit status: 0 success, or there is nothing to do; 1 refused, or no answer; 2 wrong arguments, or no ANSWERS; 3 no number fits, or the plant
file cannot be read; 6 PIPE cannot be written.
"""

import os
import pathlib
import re
import sys
import time

from service import show_help
from service.reference.coverage import MetFault
from service.reference.snapshots import SnapshotFault, read_snapshot

from .folder_states import NoState, saved_snapshot
from .followed_file import FollowedFile, last_map
from .operator_state import frame_seconds_of, plant_of

LAST_FRAME = 4_294_967_295
HALF, THREE_QUARTERS = 2**31, 3 * 2**30
# A number that is not less than this, nor than the longest interval of a flow, keeps the age of each backlog.
LEAST = 255
MOST_INTERVAL_MICROSECONDS = 2**32 - 1
ATTEMPTS, MOST_LINES = 24, 16
SECONDS, PAUSE_SECONDS = 5, 0.001
MAP, ANSWER, REFUSED = re.compile(rb"(?m)^MAP (\d+) [0-9A-F]+$"), re.compile(rb"(?m)^N frame (\d+)$"), re.compile(rb"(?m)^fault: line \d+$")
DAY = 86_400
ERROR, WARNING, INFORMATION = 3, 4, 6


class Ended(Exception):
    """The process ends with a status, and says why with a priority for the journal of systemd. Without a reason it says nothing."""

    def __init__(self, status, why="", priority=WARNING):
        super().__init__(why)
        self.status, self.priority = status, priority


def step_of(plant):
    """Returns the distance of the numbers that keep the Alloc Start Time."""
    return 2**32 // (plant.frame_minislots & -plant.frame_minislots)


def least_number(plant, frame):
    """Returns the least number that surely fits in place of that of a frame, or None. It is less than that of the frame.

    Late, it may be one that fits if no flow has a long interval.
    """
    longest = MOST_INTERVAL_MICROSECONDS // plant.frame_us
    for least in (max(LEAST, plant.first_frame, longest), *[plant.first_frame] * (frame >= THREE_QUARTERS)):
        number = least + (frame - least) % step_of(plant)
        if number < frame:
            return number
    return None


def days_left(plant, frame):
    return (LAST_FRAME - frame) * frame_seconds_of(plant) / DAY


def plant_in_service(path, folder):
    """Returns the plant of a channel: that of its folder, or else that of the plant file up to its line ---."""
    try:
        if folder:
            return plant_of(read_snapshot(saved_snapshot(folder)).plant_text)
        return plant_of((b"\n" + pathlib.Path(path).read_bytes()).partition(b"\n---\n")[0] + b"\n")
    except (MetFault, SnapshotFault, NoState, OSError, ValueError) as fault:
        raise Ended(3, f"the plant file of {folder or path} cannot be read: {fault}") from fault


def judge(plant, frame):
    """Ends the process if a frame needs no other number yet, or if none fits."""
    left = f"After frame {frame}, {days_left(plant, frame):.1f} days of frames are left"
    if least_number(plant, frame) is not None:
        return
    if plant.frame_minislots % 2:
        raise Ended(3, f"{left}. frame_minislots is odd ({plant.frame_minislots}), so that no other number fits: let the channel begin anew with an even one")
    if frame < THREE_QUARTERS:
        raise Ended(0)
    raise Ended(3, f"{left}. first_frame is {plant.first_frame}, so that no lesser number fits: set it to a lesser one in a channel that begins anew")


class Channel:
    """The pipe and the answers of a channel. It reads answers from when it is made."""

    def __init__(self, pipe, answers):
        self.pipe, self.file, self.text, self.numbers = pipe, FollowedFile(answers), b"", set()

    def wait(self, is_there):
        """Reads answers until something is in those since the last line that was written. Returns whether it came in time."""
        end = time.monotonic() + SECONDS
        while not is_there(self.text):
            if time.monotonic() > end:
                return False
            time.sleep(PAUSE_SECONDS)
            self.text += self.file.read()
        return True

    def next_frame(self):
        """Waits for a MAP that was not read yet, and returns the frame after the last one, or None if there is none in time."""
        self.text = b""
        found = MAP.findall(self.text) if self.wait(MAP.search) else []
        return int(found[-1]) + 1 if found else None

    def request(self, numbers):
        """Writes a line N for each number, all by one write."""
        lines = b"".join(b"N %d\n" % number for number in numbers)
        try:
            file = os.open(self.pipe, os.O_WRONLY | os.O_NONBLOCK | os.O_CLOEXEC)
            try:
                os.write(file, lines)
            finally:
                os.close(file)
        except OSError as fault:
            raise Ended(6, f"cannot write into {self.pipe}: {fault.strerror}") from fault
        self.numbers |= set(numbers)
        self.text = b""

    def answered_number(self, count):
        """Waits for the answers to so many lines. Returns the number that was accepted, or None if all of them were refused."""
        if not self.wait(lambda text: self.accepted(text) or len(REFUSED.findall(text)) >= count):
            raise Ended(1, f"no answer to a line N within {SECONDS} seconds: the channel is busy or does not run")
        return self.accepted(self.text)

    def accepted(self, text):
        return next((int(number) for number in ANSWER.findall(text) if int(number) in self.numbers), None)


def numbers_from(plant, frame, count):
    """Returns the numbers for a frame and those after it, so many at most."""
    found = (least_number(plant, frame + place) for place in range(count))
    return [number for number in found if number is not None]


def renumber(plant, channel):
    """Writes lines N until one is accepted, and returns its number, or None if the channel does not tick."""
    for attempt in range(ATTEMPTS):
        frame = channel.next_frame()
        if frame is None:
            return None
        numbers = numbers_from(plant, frame, min(attempt + 1, MOST_LINES))
        channel.request(numbers)
        if (number := channel.answered_number(len(numbers))) is not None:
            return number
    raise Ended(1, f"the channel refuses each of {ATTEMPTS} lines N. Its ticks come too fast, or operators tick apart: write the line while no tick comes")


def renumber_channel(plant_file, pipe, environment):
    answers, folder = environment.get("ANSWERS"), environment.get("FOLDER")
    if not folder and not environment.get("STATE"):
        raise Ended(0)
    if not answers:
        raise Ended(2, "the answers are in no file (ANSWERS)")
    known = last_map(answers)
    if known is not None and known[0] < HALF:
        raise Ended(0)
    channel = Channel(pipe, answers)
    frame = channel.next_frame()
    if frame is None or frame < HALF:
        raise Ended(0)
    plant = plant_in_service(plant_file, folder)
    judge(plant, frame)
    number = renumber(plant, channel)
    if number is not None:
        raise Ended(0, f"frames go on with number {number}, since frame {frame} was beyond half of all numbers. {days_left(plant, number):.1f} days of frames are left",
                    INFORMATION)


def main():
    show_help(__doc__)
    try:
        if len(sys.argv) != 3:
            raise Ended(2, "usage: renumber_channel PLANT PIPE", ERROR)
        renumber_channel(*sys.argv[1:], dict(os.environ))
    except Ended as fault:
        if str(fault):
            print(f"<{fault.priority}>" * ("JOURNAL_STREAM" in os.environ) + f"renumber_channel: {fault}", file=sys.stderr)
        sys.exit(fault.status)


if __name__ == "__main__":
    main()
