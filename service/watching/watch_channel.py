"""Writes the metrics of a channel for the textfile collector of Prometheus' node_exporter. The unit plant-metrics@.service runs it.

    watch_channel CHANNEL PLANT PIPE

CHANNEL is the value of the label `channel`. PLANT is the plant file, PIPE the pipe of the channel. Variables of the environment:

    ANSWERS            the file to which the channel appends its answers
    METRICS            the folder in which melfjits_CHANNEL.prom is replaced
    METRICS_SECONDS    how often that is done (5)
    FOLDER             the folder of the channel: its lines are counted in the journal there, and its state is computed from a copy of it
    SNAPSHOT_SECONDS   how often that is done (60); with 0, never. Without a FOLDER, the channel is asked as often by the line K
    STATE              if this and FOLDER are empty, the channel knows no line K, and is not asked
    PLANT_SCRIPT       the program (/usr/bin/plant_script)

It begins at the end of ANSWERS, and follows the file: also after `copytruncate`, and when a new file has its name. It reads ten times a
second. It never makes the channel wait. The file of the metrics stays once this has ended: its metric melfjits_written_timestamp_seconds
says when that was. Exit status: 2 wrong arguments or no ANSWERS; 6 METRICS cannot be written, or ANSWERS cannot be read. Needs Debian's
package python3-prometheus-client.
"""

import contextlib
import os
import pathlib
import subprocess
import sys
import time

from service import show_help

from . import metrics
from .figures import Figures
from .folder_states import FolderStates
from .followed_file import FollowedFile, last_map
from .journal_lines import JournalLines
from .operator_state import Unreadable, frame_seconds_of, operators_of_modems, readable_plant
from .outputs import Outputs
from .snapshot_requests import SnapshotRequests
from .surroundings import UnitStates, disk_of, waiting_bytes
from .tick_times import TickTimes

BUILD = pathlib.Path("/usr/share/doc/plant-script/build.txt")
PERIOD_SECONDS, TICK_SECONDS, READ_SECONDS = "5", 1, 0.1


class Ended(Exception):
    """The process ends with a status, and says why."""

    def __init__(self, status, why):
        super().__init__(why)
        self.status = status


def rows_of(text, separator):
    return dict(line.split(separator, 1) for line in text.splitlines() if separator in line)


def build_of(program, build=BUILD):
    """Returns what is known of the installed program: the version that it prints, and what the package says of it."""
    version = package = ""
    with contextlib.suppress(OSError, subprocess.SubprocessError):
        version = subprocess.run([program, "--version"], capture_output=True, text=True, check=False, timeout=10).stdout
    with contextlib.suppress(OSError):
        package = build.read_text()
    version, package = rows_of(version, " "), rows_of(package, ": ")
    return {"version": version.get("plant_script", ""), "kit": package.get("toolchain kit", ""), "package": package.get("version", ""),
            "program": package.get("program", "").split(",")[0]}


def figures_of_file(path):
    """Returns figures that know the operator of each modem of a plant file, up to its line ---, if that can be read."""
    try:
        text = (b"\n" + pathlib.Path(path).read_bytes()).partition(b"\n---\n")[0] + b"\n"
        return Figures(operators_of_modems(text), frame_seconds_of(readable_plant(text)))
    except (OSError, Unreadable):
        return Figures({})


def open_new(name, flags):
    """Makes a file, and opens it. What has its name is removed before, and a link is not followed."""
    pathlib.Path(name).unlink(missing_ok=True)
    return os.open(name, flags | os.O_EXCL | os.O_NOFOLLOW, 0o644)


def replace_file(path, data):
    """Replaces a file as a whole: a reader gets the old one or the new one."""
    new = path.with_suffix(".new")
    try:
        with open(new, "wb", opener=open_new) as file:
            file.write(data)
            os.fchmod(file.fileno(), 0o644)
        new.replace(path)
    except OSError as fault:
        raise Ended(6, f"cannot write {path}: {fault.strerror}") from fault


class Watch:
    """What is read of a channel, and the file of its metrics."""

    def __init__(self, figures, requests, states, text, path):
        self.figures, self.requests, self.states, self.text, self.path = figures, requests, states, text, path
        self.outputs, self.ticks, self.journal, self.units = Outputs(), TickTimes(), JournalLines(states.folder), UnitStates(text.channel, time.monotonic())
        figures.tick_times, self.tick_due = self.ticks.times, time.monotonic()

    def begin(self, answers):
        """Notes when the last MAP came before this began, and follows the answers from their end."""
        self.figures.last_read = time.time()
        if found := last_map(answers):
            self.figures.frame, self.figures.last_map = found
        self.answers = FollowedFile(answers)

    def read(self):
        """Reads the answers to their end."""
        while data := self.answers.read():
            for piece in self.outputs.pieces(data):
                self.figures.take(piece, time.time())
        self.figures.last_read = time.time()

    def settle(self, now):
        """Counts what was read, and notes what it says of requests and starts."""
        kinds = self.figures.settle()
        for kind in sorted(kinds & {"snapshot", "fault"}):
            self.requests.answered(kind == "fault")
        if kinds & {"change", "start"}:
            self.requests.hasten(now)
            self.states.hasten(now)

    def take_folder(self, now):
        """Takes the lines and the state of a channel with a folder."""
        if self.figures.take_journal(self.journal, time.time()):
            self.states.note_saved(now)
        if snapshot := self.states.take(now):
            self.figures.take_state(snapshot, time.time())

    def look_around(self, now):
        """Takes what is looked at once a period: the folder, the pipe, the disks and the units."""
        figures, folder, answers = self.figures, self.states.folder, self.answers.path
        if folder:
            self.take_folder(now)
        figures.waiting_bytes = waiting_bytes(self.requests.pipe)
        figures.answers_bytes = 0 if self.answers.file is None else os.fstat(self.answers.file).st_size
        disks = {"answers": disk_of(answers), "folder": disk_of(folder) if folder else None}
        figures.disks = {name: sizes for name, sizes in disks.items() if sizes is not None}
        units = self.units.take(now)
        figures.units = figures.units if units is None else units

    def watch_tick(self, now):
        """Measures the time of a tick if it is time, or if the one before is not measured yet."""
        is_due = now >= self.tick_due
        if None not in (self.journal.file, self.answers.file) and (is_due or self.ticks.begun is not None):
            self.tick_due = now + TICK_SECONDS if is_due else self.tick_due
            self.ticks.watch(self.journal.file, self.answers.file)

    def follow(self, period):
        """Reads the answers for ever, and writes the metrics once a period."""
        due = time.monotonic()
        while True:
            self.read()
            now = time.monotonic()
            if now >= due:
                self.settle(now)
                self.look_around(now)
                replace_file(self.path, self.text.of(self.figures, time.time()))
                due = max(due + period, now)
            if self.figures.is_at_rest:
                self.requests.ask(now)
            self.watch_tick(now)
            time.sleep(max(0, now + READ_SECONDS - time.monotonic()))


def period_of(environment, name, default):
    text = environment.get(name) or default
    try:
        return max(0.0, float(text))
    except ValueError as fault:
        raise Ended(2, f"{name} is not a number: {text}") from fault


def watch_channel(channel, plant, pipe, environment):
    answers, folder = environment.get("ANSWERS"), environment.get("METRICS")
    if not answers or not folder:
        raise Ended(2, "the answers are in no file (ANSWERS), or no folder is given (METRICS)")
    state_folder, now = environment.get("FOLDER", ""), time.monotonic()
    program, period = environment.get("PLANT_SCRIPT", "/usr/bin/plant_script"), period_of(environment, "SNAPSHOT_SECONDS", "60")
    is_asked = not state_folder and environment.get("STATE") != ""
    figures = figures_of_file(plant)
    figures.last_snapshot = 0 if period and (state_folder or is_asked) else None
    watch = Watch(figures, SnapshotRequests(pipe, period * is_asked, now), FolderStates(state_folder, program, period, now),
                  metrics.MetricsText(channel, build_of(program)), pathlib.Path(folder, f"melfjits_{channel}.prom"))
    try:
        watch.begin(answers)
        watch.follow(period_of(environment, "METRICS_SECONDS", PERIOD_SECONDS))
    except OSError as fault:
        raise Ended(6, f"the answers {answers} cannot be read: {fault.strerror}") from fault


def main():
    show_help(__doc__)
    try:
        if len(sys.argv) != 4:
            raise Ended(2, "usage: watch_channel CHANNEL PLANT PIPE")
        if metrics.CollectorRegistry is None:
            raise Ended(2, "install Debian's package python3-prometheus-client")
        watch_channel(*sys.argv[1:], dict(os.environ))
    except Ended as fault:
        print(f"watch_channel: {fault}", file=sys.stderr)
        sys.exit(fault.status)


if __name__ == "__main__":
    main()
