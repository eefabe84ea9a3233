"""Computes the state of a channel from a copy of the journal in its folder (docs/FORMATS.md, A service with a folder).

The program does the lines of the copy again, in a process of its own. The folder is only read, and the channel does not notice it.
"""

import contextlib
import os
import pathlib
import re
import shutil
import subprocess
import tempfile

from service import BUILT, INSTALLED, ROOT
from service.reference.journals import read_journal
from service.reference.resuming import SNAPSHOT

from .outputs import Outputs

# Such a line of a journal was refused by the service with a folder. `resume` might perform it.
OF_RESUME = re.compile(rb"[KPN]")
INVALID = b"X"
# Less than the channel.
NICE = "10"
OUT_OF_MEMORY = 5
MOST_REASON = 500


class NoState(Exception):
    """A journal gives no state: it is not the journal of a service, the program is missing, or some operators have ticked and others not."""


def program_of(variable: str | None, top: pathlib.Path = ROOT) -> str:
    """Returns the program that does lines again: what the variable PLANT_SCRIPT names, or the installed one, or the one that is built here."""
    if variable:
        if shutil.which(variable) is None:
            raise NoState(f"the program is missing: the variable PLANT_SCRIPT names {variable}, which is not a file that can be executed. "
                          "Name the program there, or unset the variable")
        return variable
    places = [INSTALLED] + [str(top / BUILT)] * (top / "crates").is_dir()
    if found := next(filter(shutil.which, places), None):
        return found
    raise NoState(f"the program is missing, which has to do the lines again. It was looked for at {' and at '.join(places)}. Install the "
                  "package plant-script, or build the program by ./prove at the top of the repository, or let PLANT_SCRIPT name it")


def input_of_resume(data):
    """Returns the input of `resume` that leads to the state of a journal and requests it, and the number of its last line."""
    found = read_journal(data)
    if found is None or not found[0][1:]:
        raise NoState("it has no saved state")
    snapshot, lines, _ = found
    lines = [INVALID if OF_RESUME.match(line) else line for line in lines]
    return b"".join(line + b"\n" for line in (*snapshot[1:], b"---", *lines, b"K")), len(lines) + 1


def snapshot_of_output(data: bytes, last_line: int) -> bytes:
    """Returns the snapshot at the end of what `resume` printed. The number of the line K is given, which was the last one."""
    outputs = Outputs().take(data)
    if outputs and outputs[-1].startswith(SNAPSHOT):
        return outputs[-1]
    last = outputs[-1].decode(errors="replace") if outputs else ""
    if last == f"fault: line {last_line}":
        raise NoState("some operators have ticked and others not. There is one once the others have had as many ticks")
    raise NoState(f"the program ended before the last line, after {last or 'no answer'}")


def judge_status(program: str, status: int, output: bytes, reasons: bytes) -> None:
    """Raises NoState with the reason if the program did not end with status 0."""
    if status == 0:
        return
    if status < 0:
        raise NoState(f"the program {program} was killed by signal {-status} while it did the lines again")
    if status == OUT_OF_MEMORY:
        raise NoState(f"the program {program} ran out of memory while it did the lines again")
    said = [data.strip().splitlines()[-1].decode(errors="replace")[:MOST_REASON] for data in (output, reasons) if data.strip()]
    raise NoState(f"the program {program} ended with status {status}: {'; '.join(said) or 'it said nothing'}")


class Replay:
    """A process that does the lines of a copy of a journal again."""

    def __init__(self, folder, program):
        self.program = program
        lines, self.last_line = input_of_resume(pathlib.Path(folder, "journal").read_bytes())
        with tempfile.TemporaryFile() as given:
            given.write(lines)
            given.seek(0)
            self.output, self.reasons = tempfile.TemporaryFile(), tempfile.TemporaryFile()
            self.process = subprocess.Popen(["nice", "-n", NICE, program, "resume"], stdin=given, stdout=self.output, stderr=self.reasons)

    def is_running(self):
        return self.process.poll() is None

    def snapshot(self):
        """Waits for the end of the process, and returns its snapshot."""
        self.process.wait()
        with self.output, self.reasons:
            self.output.seek(0)
            self.reasons.seek(0)
            output = self.output.read()
            judge_status(self.program, self.process.returncode, output, self.reasons.read())
            return snapshot_of_output(output, self.last_line)


def snapshot_of_folder(folder, program):
    """Returns a snapshot of the channel whose folder is given."""
    return Replay(folder, program).snapshot()


def saved_snapshot(folder):
    """Returns the snapshot that a journal begins with."""
    found = read_journal(pathlib.Path(folder, "journal").read_bytes())
    if found is None or not found[0][1:]:
        raise NoState("it has no saved state")
    return b"".join(line + b"\n" for line in found[0][1:])


class FolderStates:
    """Gives the state of a channel once a period, from its folder. With a period of 0, never.

    If the channel has saved its state in this period, that is the state. Otherwise the lines since are done again.
    """

    def __init__(self, folder, program, period, now):
        self.folder, self.program, self.period, self.due = folder, program, period, now
        self.replay, self.saved_at = None, None

    def take(self, now):
        """Returns a snapshot if one has been computed since the last call, and begins another one if it is time."""
        snapshot = None
        if self.replay is not None and not self.replay.is_running():
            ended, self.replay = self.replay, None
            with contextlib.suppress(NoState):
                snapshot = ended.snapshot()
        if self.period and now >= self.due and self.replay is None:
            self.due = now + self.period
            with contextlib.suppress(NoState, OSError):
                if self.saved_at is not None and now - self.saved_at < self.period:
                    return saved_snapshot(self.folder)
                self.replay = Replay(self.folder, self.program)
        return snapshot

    def note_saved(self, now):
        """Notes that the channel has saved its state."""
        self.saved_at = now

    def hasten(self, now):
        """Makes the next state due at once. The lines since are done again, since the plant or the program may be others."""
        self.due, self.saved_at = now if self.period else self.due, None
