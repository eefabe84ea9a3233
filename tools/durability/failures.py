"""Lets each call of the program on its folder fail in turn, by a library that is preloaded into it."""

import errno
import pathlib
import random
import shutil
import subprocess

from .judging import History, begin, go_on, judge_answers, lockstep
from .load import Load
from .state_process import StateProcess

SOURCE = pathlib.Path(__file__).with_name("failing_calls.c")
LINES, EVERY, IO = 40, 12, 6
ERRORS = {"EIO": str(errno.EIO), "ENOSPC": str(errno.ENOSPC), "short": "short"}


def built_library(folder):
    """Builds the library that is preloaded, and returns its path."""
    path = folder / "failing_calls.so"
    subprocess.run(["gcc", "-shared", "-fPIC", "-O1", "-o", path, SOURCE, "-ldl"], check=True)
    return path


def prepare_folder(tally, asked, folder, load):
    """Makes a folder with half of the lines, and a batch at the end that a crash has torn. Returns what its clients know."""
    folder.mkdir()
    history = History()
    process = begin(tally, asked, folder, load, history, "prepared", every=EVERY)
    lockstep(load, history, process, random.Random(asked.seed), LINES // 2)
    process.end()
    judge_answers(tally, load, history, process, "prepared")
    with (folder / "journal").open("ab") as journal:
        journal.write(b" A\n+T\n+to")
    return history


class FailingRun:
    """A run of the service in which one call fails."""

    def __init__(self, tally, asked, load, library):
        self.tally, self.asked, self.load, self.library = tally, asked, load, library

    def fail(self, base, known, place, number, error):
        """Lets a call fail on a copy of a folder. Returns whether there was such a call."""
        folder, mark = place / "state", place / "mark"
        shutil.rmtree(folder, ignore_errors=True)
        shutil.copytree(base, folder)
        mark.unlink(missing_ok=True)
        environment = {"LD_PRELOAD": str(self.library), "CALLS_FOLDER": str(folder), "FAIL_CALL": str(number), "FAIL_ERROR": ERRORS[error], "FAIL_MARK": str(mark)}
        history = History(known.answered, known.given)
        process = StateProcess(self.asked.program, folder, EVERY, environment)
        if process.first_line():
            lockstep(self.load, history, process, random.Random(number), LINES)
        status = process.end()
        what = f"call {number} ({mark.read_text() if mark.exists() else 'none'}, {error})"
        judge_answers(self.tally, self.load, history, process, what)
        if not mark.exists():
            return False
        self.tally.trials += 1
        self.judge(process, status, error, folder, what)
        go_on(self.tally, self.asked, folder, self.load, history, f"after {what}", every=EVERY)
        return True

    def judge(self, process, status, error, folder, what):
        """Judges how a service ended in which a call failed. After a short write it may go on."""
        if status == 0 and error == "short":
            return
        if (status, process.last_line()) != (IO, "fault: io"):
            self.tally.note("other", f"{what}: status {status}, and the last line is {process.last_line()!r}")
        elif process.first_line() is None and str(folder) not in process.reason:
            self.tally.note("other", f"{what}: standard error does not name the folder: {process.reason[-200:]!r}")


def try_failures(tally, asked, folder):
    """Lets each call fail in turn, of a service that begins and of one that goes on, with each error."""
    load = Load(asked.program, asked.seed, LINES)
    run = FailingRun(tally, asked, load, built_library(folder))
    (folder / "empty").mkdir()
    bases = ((folder / "empty", History()), (folder / "half", prepare_folder(tally, asked, folder / "half", load)))
    for base, known in bases:
        for error in ERRORS:
            number = 1
            while run.fail(base, known, folder, number, error):
                number += asked.step
