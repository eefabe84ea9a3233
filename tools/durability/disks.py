"""Lets the disk be full, a file as long as it may be, and the folder read-only; and starts two processes on one folder."""

import contextlib
import os
import random
import resource
import signal
import subprocess

from .judging import History, go_on, judge_answers, lockstep
from .load import Load
from .state_process import StateProcess

LINES, IO = 200, 6


def has_mounts():
    """Returns whether this process may mount file systems."""
    return os.geteuid() == 0 and subprocess.run(["unshare", "--mount", "true"], capture_output=True, check=False).returncode == 0


@contextlib.contextmanager
def small_disk(place, size):
    """Mounts a file system in memory of so many bytes."""
    place.mkdir(exist_ok=True)
    subprocess.run(["mount", "-t", "tmpfs", "-o", f"size={size},mode=700", "crash_trials", place], check=True)
    try:
        yield
    finally:
        subprocess.run(["umount", place], check=True)


def remount(place, options):
    subprocess.run(["mount", "-o", f"remount,{options}", place], check=True)


def run_until_full(tally, asked, folder, load, every, what, before=None):
    """Runs the service until it ends by itself, or has done all lines. Returns what its clients know."""
    history = History()
    process = StateProcess(asked.program, folder, every, before=before)
    if process.first_line():
        lockstep(load, history, process, random.Random(asked.seed), len(load.lines))
    status = process.end()
    tally.trials += 1
    judge_answers(tally, load, history, process, what)
    if status and (status, process.last_line()) != (IO, "fault: io"):
        tally.note("other", f"{what}: status {status}, and the last line is {process.last_line()!r}, {process.reason[-200:]!r}")
    return history


def try_full_disks(tally, asked, folder):
    """Fills disks of several sizes. Once there is room again, the service goes on."""
    if not has_mounts():
        tally.note("other", "a full disk needs root and the right to mount")
        return
    load, place = Load(asked.program, asked.seed, LINES), folder / "disk"
    for pages in range(1, 9):
        for every in (25, 10_000):
            with small_disk(place, pages * 4096):
                what = f"a disk of {pages} pages, a state each {every} lines"
                history = run_until_full(tally, asked, place, load, every, what)
                # Once more while there is no room: it may begin or end with status 6.
                process = StateProcess(asked.program, place, every)
                process.end()
                judge_answers(tally, load, history, process, what)
                remount(place, "size=4m")
                go_on(tally, asked, place, load, history, what, every=every)


def limit_file_size(size):
    """Limits the size of files. The signal is ignored, so that a write fails."""
    signal.signal(signal.SIGXFSZ, signal.SIG_IGN)
    resource.setrlimit(resource.RLIMIT_FSIZE, (size, resource.RLIM_INFINITY))


def try_limits(tally, asked, folder):
    """Lets writes fail, or write less than was asked, at many lengths of the journal."""
    load, rng = Load(asked.program, asked.seed, LINES), random.Random(asked.seed)
    for turn in range(max(1, asked.times // 4)):
        place, size, every = folder / f"limit{turn}", rng.randrange(1, 12_000), rng.choice((25, 10_000))
        place.mkdir()
        what = f"files of at most {size} bytes, a state each {every} lines"
        history = run_until_full(tally, asked, place, load, every, what, before=lambda size=size: limit_file_size(size))
        go_on(tally, asked, place, load, history, what, every=every)


def judge_refusal(tally, process, folder, what):
    """Judges a service that cannot use its folder, and says so."""
    status = process.end()
    if (status, process.output) != (IO, b"fault: io\n"):
        tally.note("other", f"{what}: status {status} and {process.output[-200:]!r}")
    elif str(folder) not in process.reason:
        tally.note("other", f"{what}: standard error does not name the folder: {process.reason[-200:]!r}")


def try_bad_folders(tally, asked, folder):
    """Tries folders that are not there, are files, are not writable, or have other files in the way."""
    missing, file, taken = folder / "missing", folder / "file", folder / "taken"
    file.write_bytes(b"")
    (taken / "journal").mkdir(parents=True)
    for place, what in ((missing, "no folder"), (file, "a file"), (taken, "a folder with the name of the journal")):
        tally.trials += 1
        judge_refusal(tally, StateProcess(asked.program, place), place, what)
    load, place = Load(asked.program, asked.seed, LINES), folder / "disk"
    if not has_mounts():
        tally.note("other", "a read-only folder needs root and the right to mount")
        return
    with small_disk(place, 4 << 20):
        history = History()
        process = StateProcess(asked.program, place)
        lockstep(load, history, process, random.Random(asked.seed), LINES // 2)
        process.end()
        judge_answers(tally, load, history, process, "before the folder is read-only")
        remount(place, "ro")
        tally.trials += 1
        judge_refusal(tally, StateProcess(asked.program, place), place, "a read-only folder")
        remount(place, "rw")
        go_on(tally, asked, place, load, history, "after the folder was read-only")


def try_two_processes(tally, asked, folder):
    """Starts a second process while one has the folder, and two at once."""
    load = Load(asked.program, asked.seed, LINES)
    for turn in range(max(1, asked.times // 10)):
        place, history = folder / f"two{turn}", History()
        place.mkdir()
        tally.trials += 1
        processes = [StateProcess(asked.program, place)]
        if turn % 2:
            processes[0].first_line()
        processes.append(StateProcess(asked.program, place))
        begun = [process for process in processes if process.first_line()]
        for process in processes:
            if process not in begun:
                judge_refusal(tally, process, place, "the second process")
        if len(begun) != 1:
            tally.note("wrong", f"{len(begun)} of two processes have the folder")
            continue
        lockstep(load, history, begun[0], random.Random(turn), LINES // 2)
        begun[0].end()
        judge_answers(tally, load, history, begun[0], "the first process")
        go_on(tally, asked, place, load, history, "after both processes")

