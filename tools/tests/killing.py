"""Kills what a test has started, and waits for its last process, as systemd does before the next start."""

import contextlib
import os
import pathlib
import signal
import time


def runs(group):
    """Returns whether a process of a process group runs. One that has ended, and whose parent has not heard of it, does not."""
    for path in pathlib.Path("/proc").glob("[0-9]*/stat"):
        with contextlib.suppress(OSError):
            state, _, number = path.read_text().rpartition(")")[2].split()[:3]
            if int(number) == group and state not in "XZ":
                return True
    return False


def kill_group(process, seconds):
    """Kills a process that leads its group, and the processes of the group. One of them that waits for a pipe may still read from it what
    comes until it has ended: so a test that goes on with the pipe waits for the last one."""
    os.killpg(process.pid, signal.SIGKILL)
    process.wait(seconds)
    end = time.monotonic() + seconds
    while runs(process.pid):
        if time.monotonic() > end:
            raise AssertionError(f"a process of the group {process.pid} still runs {seconds} seconds after it was killed")
        time.sleep(0.01)
