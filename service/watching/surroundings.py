"""Looks at what surrounds a channel: its units, the lines that wait in its pipe, and the disks of its answers and its folder."""

import contextlib
import fcntl
import os
import struct
import subprocess
import tempfile
import termios

UNITS = ("plant@{}.service", "plant@{}.socket", "plant-ticker@{}.service", "plant-renumber@{}.service")
PROPERTIES = ("Id", "ActiveState", "NRestarts", "LoadState")
UNITS_SECONDS = 15
MOST_SECONDS = 10


def waiting_bytes(pipe):
    """Returns how many bytes wait in a pipe, or None if it is missing or nobody has it open."""
    with contextlib.suppress(OSError):
        file = os.open(pipe, os.O_WRONLY | os.O_NONBLOCK | os.O_CLOEXEC)
        try:
            return struct.unpack("i", fcntl.ioctl(file, termios.FIONREAD, bytes(4)))[0]
        finally:
            os.close(file)
    return None


def disk_of(path):
    """Returns how many bytes are free on the disk of a file or a folder, and how many it has, or None. A file may be missing."""
    for place in (path, os.path.dirname(path)):
        with contextlib.suppress(OSError):
            found = os.statvfs(place)
            return found.f_bavail * found.f_frsize, found.f_blocks * found.f_frsize
    return None


def states_of(text):
    """Returns what `systemctl show` printed, by the name of the unit: its state, and how often systemd started it again."""
    found = {}
    for block in text.strip().split("\n\n"):
        rows = dict(line.split("=", 1) for line in block.splitlines() if "=" in line)
        if rows.get("LoadState") == "loaded" and rows.get("ActiveState"):
            found[rows["Id"]] = rows["ActiveState"], int(rows["NRestarts"]) if rows.get("NRestarts", "").isdigit() else None
    return found


class UnitStates:
    """Asks systemd for the states of the units of a channel, in a process for which nobody waits."""

    def __init__(self, channel, now, command="systemctl"):
        self.words = [command, "show", *(f"--property={name}" for name in PROPERTIES), *(name.format(channel) for name in UNITS)]
        self.due, self.begun, self.process, self.output = now, now, None, None

    def take(self, now):
        """Returns the states if systemd has answered since the last call, or else None. Asks it again if it is time."""
        states = None
        if self.process is not None and now - self.begun > MOST_SECONDS:
            self.process.kill()
        if self.process is not None and self.process.poll() is not None:
            states = self.answer()
        if self.process is None and now >= self.due:
            self.due = self.begun = now
            self.due += UNITS_SECONDS
            with contextlib.suppress(OSError):
                self.output = tempfile.TemporaryFile("w+")
                self.process = subprocess.Popen(self.words, stdin=subprocess.DEVNULL, stdout=self.output, stderr=subprocess.DEVNULL)
        return states

    def answer(self):
        """Returns the states of a process that has ended; there are none if systemd did not answer."""
        status, self.process = self.process.returncode, None
        with self.output:
            self.output.seek(0)
            return states_of(self.output.read()) if status == 0 else {}
