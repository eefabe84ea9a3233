"""Channels that are measured through their unit: those of systemd, or processes that are started as the unit starts them."""

import contextlib
import fcntl
import os
import pathlib
import re
import resource
import shutil
import signal
import socket
import subprocess
import threading

from tools import ROOT
from tools.measure.metrics_cost import TICKS, processes

UNITS = ROOT / "service/systemd"
SCRIPTS = "/usr/libexec/plant_script/"
# What standard error is under systemd: then serve_channel passes the program's reasons through pass_reasons.
JOURNAL = {"JOURNAL_STREAM": "0:0"}
SETTING = re.compile(r"(\w+)=(.*)")
SIZES = {"": 1, "K": 1 << 10, "M": 1 << 20, "G": 1 << 30}
STOP_SECONDS = 60
LOOKS = 10


class CannotStart(Exception):
    """A channel cannot be started, or ended by itself."""


def settings(unit):
    """Returns the settings of a unit's file, each with its values."""
    found = {}
    for line in (UNITS / unit).read_text().splitlines():
        if match := SETTING.fullmatch(line):
            found.setdefault(match[1], []).append(match[2])
    return found


def size(text):
    """Returns the bytes of a size such as 1M."""
    number, unit = re.fullmatch(r"(\d+)([KMG]?)", text).groups()
    return int(number) * SIZES[unit]


class CommandChannel:
    """A process that is started as plant@.service starts it: the same command line, variables and limits, a pipe as plant@.socket makes it, and
    files in a folder of its own. Notes to systemd go to a socket, so that the watchdog's script runs as well."""

    def __init__(self, folder, plant, program):
        self.folder, self.program = folder, program
        self.service, pipe = settings("plant@.service"), settings("plant@.socket")
        self.pipe, self.answers = folder / "in", folder / "answers"
        (folder / "notes").mkdir()
        (folder / "plant.toml").write_text(plant)
        os.mkfifo(self.pipe, int(pipe["SocketMode"][0], 8))
        self.end_of_pipe = os.open(self.pipe, os.O_RDWR)
        fcntl.fcntl(self.end_of_pipe, fcntl.F_SETPIPE_SZ, size(pipe["PipeSize"][0]))
        self.notes = socket.socket(socket.AF_UNIX, socket.SOCK_DGRAM)
        self.notes.bind(str(folder / "notify"))
        threading.Thread(target=self.take_notes, daemon=True).start()
        limit = size(self.service["LimitDATA"][0])
        self.process = subprocess.Popen(self.words(), stdin=self.end_of_pipe, stdout=subprocess.DEVNULL, stderr=subprocess.DEVNULL, env=self.environment(),
                                        umask=int(self.service["UMask"][0], 8), start_new_session=True, restore_signals=False,
                                        preexec_fn=lambda: resource.setrlimit(resource.RLIMIT_DATA, (limit, limit)))

    def placed(self, text):
        """Returns a path of the unit, or a text with some, as it is here."""
        for path, here in (("/etc/plant_script/%i.toml", self.folder / "plant.toml"), ("/run/plant_script/%i/in", self.pipe),
                           ("/var/lib/plant_script/%i", self.folder), (SCRIPTS, f"{ROOT}/service/systemd/")):
            text = text.replace(path, str(here))
        return text

    def words(self):
        return self.placed(self.service["ExecStart"][0]).split()

    def environment(self):
        given = dict(self.placed(text).split("=", 1) for text in self.service["Environment"])
        scripts = {name.upper(): f"{ROOT}/service/systemd/{name}" for name in ("pass_reasons", "report_progress")}
        watchdog = {"NOTIFY_SOCKET": str(self.folder / "notify"), "WATCHDOG_USEC": f"{self.service['WatchdogSec'][0]}000000"} if shutil.which("systemd-notify") else {}
        return {"PATH": os.environ["PATH"], "PLANT_SCRIPT": str(self.program), "RUNTIME_DIRECTORY": str(self.folder / "notes"), **JOURNAL, **given, **scripts, **watchdog}

    def take_notes(self):
        """Reads what the channel reports to systemd, until the socket is closed. systemd-notify waits until it is read."""
        with contextlib.suppress(OSError):
            while self.notes.recv(4_096):
                pass

    def main_process(self):
        if self.process.poll() is not None:
            raise CannotStart(f"the channel in {self.folder} has ended with status {self.process.returncode}")
        return self.process.pid

    def end(self):
        """Ends the channel as systemd does: SIGTERM for each of its processes."""
        with contextlib.suppress(ProcessLookupError):
            os.killpg(self.process.pid, signal.SIGTERM)
        try:
            self.process.wait(STOP_SECONDS)
        except subprocess.TimeoutExpired:
            os.killpg(self.process.pid, signal.SIGKILL)
            self.process.wait()
        os.close(self.end_of_pipe)
        self.notes.close()
        shutil.rmtree(self.folder)


class UnitChannel:
    """A channel of systemd, plant@NAME of the installed package. It must not exist before, and is removed at the end."""

    def __init__(self, name, plant, root=pathlib.Path("/")):
        self.name, self.plant, self.state = name, root / f"etc/plant_script/{name}.toml", root / f"var/lib/plant_script/{name}"
        self.pipe, self.answers = root / f"run/plant_script/{name}/in", self.state / "answers"
        if self.plant.exists() or self.state.exists():
            raise CannotStart(f"there is a channel {name}: remove {self.plant} and {self.state}, if it is of no use")
        self.plant.write_text(plant)
        try:
            self.ask("start", f"plant@{name}")
        except CannotStart:
            self.end()
            raise

    def ask(self, *words):
        done = subprocess.run(["systemctl", *words], capture_output=True, text=True, check=False)
        if done.returncode:
            raise CannotStart(f"systemctl {' '.join(words)}: {done.stderr.strip()}")
        return done.stdout.strip()

    def main_process(self):
        process = int(self.ask("show", "-P", "MainPID", f"plant@{self.name}"))
        if not process:
            raise CannotStart(f"plant@{self.name} does not run: journalctl -u plant@{self.name}")
        return process

    def end(self):
        with contextlib.suppress(CannotStart):
            self.ask("stop", f"plant@{self.name}.socket", f"plant@{self.name}")
        self.plant.unlink(missing_ok=True)
        for folder in (self.state, self.pipe.parent):
            shutil.rmtree(folder, ignore_errors=True)


def present_processes(main):
    """Returns the processes of a channel. Some of them, which report to systemd, end soon."""
    for _ in range(LOOKS):
        with contextlib.suppress(OSError):
            return processes(main)
    raise CannotStart(f"the process {main} of a channel has ended")


def processor_seconds(main):
    """Returns the processor time that the processes of a channel have taken so far, and that of its copier."""
    total, copier = 0, 0
    for process in present_processes(main):
        with contextlib.suppress(OSError):
            name, fields = pathlib.Path(f"/proc/{process}/stat").read_text().rsplit(")", 1)
            spent = sum(map(int, fields.split()[11:15 if process == main else 13]))
            total, copier = total + spent, copier + spent * name.endswith("(sed")
    return total / TICKS, copier / TICKS
