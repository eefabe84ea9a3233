"""Boots systemd in a folder that debootstrap filled, and runs commands there. Needs root and systemd-nspawn."""

import os
import pathlib
import shutil
import signal
import subprocess
import time

SUITE = "bookworm"
MIRROR = "http://deb.debian.org/debian"
INCLUDED = "systemd,systemd-sysv,dbus,man-db,bash-completion,python3,python3-prometheus-client"
BOOT_SECONDS = 60
COMMAND_SECONDS = 60


LAST_LINES = 10


class Failed(Exception):
    """A command failed, or something did not come in time."""


def last_lines(text):
    return "\n".join(text.splitlines()[-LAST_LINES:])


def run_here(*words, **how):
    """Runs a command of this machine, and returns what it printed."""
    done = subprocess.run(words, stdout=subprocess.PIPE, stderr=subprocess.STDOUT, text=True, check=False, **how)
    if done.returncode:
        raise Failed(f"{' '.join(map(str, words))} ended with status {done.returncode}:\n{last_lines(done.stdout)}")
    return done.stdout


def fill(folder, base, included=INCLUDED):
    """Fills a new folder with a Debian system: a copy of another such folder, or what debootstrap fetches, with these packages."""
    if base:
        run_here("cp", "--archive", "--reflink=auto", f"{base}/.", folder)
    else:
        run_here("debootstrap", "--variant=minbase", f"--include={included}", SUITE, folder, MIRROR)


class Container:
    """A booted system. `with` ends it."""

    def __init__(self, folder):
        self.folder = pathlib.Path(folder)
        self.boss = self.first = None

    def __enter__(self):
        self.boot()
        return self

    def __exit__(self, *_):
        self.stop()

    def boot(self):
        """Starts systemd as the first process of the container, and waits until the system is up."""
        words = ["systemd-nspawn", "--quiet", "--directory", self.folder, "--register=no", "--keep-unit", "--private-network", "--console=pipe", "--boot"]
        self.boss = subprocess.Popen(words, stdin=subprocess.DEVNULL, stdout=subprocess.DEVNULL, stderr=subprocess.STDOUT, start_new_session=True)
        end = time.monotonic() + BOOT_SECONDS
        while time.monotonic() < end:
            children = pathlib.Path(f"/proc/{self.boss.pid}/task/{self.boss.pid}/children").read_text().split()
            self.first = children[0] if children else None
            if self.first and self.ask("systemctl is-system-running").strip() in ("running", "degraded"):
                return
            if self.boss.poll() is not None:
                raise Failed(f"systemd-nspawn ended with status {self.boss.returncode}")
            time.sleep(0.1)
        raise Failed(f"the container is not up after {BOOT_SECONDS} seconds")

    def stop(self):
        """Powers the container off."""
        if self.boss is None:
            return
        # (the first process of a container takes this signal for a power off)
        os.kill(int(self.first), signal.SIGRTMIN + 4)
        try:
            self.boss.wait(BOOT_SECONDS)
        except subprocess.TimeoutExpired:
            self.boss.kill()
            self.boss.wait()
        self.boss = None

    def kill(self):
        """Kills all processes of the container at once."""
        os.kill(int(self.first), signal.SIGKILL)
        self.boss.wait(BOOT_SECONDS)
        self.boss = None

    def start(self, script):
        """Starts a script of sh in the container, and returns its process here."""
        words = ["nsenter", "--target", self.first, "--all", "--", "sh", "-c", script]
        environment = {"PATH": "/usr/sbin:/usr/bin:/sbin:/bin", "LANG": "C.UTF-8", "DEBIAN_FRONTEND": "noninteractive", "PAGER": "cat"}
        return subprocess.Popen(words, env=environment, stdin=subprocess.PIPE, stdout=subprocess.PIPE, stderr=subprocess.STDOUT, text=True)

    def status_of(self, script, given=""):
        """Runs a script in the container, and returns its exit status and what it printed."""
        process = self.start(script)
        try:
            output, _ = process.communicate(given, timeout=COMMAND_SECONDS)
        except subprocess.TimeoutExpired as late:
            process.kill()
            raise Failed(f"not done after {COMMAND_SECONDS} seconds: {script}") from late
        return process.returncode, output

    def ask(self, script, given=""):
        """Returns what a script prints, whatever its exit status."""
        return self.status_of(script, given)[1]

    def run(self, script, given=""):
        """Returns what a script prints, which must succeed."""
        status, output = self.status_of(script, given)
        if status:
            raise Failed(f"status {status}: {script}\n{last_lines(output)}")
        return output

    def write(self, name, text):
        path = self.folder / name.lstrip("/")
        path.parent.mkdir(parents=True, exist_ok=True)
        path.write_text(text)

    def copy(self, path, name):
        shutil.copy(path, self.folder / name.lstrip("/"))

    def wait_until(self, script, holds, what):
        """Runs a script until its output is as wanted."""
        end = time.monotonic() + COMMAND_SECONDS
        while not holds(output := self.ask(script)):
            if time.monotonic() > end:
                raise Failed(f"{what}; last output:\n{last_lines(output)}")
            time.sleep(0.1)
        return output
