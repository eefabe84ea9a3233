"""Tests service/systemd/report_progress with processes of its own in place of a channel's, and a systemd-notify that only counts. Needs no systemd.

tools/ci/package_trial tries it under systemd with the real program.
"""

import contextlib
import io
import os
import pathlib
import re
import signal
import subprocess
import tempfile
import time
import unittest

from tools import ROOT

SCRIPT = ROOT / "service/systemd/report_progress"
TEXTS = {"report_progress": SCRIPT.read_text()}
SECONDS = 10
WATCHDOG_USEC = 400_000
# The time of some looks.
STILL_SECONDS = 1
READER = "while read -r line; do :; done"
# Reads a line, and then computes.
BUSY = "read -r line; while :; do :; done"
# Reads a line, and is then in the state of a process that waits for a disk: its child shares its memory until it executes or ends.
DISK = "import ctypes, os; os.read(0, 2); libc = ctypes.PyDLL(None); libc.vfork() or libc.pause()"


def wait_until(holds):
    end = time.monotonic() + SECONDS
    while not holds():
        if time.monotonic() > end:
            raise AssertionError("too late")
        time.sleep(0.01)


class Progress(unittest.TestCase):
    def setUp(self):
        folder = tempfile.TemporaryDirectory()
        self.addCleanup(folder.cleanup)
        self.folder = pathlib.Path(folder.name)
        os.mkfifo(self.folder / "in")
        self.lines = os.open(self.folder / "in", os.O_RDWR)
        self.addCleanup(os.close, self.lines)
        (self.folder / "notified").touch()
        (self.folder / "bin").mkdir()
        (self.folder / "bin/systemd-notify").write_text(f'#!/bin/sh\necho "$*" >>"{self.folder}/notified"\n')
        (self.folder / "bin/systemd-notify").chmod(0o755)
        self.path = self.folder / "report_progress"
        self.path.write_text(TEXTS["report_progress"])
        self.path.chmod(0o755)
        self.main = self.process(["sleep", "1000"])

    def process(self, words, **how):
        process = subprocess.Popen(words, start_new_session=True, **how)
        self.addCleanup(self.end, process)
        return process

    def end(self, process):
        with contextlib.suppress(ProcessLookupError):
            os.killpg(process.pid, signal.SIGKILL)
        process.wait()
        for stream in (process.stdin, process.stdout, process.stderr):
            if stream:
                stream.close()

    def channel(self, program=("sh", "-c", READER)):
        """Starts a program, and a process that copies the lines of the pipe into it."""
        given, taken = os.pipe()
        self.program = self.process(program, stdin=given)
        self.copier = self.process(["sed", "--unbuffered", ""], stdin=self.lines, stdout=taken)
        os.close(given)
        os.close(taken)
        self.report(self.program.pid, self.copier.pid)

    def report(self, program=None, *copiers):
        """Starts the script on processes, and waits for its first report."""
        for name, processes in (("program", [program] if program else []), ("copiers", copiers)):
            (self.folder / name).write_text(" ".join(map(str, processes)) + "\n")
        environment = {"PATH": f"{self.folder}/bin:{os.environ['PATH']}", "WATCHDOG_USEC": str(WATCHDOG_USEC), "JOURNAL_STREAM": "8:1"}
        self.script = self.process([self.path, str(self.main.pid), self.folder], stdin=self.lines, stderr=subprocess.PIPE, text=True, env=environment)
        wait_until(lambda: self.count() > 0)

    def count(self):
        return (self.folder / "notified").read_text().count("WATCHDOG=1\n")

    def is_reported(self):
        """Returns whether progress is reported from some looks on."""
        time.sleep(WATCHDOG_USEC / 1e6)
        before = self.count()
        time.sleep(STILL_SECONDS)
        return self.count() > before

    def send(self, text):
        os.write(self.lines, text.encode())

    def state(self, process):
        return re.search(r"(?m)^State:\t(\S)", pathlib.Path(f"/proc/{process.pid}/status").read_text())[1]

    def stop(self, process):
        os.kill(process.pid, signal.SIGSTOP)
        wait_until(lambda: self.state(process) == "T")

    def test_a_channel_that_waits_for_lines_makes_progress(self):
        self.channel()
        self.assertTrue(self.is_reported())

    def test_a_channel_that_handles_lines_makes_progress(self):
        self.channel()
        before = self.count()
        for _ in range(200):
            self.send("T\n")
            time.sleep(0.005)
        self.assertGreater(self.count(), before + 3)

    def test_a_stopped_program_makes_none_until_it_goes_on(self):
        self.channel()
        for _ in range(2):
            self.stop(self.program)
            self.send("T\n")
            self.assertFalse(self.is_reported())
            os.kill(self.program.pid, signal.SIGCONT)
            self.assertTrue(self.is_reported())
        self.end(self.main)
        self.assertEqual(self.script.wait(SECONDS), 0)
        self.assertEqual(self.script.stderr.read(), f"<4>report_progress: process {self.program.pid} has lines to read, and was not scheduled for a while (state T): "
                         "the channel is started again unless it goes on\n" * 2)

    def test_a_program_that_is_slow_makes_progress(self):
        """Lines wait all the time, and at each look the program sleeps."""
        self.channel(("sh", "-c", "while read -r line; do sleep 0.05; done"))
        self.send("T\n" * 1_000)
        self.assertTrue(self.is_reported())

    def test_a_program_that_waits_for_ever_makes_none(self):
        self.channel(("sh", "-c", "read -r line; exec sleep 1000"))
        self.send("T\n")
        self.assertTrue(self.is_reported())
        self.send("T\n")
        self.assertFalse(self.is_reported())

    def test_a_stopped_copying_process_makes_none(self):
        self.channel()
        self.stop(self.copier)
        self.assertTrue(self.is_reported())
        self.send("T\n")
        self.assertFalse(self.is_reported())

    def test_a_stopped_script_makes_none(self):
        self.channel()
        self.stop(self.main)
        self.assertFalse(self.is_reported())

    def test_a_program_that_computes_makes_progress_though_lines_wait(self):
        """The copying process is stuck behind it, and was not scheduled."""
        self.channel(("sh", "-c", BUSY))
        self.send("T\n" * 40_000)
        time.sleep(0.5)
        self.assertTrue(self.is_reported())

    def test_a_program_that_waits_for_a_disk_makes_progress(self):
        self.channel(("python3", "-c", DISK))
        self.send("T\n")
        wait_until(lambda: self.state(self.program) == "D")
        self.send("T\n")
        self.assertTrue(self.is_reported())

    def test_between_two_programs_the_channel_makes_progress(self):
        self.channel()
        self.end(self.program)
        self.end(self.copier)
        self.send("T\n")
        self.assertTrue(self.is_reported())
        self.assertIsNone(self.script.poll())

    def test_without_a_copying_process_the_program_alone_is_looked_at(self):
        self.send("T\n")
        given, taken = os.pipe()
        self.addCleanup(os.close, taken)
        self.program = self.process(["sh", "-c", READER], stdin=given)
        os.close(given)
        self.report(self.program.pid)
        self.assertTrue(self.is_reported())
        self.stop(self.program)
        os.write(taken, b"T\n")
        self.assertFalse(self.is_reported())

    def test_wrong_arguments_are_refused(self):
        for words, number in ((["1"], "30000000"), (["1", "2", "3"], "30000000"), (["1", "2"], ""), (["1", "2"], "0"), (["1", "2"], "1s")):
            done = subprocess.run([self.path, *words], env={"PATH": os.environ["PATH"], "WATCHDOG_USEC": number}, capture_output=True, text=True, timeout=SECONDS, check=False)
            self.assertEqual((done.returncode, done.stderr), (2, "report_progress: usage: WATCHDOG_USEC=NUMBER report_progress MAIN NOTES\n"))


# Each edit of the script is a fault that the test which is named must notice.
EDITS = [
    ("a_stopped_program_makes_none_until_it_goes_on", 'seen[$1]=$switches\n', "seen[$1]=''\n"),
    ("a_program_that_is_slow_makes_progress", "    *ctxt_switches:)", "    none:)"),
    ("a_stopped_program_makes_none_until_it_goes_on", "        missed=0\n", ""),
    ("a_stopped_program_makes_none_until_it_goes_on", "done\nexit 0\n", "done\n"),
    ("a_program_that_waits_for_ever_makes_none", "!= [StT] ]]", "!= [tT] ]]"),
    ("a_stopped_copying_process_makes_none", "for process in $program $copiers", "for process in $program"),
    ("a_stopped_copying_process_makes_none", ' || ! has_input "$process" || hanging', " || hanging"),
    ("a_stopped_script_makes_none", "hanging=$main", "true"),
    ("a_program_that_computes_makes_progress_though_lines_wait", ' || [ -z "$is_read" ]', ""),
    ("a_program_that_computes_makes_progress_though_lines_wait", "is_read=''; else", "is_read=yes; else"),
    ("a_program_that_waits_for_a_disk_makes_progress", "!= [StT] ]]", "!= [DStT] ]]"),
    ("a_channel_that_handles_lines_makes_progress", "WATCHDOG_USEC / 4000000)) $((WATCHDOG_USEC / 4 ", "WATCHDOG_USEC / 1000000)) $((WATCHDOG_USEC "),
    ("without_a_copying_process_the_program_alone_is_looked_at", '0<>"/proc/$1/fd/0"', "0<&0"),
    ("wrong_arguments_are_refused", "[1-9][0-9]{3,12}$", "[0-9]+"),
]


def is_noticed(test, old, new):
    """Returns whether a test fails once the script has the edit."""
    text = TEXTS["report_progress"]
    assert text.count(old) == 1, f"report_progress has {text.count(old)} times: {old}"
    TEXTS["report_progress"] = text.replace(old, new)
    try:
        return not unittest.TextTestRunner(stream=io.StringIO()).run(Progress(f"test_{test}")).wasSuccessful()
    finally:
        TEXTS["report_progress"] = text


class Edits(unittest.TestCase):
    def test_each_edit_is_noticed(self):
        """A machine with other work may wake a program just at a look, so each edit has three tries."""
        self.assertEqual([edit for edit in EDITS if not any(is_noticed(*edit) for _try in range(3))], [])
