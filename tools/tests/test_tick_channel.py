"""Tests service/systemd/tick_channel, with a pipe that stays open as systemd keeps it. tools/ci/package_trial tries it under systemd."""

import os
import pathlib
import signal
import subprocess
import tempfile
import time
import unittest

from tools import EXAMPLES, ROOT

SCRIPT = ROOT / "service/systemd/tick_channel"
SECONDS = 10


class Ticks(unittest.TestCase):
    def setUp(self):
        folder = tempfile.TemporaryDirectory()
        self.addCleanup(folder.cleanup)
        self.folder = pathlib.Path(folder.name)
        os.mkfifo(self.folder / "in")
        self.pipe = os.open(self.folder / "in", os.O_RDWR)
        self.addCleanup(os.close, self.pipe)

    def start(self, plant, *words, pipe="in"):
        (self.folder / "plant.toml").write_text(plant)
        process = subprocess.Popen([SCRIPT, "plant.toml", pipe, *words], cwd=self.folder, stderr=subprocess.PIPE, text=True)
        self.addCleanup(process.stderr.close)
        self.addCleanup(process.wait)
        self.addCleanup(process.kill)
        return process

    def read(self, count):
        """Returns so many bytes of the pipe."""
        found = b""
        while len(found) < count:
            found += os.read(self.pipe, count - len(found))
        return found

    def refusal(self, process):
        return process.wait(SECONDS), process.stderr.read()

    def test_a_line_for_each_frame_without_drift(self):
        """Bounds from both sides hold on a busy machine too: a late line does not delay the next ones."""
        self.start("[plant]\nframe_us = 5000 # microseconds\n")
        self.read(2)
        started = time.monotonic()
        self.assertEqual(self.read(400), b"T\n" * 200)
        self.assertLess(abs(time.monotonic() - started - 1.0), 0.2)

    def test_the_time_of_the_examples_is_read(self):
        for name in ("plant_p2.toml", "every_key/check.txt"):
            process = self.start((EXAMPLES / name).read_text())
            started = time.monotonic()
            self.read(2_002)
            self.assertLess(abs(time.monotonic() - started - 2.0), 0.4)
            process.kill()
            process.wait()
            os.set_blocking(self.pipe, False)
            while self.rest():
                pass
            os.set_blocking(self.pipe, True)

    def rest(self):
        try:
            return os.read(self.pipe, 65_536)
        except BlockingIOError:
            return b""

    def test_a_full_pipe_is_not_made_up_for(self):
        process = self.start("frame_us = 1000")
        time.sleep(0.3)
        before = self.rest()
        os.kill(process.pid, signal.SIGSTOP)
        time.sleep(1.5)
        os.kill(process.pid, signal.SIGCONT)
        time.sleep(0.3)
        os.set_blocking(self.pipe, False)
        self.assertLess(len(before) / 2 + len(self.rest()) / 2, 1_200)
        process.kill()
        said = process.stderr.read().splitlines()
        self.assertRegex(said[0], r"^tick_channel: no line for \d{4} milliseconds, or the clock was set back$")
        # (a busy machine may stop it once more)
        self.assertLess(len(said), 4)

    def test_refusals(self):
        for plant in ("", "frame_us = x", "frame_us = 2_000", "frame_us = 0x10", "frame_us = 0", "# frame_us = 1", "---\nframe_us = 1"):
            self.assertEqual(self.refusal(self.start(plant)), (3, "tick_channel: no frame_us, a decimal number, in the plant file plant.toml\n"))
        self.assertEqual(self.refusal(self.start("frame_us = 1", "more")), (2, "tick_channel: usage: tick_channel PLANT PIPE\n"))
        self.assertEqual(self.refusal(self.start("frame_us = 1", pipe="/nowhere/in"))[0], 6)
