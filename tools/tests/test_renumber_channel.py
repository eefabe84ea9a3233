"""Tests tools/run renumber_channel: on a channel that the second implementation serves, and its numbers by the rules of docs/FORMATS.md."""

import contextlib
import os
import pathlib
import re
import shutil
import subprocess
import sys
import tempfile
import threading
import time
import types
import unittest

from service.watching import renumber_channel
from service.watching.renumber_channel import HALF, LAST_FRAME, Ended, judge, least_number, step_of
from tools import EXAMPLES, ROOT

PLANT = (EXAMPLES / "plant_p2.toml").read_text()
# 72 minislots are 8 times 9, so numbers are 2^29 apart. This one is the sixth, beyond three quarters.
STEP, HIGH = 536_870_912, 6 * 536_870_912
SECONDS = 60


def plant(minislots=72, microseconds=2_000, first=0):
    return types.SimpleNamespace(frame_minislots=minislots, frame_us=microseconds, first_frame=first)


class Numbers(unittest.TestCase):
    def test_the_distance_keeps_the_alloc_start_time(self):
        for minislots, step in ((72, 2**29), (4_096, 2**20), (2, 2**31), (71, 2**32)):
            self.assertEqual(step_of(plant(minislots)), step)

    def test_the_example_of_the_page(self):
        """The page gives 4,290,000,001 the number 531,903,617. All lesser ones that keep the time are less than 0."""
        self.assertEqual(least_number(plant(), 4_290_000_001), 531_903_617)

    def test_the_least_one_that_surely_fits(self):
        """An interval has at most 4,294,967,295 microseconds: 2,147,483 frames of 2 milliseconds."""
        for frame, number in ((5 * STEP + 2_147_483, 2_147_483), (5 * STEP + 2_147_482, STEP + 2_147_482), (5 * STEP + 2_200_000, 2_200_000)):
            self.assertEqual(least_number(plant(), frame), number)
        self.assertEqual(least_number(plant(first=3 * STEP), 5 * STEP + 1), 3 * STEP + 1)
        self.assertIsNone(least_number(plant(first=5 * STEP), 5 * STEP + 1))
        self.assertIsNone(least_number(plant(71), LAST_FRAME))

    def test_a_number_that_may_fit_is_taken_late(self):
        """With frames of 1 microsecond an interval may have nearly as many frames as there are."""
        self.assertIsNone(least_number(plant(microseconds=1), HALF + 7))
        self.assertEqual(least_number(plant(microseconds=1), HIGH + 7), 7)

    def ended(self, *words):
        with self.assertRaises(Ended) as found:
            judge(*words)
        return found.exception.status, str(found.exception)

    def test_why_none_fits(self):
        self.assertIsNone(judge(plant(), HIGH))
        self.assertEqual(self.ended(plant(71), HALF), (3, "After frame 2147483648, 49.7 days of frames are left. frame_minislots is odd (71), so that no other number "
                                                          "fits: let the channel begin anew with an even one"))
        self.assertEqual(self.ended(plant(2), HALF + 5), (0, ""))
        self.assertRegex(self.ended(plant(first=HIGH), HIGH + 5)[1], "first_frame is 3221225472, so that no lesser number fits")


class Channel(unittest.TestCase):
    def setUp(self):
        folder = tempfile.TemporaryDirectory()
        self.addCleanup(folder.cleanup)
        self.top = pathlib.Path(folder.name)
        (self.top / "folder").mkdir()
        (self.top / "plant.toml").write_text("the folder has another one")
        os.mkfifo(self.top / "in")
        self.pipe = os.open(self.top / "in", os.O_RDWR)
        self.addCleanup(os.close, self.pipe)

    def serve(self, lines, text=PLANT):
        """Starts a channel, and waits until it has answered lines."""
        os.write(self.pipe, f"{text}---\n{lines}".encode())
        with open(self.top / "answers", "wb") as answers:
            words = [sys.executable, ROOT / "service/reference", "serve", "--state", self.top / "folder"]
            process = subprocess.Popen(words, stdin=self.pipe, stdout=answers)
        for done in (process.wait, process.kill):
            self.addCleanup(done)
        end = time.monotonic() + SECONDS
        while self.answers().count("MAP ") < lines.count("T\n"):
            self.assertLess(time.monotonic(), end)
            time.sleep(0.05)

    def answers(self):
        return (self.top / "answers").read_text()

    def tick(self, period, line=b"T\n", file=None):
        """Writes a tick into the pipe, or a line into a file, once a period until the test has ended."""
        is_done, file = threading.Event(), self.pipe if file is None else file

        def write():
            while not is_done.wait(period):
                os.write(file, line)

        thread = threading.Thread(target=write)
        thread.start()
        for done in (thread.join, is_done.set):
            self.addCleanup(done)

    def renumber(self, **settings):
        environment = {**os.environ, "ANSWERS": str(self.top / "answers"), "FOLDER": str(self.top / "folder"), **settings}
        environment.pop("JOURNAL_STREAM", None)
        done = subprocess.run([ROOT / "tools/run", "renumber_channel", self.top / "plant.toml", self.top / "in"], capture_output=True, text=True, check=False, env=environment)
        self.assertEqual(done.stdout, "")
        return done.returncode, done.stderr

    def test_a_channel_that_ticks_gets_a_lesser_number(self):
        self.serve(f"T\nN {HIGH + 1}\nT\n")
        self.tick(0.02)
        status, errors = self.renumber()
        self.assertEqual(status, 0, errors)
        said = r"renumber_channel: frames go on with number (\d+), since frame (\d+) was beyond half of all numbers. \S+ days of frames are left\n"
        number, frame = map(int, re.fullmatch(said, errors).groups())
        self.assertEqual((number % STEP, frame > HIGH), (number - STEP, True))
        self.assertIn(f"\nN frame {number}\n", self.answers())
        self.assertEqual(self.renumber(), (0, ""))

    def test_nothing_is_done_early_nor_without_ticks(self):
        self.serve("T\nT\n")
        self.assertEqual(self.renumber(), (0, ""))
        os.write(self.pipe, f"N {HIGH + 2}\nT\n".encode())
        time.sleep(1)
        self.assertEqual(self.renumber(), (0, ""))
        self.assertEqual(self.answers().count("N frame"), 1)
        self.assertEqual(self.renumber(FOLDER="", STATE=""), (0, ""))

    def test_operators_that_tick_apart(self):
        """Operator A is a frame before B all the time, so that each line is refused and nothing is changed."""
        self.serve(f"T\nN {HIGH + 1}\nT\n")
        os.write(self.pipe, b"T A\n")
        self.tick(0.03, b"T A\nT B\n")
        status, errors = self.renumber()
        self.assertEqual(status, 1)
        self.assertRegex(errors, "the channel refuses each of 24 lines N")
        self.assertEqual((self.answers().count("N frame"), self.answers().count("fault: line") > 24), (1, True))

    def test_an_odd_number_of_minislots(self):
        (self.top / "plant.toml").write_text(PLANT.replace("frame_minislots = 72", "frame_minislots = 73"))
        file = os.open(self.top / "answers", os.O_WRONLY | os.O_CREAT | os.O_APPEND)
        self.addCleanup(os.close, file)
        self.tick(0.2, f"MAP {HIGH} 01\n".encode(), file)
        status, errors = self.renumber(FOLDER="", STATE="state")
        self.assertEqual((status, "frame_minislots is odd (73)" in errors), (3, True), errors)

    def test_the_next_frame_is_after_the_last_map(self):
        (self.top / "answers").write_text("MAP 6 01\n")
        channel = renumber_channel.Channel(self.top / "in", self.top / "answers")
        with open(self.top / "answers", "a", encoding="ascii") as file:
            file.write("MAP 7 01\nF A 8 0/6/8/32\nMAP 8 01\nMAP 9")
        self.assertEqual(channel.next_frame(), 9)

    def test_refusals(self):
        self.assertEqual(self.renumber(ANSWERS=""), (2, "renumber_channel: the answers are in no file (ANSWERS)\n"))
        with contextlib.suppress(FileNotFoundError):
            shutil.rmtree(self.top / "folder")
        with self.assertRaises(Ended) as found:
            renumber_channel.plant_in_service("/nowhere", self.top / "folder")
        self.assertEqual(found.exception.status, 3)
        with self.assertRaises(Ended) as found:
            renumber_channel.Channel("/nowhere/in", "/nowhere/answers").request([5])
        self.assertEqual(found.exception.status, 6)


if __name__ == "__main__":
    unittest.main()
