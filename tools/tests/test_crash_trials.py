"""Tests tools/run ci/crash_trials: the second implementation loses nothing, and services that lose something are noticed."""

import argparse
import os
import pathlib
import shutil
import subprocess
import sys
import tempfile
import unittest

from tools import ROOT
from tools.durability.judging import Tally
from tools.durability.load import Load
from tools.durability.power import DiskFile
from tools.durability.trials import KINDS, REFERENCE

ENVIRONMENT = {**os.environ, "PYTHONPATH": str(ROOT)}
# A service that does what the second implementation does, with a mistake.
WRONG = """
import os, sys
from service.reference import journals, state_folders
from service.reference.answers import reference_answer
Journal, Service = journals.Journal, state_folders.StateService
{mistake}
words = sys.argv[1:]
if state_folders.has_state_option(words):
    sys.exit(state_folders.run(words))
sys.stdout.buffer.write(reference_answer(words, sys.stdin.buffer.read())[1])
"""
NO_ERRORS = """
sync = os.fdatasync
def fdatasync(file):
    try:
        sync(file)
    except OSError:
        pass
os.fdatasync = fdatasync
"""
# For each mistake the kind of trial that notices it.
MISTAKES = {
    "lines are not put in the journal": ("kill", "Service.do_batch = Service.do_lines"),
    "no line is synced": ("power", "os.fdatasync = lambda file: None"),
    "an error of the disk is passed over": ("fail", NO_ERRORS),
    "nothing is locked": ("two", "journals.fcntl.flock = lambda *both: None"),
    "the first line has the number of the last line": ("two", "Service.first_line = lambda self: f'S line {self.count} frame 0\\n'"),
}  # fmt: skip
SMALL = {"kill": (8, 1), "power": (4, 1), "fail": (1, 14), "two": (20, 1)}


def tried(kind, program, times, step):
    """Returns what a kind of trial finds."""
    asked, tally = argparse.Namespace(program=program, reference=REFERENCE, times=times, seed=3, step=step), Tally()
    with tempfile.TemporaryDirectory() as folder:
        KINDS[kind](tally, asked, pathlib.Path(folder).resolve())
    return tally


@unittest.skipUnless(shutil.which("gcc"), "gcc is not installed")
class Trials(unittest.TestCase):
    def setUp(self):
        before = os.environ.get("PYTHONPATH")
        os.environ["PYTHONPATH"] = str(ROOT)
        self.addCleanup(lambda: os.environ.pop("PYTHONPATH") if before is None else os.environ.update(PYTHONPATH=before))

    def test_the_second_implementation_loses_nothing(self):
        done = subprocess.run([ROOT / "tools/run", "ci/crash_trials", "--times", "2", "--step", "90", "--kinds", "kill,beginning,fail,power,limit,cut,change,two,both",
                               *REFERENCE], capture_output=True, text=True, timeout=600, check=False)
        self.assertEqual(done.returncode, 0, done.stdout + done.stderr)
        rows = [[cell.strip() for cell in line.strip("|\n").split("|")] for line in done.stdout.splitlines()][2:]
        self.assertEqual([row[0] for row in rows], ["kill", "beginning", "fail", "power", "limit", "cut", "change", "two", "both"])
        for row in rows:
            self.assertGreater(int(row[1]), 0, row)
            self.assertEqual(row[3:7], ["0", "0", "0", "0"], row)

    def test_mistakes_are_noticed(self):
        for name, (kind, mistake) in MISTAKES.items():
            with self.subTest(name):
                found = tried(kind, [sys.executable, "-P", "-c", WRONG.format(mistake=mistake)], *SMALL[kind])
                self.assertFalse(found.is_right(), found)


class Parts(unittest.TestCase):
    def test_places_of_answers(self):
        load = Load.__new__(Load)
        load.lines, load.text, load.places = [b"a", b"b", b"c"], b"11\n22\n", [0, 3, 3, 6]
        self.assertEqual([load.touched(1, size) for size in range(7)], [0, 1, 1, 1, 3, 3, 3])
        self.assertEqual([load.touched(2, size) for size in range(3)], [1, 3, 3])
        self.assertEqual([load.place(number) for number in (1, 2, 3, 4, 9)], [0, 3, 3, 6, 6])

    def test_what_a_crash_leaves_of_a_file(self):
        class First:
            """Takes the first of what there is to choose from, or the one that is named."""
            def __init__(self, source):
                self.source = source

            def choice(self, these):
                return self.source if self.source in tuple(these) else these[0]

            def randint(self, least, _greatest):
                return least

        file = DiskFile(bytearray(b"abXY"), b"abc", [(2, 4)])
        self.assertEqual([file.left(way, None) for way in ("all", "nothing that is not synced")], [b"abXY", b"abc"])
        self.assertEqual([file.left("torn", First(source)) for source in ("old", "new", "any")], [b"abc", b"abX", b"ab+"])


if __name__ == "__main__":
    unittest.main()
