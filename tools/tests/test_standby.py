"""Tests of service/standby with two folders on one machine. As a command it measures how many answered lines a standby lacks:

    python3 -m tools.tests.test_standby PROGRAM [KILLS [LINES_A_SECOND]]
"""

import io
import os
import pathlib
import random
import subprocess
import sys
import tempfile
import time
import unittest

from service.replication.standby import CannotGoOn, Journal, hand_on, put_journal
from tools import EXAMPLES, ROOT

STANDBY, PLANT = ROOT / "service/standby", (EXAMPLES / "plant_p2.toml").read_bytes()
JOURNAL = b"=line 5\n=melfjits-snapshot 1 2\n=a\n=---\n=frame 3 0\n=end 6 9\n\n"


class Site:
    """An active service and its standby, each with a folder."""

    def __init__(self, place, program):
        self.place, self.program, self.answers = pathlib.Path(place), program, pathlib.Path(place) / "answers"
        for name in ("active", "standby"):
            (self.place / name).mkdir()
        self.start()
        self.wait(lambda: b"S line" in self.answers.read_bytes())
        # (the shell notes which process sends)
        sender = ["sh", "-c", 'echo $$ >"$0/sender"; exec "$1" send "$0/active"', self.place, STANDBY]
        self.standby = subprocess.Popen([STANDBY, "follow", self.place / "standby", *sender], stdout=subprocess.DEVNULL, stderr=subprocess.PIPE,
                                        env={**os.environ, "PLANT_SCRIPT": str(program)})
        self.wait(lambda: (self.place / "standby/journal").exists())

    def start(self, plant=PLANT):
        with self.answers.open("ab") as answers:
            words = [self.program, "serve", "--state", self.place / "active", "--snapshot-every", "50"]
            self.active = subprocess.Popen(words, stdin=subprocess.PIPE, stdout=answers, bufsize=0)
        self.active.stdin.write(plant + b"---\n")

    def wait(self, holds):
        end = time.monotonic() + 300
        while not holds():
            assert time.monotonic() < end, "too late"
            time.sleep(0.01)

    def total(self, name):
        return Journal(self.place / name / "journal").total()

    def lose(self):
        """Kills the sender, and then the active service, as if their machine ended. Returns what the standby said once it has ended."""
        os.kill(int((self.place / "sender").read_text()), 9)
        self.active.kill()
        self.active.communicate()
        return self.standby.communicate(timeout=300)[1]

    def loss(self, seconds, rate):
        """Loses the machine after some seconds with ticks and invalid lines. Returns how many were answered, and how many of these the standby lacks."""
        end = time.monotonic() + seconds
        while time.monotonic() < end:
            self.active.stdin.write(b"T\nX\n")
            time.sleep(2 / rate)
        self.active.stdin.write(b"T\nX\n")
        time.sleep(random.uniform(0, 2 / rate))
        self.lose()
        answered = sum(line.startswith((b"MAP ", b"fault:")) for line in self.answers.read_bytes().split(b"\n")[:-1])
        return answered, answered - self.total("standby")


class Standby(unittest.TestCase):
    def setUp(self):
        place = tempfile.TemporaryDirectory()
        self.addCleanup(place.cleanup)
        self.place, self.program = pathlib.Path(place.name), pathlib.Path(place.name) / "program"
        self.program.write_text(f'#!/bin/sh\nexec {sys.executable} {ROOT}/service/reference "$@"\n')
        self.program.chmod(0o755)

    def test_a_standby_has_each_line_over_saved_states_and_restarts(self):
        site = Site(self.place, self.program)
        for text in (b"T\nX\n\nQ 020000000001 257 5\n" * 40, b"T\n"):
            for line in text.splitlines(keepends=True):
                site.active.stdin.write(line)
            site.active.communicate()
            site.wait(lambda: site.total("standby") == site.total("active"))
            site.start()
        self.assertEqual((site.lose(), site.standby.returncode, site.total("standby")), (b"", 1, 161))

    def test_a_standby_lacks_some_of_the_last_lines_at_most(self):
        self.assertLess(*reversed(Site(self.place, self.program).loss(1, 100)))

    def test_another_plant_file_or_a_line_in_no_journal_ends_it(self):
        for number, (plant, line) in enumerate(((PLANT + b"\n", b""), (PLANT, b"K\n"))):
            (self.place / str(number)).mkdir()
            site = Site(self.place / str(number), self.program)
            site.active.communicate(line)
            site.start(plant)
            self.assertIn(b"another plant file, or not all lines after 0\n", site.standby.communicate(timeout=300)[1])
            site.active.communicate()

    def test_a_standby_with_more_lines_is_kept(self):
        (self.place / "journal").write_bytes(JOURNAL + b"+T\n+T\n-T\n-")
        with self.assertRaisesRegex(CannotGoOn, "has more lines"):
            put_journal(self.place, JOURNAL + b"+T\n-T\n-")
        self.assertEqual(put_journal(self.place, JOURNAL + b"+T\n+X\n-"), b"a\n")

    def test_a_line_that_is_cut_is_not_handed_on(self):
        with tempfile.TemporaryFile() as file:
            hand_on(b"a\n", io.BytesIO(b"T\nQ 020000000001 257 1"), os.fdopen(os.dup(file.fileno()), "wb"))
            self.assertEqual(os.pread(file.fileno(), 100, 0), b"a\n---\nT\n")


def main(program, kills="20", rate="1000"):
    places = [tempfile.TemporaryDirectory(dir="/var/tmp") for _ in range(int(kills))]
    found = [Site(place.name, program).loss(random.uniform(0.5, 2), int(rate)) for place in places]
    lacks = sorted(lack for _, lack in found)
    print(f"{kills} kills, {rate} lines a second: {sum(count for count, _ in found)} lines answered; the standby lacks {lacks[len(lacks) // 2]} in the median, {lacks[-1]} at most")


if __name__ == "__main__":
    main(*sys.argv[1:])
