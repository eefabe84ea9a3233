"""Tests what no contract says: how often `serve` allocates for a line whose like it has answered before."""

import os
import pathlib
import shutil
import subprocess
import tempfile
import unittest

from tools import ROOT
from tools.compare.program import PROGRAM
from tools.measure.latency import OPERATORS, address, first_of, plant_text

SOURCE = ROOT / "tools/measure/count_allocations.c"
SECONDS = 60
BEFORE, AFTER = 6, 30


def requests(minislots):
    """Returns a bandwidth request of the active flow of each operator."""
    return "".join(f"Q {address(place, 0)} {first_of(place)} {minislots}\n" for place in range(OPERATORS))


@unittest.skipUnless(shutil.which("gcc"), "gcc is not installed: no allocation was counted")
@unittest.skipUnless(os.access(PROGRAM, os.X_OK), "the program is not built: no allocation was counted")
class Allocations(unittest.TestCase):
    @classmethod
    def setUpClass(cls):
        folder = tempfile.TemporaryDirectory()
        cls.addClassCleanup(folder.cleanup)
        cls.library, cls.count = pathlib.Path(folder.name, "count.so"), pathlib.Path(folder.name, "count")
        subprocess.run(["gcc", "-shared", "-fPIC", "-O1", "-o", cls.library, SOURCE], check=True)

    def allocations(self, script):
        """Returns how often `serve` allocates on a script, which it answers with a MAP for each tick."""
        environment = {"LD_PRELOAD": str(self.library), "COUNT_ALLOCATIONS": str(self.count)}
        done = subprocess.run([PROGRAM, "serve"], input=f"{plant_text()}---\n{script}", env=environment, capture_output=True, text=True,
                              timeout=SECONDS, check=True)
        self.assertEqual(done.stdout.count("\nMAP "), script.count("T\n"))
        self.assertNotIn("fault", done.stdout)
        return int(self.count.read_text())

    def more_for(self, lines):
        """Returns how often `serve` allocates for lines that it has answered some times before."""
        return (self.allocations(lines * AFTER) - self.allocations(lines * BEFORE)) / (AFTER - BEFORE)

    def test_ticks_allocate_nothing_but_the_list_of_their_steps(self):
        """32 operators are ticked, each with an active flow: first without requests, then with some that a frame grants in part."""
        self.assertEqual(self.more_for("T\n"), 1)
        self.assertEqual(self.more_for(requests(150) + "T\n"), OPERATORS + 1)
        self.assertEqual(self.more_for(requests(20) + "T\n"), OPERATORS + 1)


if __name__ == "__main__":
    unittest.main()
