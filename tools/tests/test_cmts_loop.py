"""Tests examples/cmts_loop: what it prints is what the second implementation says, and what its page shows."""

import re
import subprocess
import tempfile
import unittest

from service.reference.answers import reference_answer
from service.reference.plant import read_plant
from tools import EXAMPLES
from tools.compare import c_library

FOLDER = EXAMPLES / "cmts_loop"
PLANT = EXAMPLES / "plant_p2.toml"
FRAMES = 5


def script_of(arrivals, frames):
    """Returns the script of a list of arrivals."""
    rows = [line.split() for line in arrivals.splitlines() if not line.startswith("#")]
    lines = []
    for frame in range(frames):
        lines += [" ".join(["Q" if len(row) == 4 else "M", *row[1:]]) for row in rows if int(row[0]) == frame] + ["T"]
    return "\n".join(lines) + "\n"


def printed_of(line, names):
    """Returns the lines that the program prints for a line of `run`."""
    kind, who, *rest = line.split(" ")
    if kind == "R":
        return [f"reply to {who}: {rest[0]}"]
    if kind == "S":
        return [f"no reply to {who}: {rest[0]}"]
    if kind == "MAP":
        return [f"MAP {who}: {len(rest[0]) // 2} bytes"]
    lines, frame = [], f"operator {names.index(who)}, frame {rest[0]}"
    for element in rest[1:]:
        sid, *numbers = element.split("/")
        if numbers == ["P"]:
            lines.append(f"{frame}: SID {sid} has a grant pending")
        elif sid != "0":
            start, length = int(numbers[1]), int(numbers[2])
            lines.append(f"{frame}: SID {sid} has minislots {start} to {start + length - 1}")
    return lines


def expected_lines():
    """Returns what the second implementation says of the example."""
    plant = PLANT.read_text()
    status, text = reference_answer(["run"], f"{plant}---\n{script_of((FOLDER / 'arrivals.list').read_text(), FRAMES)}".encode())
    names = [row.name for row in read_plant(plant).rows]
    assert status == 0
    return [line for answer in text.decode().splitlines() for line in printed_of(answer, names)]


class Page(unittest.TestCase):
    def test_shows_what_the_second_implementation_says(self):
        page = (FOLDER / "README.md").read_text()
        self.assertIn(f"    ./cmts_loop ../plant_p2.toml arrivals.list {FRAMES}\n", page)
        block = re.search(r"\nIt prints\n\n((?:    .*\n)+)", page.replace(". It prints\n", ".\nIt prints\n"))[1]
        self.assertEqual([line.removeprefix("    ") for line in block.splitlines()], expected_lines())

    def test_the_program_has_under_200_lines(self):
        self.assertLess(len((FOLDER / "cmts_loop.c").read_text().splitlines()), 200)


@unittest.skipUnless(c_library.is_built(), "the library for C is not built (tools/ci/build_channel_c): examples/cmts_loop did not run")
class Program(unittest.TestCase):
    @classmethod
    def setUpClass(cls):
        folder = tempfile.TemporaryDirectory()
        cls.addClassCleanup(folder.cleanup)
        cls.program = c_library.build_program(FOLDER / "cmts_loop.c", folder.name)

    def run_program(self, *words):
        done = subprocess.run([self.program, *words], capture_output=True, text=True, check=False)
        return done.returncode, done.stdout.splitlines(), done.stderr

    def test_prints_what_the_second_implementation_says(self):
        self.assertEqual(self.run_program(PLANT, FOLDER / "arrivals.list", str(FRAMES)), (0, expected_lines(), ""))

    def test_says_what_is_wrong(self):
        arrivals = FOLDER / "arrivals.list"
        self.assertEqual(self.run_program(), (2, [], "cmts_loop: usage: cmts_loop PLANT ARRIVALS FRAMES\n"))
        self.assertEqual(self.run_program(arrivals, arrivals, "1"), (1, [], "cmts_loop: the plant file is refused: the plant file is not TOML\n"))


if __name__ == "__main__":
    unittest.main()
