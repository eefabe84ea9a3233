"""Tests service/plan_capacity: by channels of the second implementation, and by the library for C if that is built."""

import contextlib
import io
import re
import subprocess
import tempfile
import unittest

from bindings.python.melfjits import Reply
from service.planning import plan_capacity as TOOL
from service.reference.plant import read_plant
from service.reference.program import Core
from tools import EXAMPLES, ROOT
from tools.compare import c_library

# Budget 32, 4 flows, 8 elements, 4 cached responses. A call of 232 bytes takes 15 minislots of 16 bytes and an element.
# A best effort flow takes no minislot without a reserve, and two elements.
P2 = EXAMPLES / "plant_p2.toml"
VOICE, DATA = ["type=ugs", *TOOL.VOICE.split()], ["type=be"]
FULL = 3


class ReferenceChannel(contextlib.nullcontext):
    """A channel of the second implementation, with the calls that the command makes."""

    def __init__(self, text):
        super().__init__(self)
        self.core, self.lines = Core(read_plant(text)), []

    def arrive(self, modem, message):
        place = next(place for place, row in enumerate(self.core.plant.rows) if modem in row.modems)
        self.lines += self.core.arrive(place, modem, message) + self.core.work(place)

    def tick(self, place):
        self.lines += self.core.tick(place)

    def outputs(self):
        lines, self.lines = self.lines, []
        return [Reply(0, line.split(" ")[1], bytes.fromhex(line.split(" ")[2])) for line in lines if line.startswith("R ")]


def plans(text, calls=0, voice=VOICE, data=DATA):
    return list(TOOL.plans(lambda: ReferenceChannel(text), read_plant(text), voice, data, calls))


class Plans(unittest.TestCase):
    def test_flows_are_added_until_one_is_refused(self):
        self.assertEqual(plans(P2.read_text()), [("A", (2, FULL), (4, FULL)), ("B", (2, FULL), (4, FULL))])

    def test_flows_next_to_calls(self):
        self.assertEqual(plans(P2.read_text(), 1)[0], ("A", (2, FULL), (3, FULL)))
        self.assertEqual(plans(P2.read_text(), 3)[0], ("A", (2, FULL), (None, FULL)))

    def test_each_limit_counts(self):
        text = P2.read_text()
        for old, new, voices, flows in (("budget = 32", "budget = 29", 1, 4), ("elements = 8", "elements = 7", 2, 3), ("flows = 4", "flows = 1", 1, 1),
                                        ("sids = [257, 272]", "sids = [257, 258]", 2, 2), ("transactions = 4", "transactions = 1", 2, 4)):
            self.assertEqual(plans(text.replace(old, new, 1))[0], ("A", (voices, FULL), (flows, FULL)), new)

    def test_other_flows(self):
        """512,000 bits a second are 8 minislots of a frame."""
        found = plans(P2.read_text(), voice=["type=ugs", *"size=120 interval=10000 grants=1".split()], data=["type=be", "reserved=512000"])
        self.assertEqual(found[0], ("A", (4, FULL), (4, FULL)))
        missing = 8
        self.assertEqual(plans(P2.read_text(), voice=["type=ugs", "size=232"])[0][1], (0, missing))

    def test_the_table(self):
        printed = io.StringIO()
        with contextlib.redirect_stdout(printed):
            TOOL.print_plans([("A", (2, FULL), (None, FULL)), ("B", (0, None), (12, FULL))], 3)
        rows = [re.split(r" *\| *", line)[1:-1] for line in printed.getvalue().splitlines()]
        self.assertEqual(rows[0], ["operator", "calls", "the next is refused", "flows, 3 calls", "the next is refused"])
        self.assertEqual(rows[2:], [["A", "2", "3 (reject-temporary)", "-", "3 (reject-temporary)"], ["B", "0", "-", "12", "3 (reject-temporary)"]])
        self.assertEqual(len({len(line) for line in printed.getvalue().splitlines()}), 1)


@unittest.skipUnless(c_library.is_built(), "the library for C is not built (tools/ci/build_channel_c): no capacity was planned by it")
class Command(unittest.TestCase):
    def setUp(self):
        folder = tempfile.TemporaryDirectory()
        self.addCleanup(folder.cleanup)
        c_library.build_shared(folder.name)
        self.library = f"{folder.name}/libmelfjits.so"

    def run_command(self, *words):
        done = subprocess.run([ROOT / "service/plan_capacity", *words, "--library", self.library], capture_output=True, text=True, check=False)
        return done.returncode, [re.split(r" *\| *", line)[1:-1] for line in done.stdout.splitlines()[2:]], done.stderr

    def test_the_library_says_the_same_as_the_second_implementation(self):
        status, rows, errors = self.run_command(P2, "--calls", "1")
        self.assertEqual((status, errors), (0, ""))
        expected = [[name, str(voices), f"{code} (reject-temporary)", str(flows), f"{next_code} (reject-temporary)"]
                    for name, (voices, code), (flows, next_code) in plans(P2.read_text(), 1)]
        self.assertEqual(rows, expected)

    def test_what_is_wrong(self):
        for words, status, text in (([ROOT / "README.md"], 3, "the plant file is not TOML"), ([P2, "--data", "foo=1"], 2, "foo=1: no such field"),
                                    (["nowhere"], 6, "No such file")):
            found = self.run_command(*words)
            self.assertEqual(found[:2], (status, []))
            self.assertIn(text, found[2])


if __name__ == "__main__":
    unittest.main()
