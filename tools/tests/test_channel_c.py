"""Tests the library for C: its answers, its numbers, short buffers, and its memory."""

import ctypes
import shutil
import subprocess
import tempfile
import unittest

from service.reference.answers import reference_answer
from service.reference.plant import read_plant
from tools import EXAMPLES
from tools.compare import c_library
from tools.compare.c_library import DONE, HEADER, NONE_WAITS, SHORT, Channel, names_of_codes

P2 = (EXAMPLES / "plant_p2.toml").read_bytes()
A1 = "020000000001"
FIRST = bytes.fromhex("0F0001180A010200010601060F0102")
FIRST_REPLY = "10000100180E0102000102040000010103020101"
SCRIPTS = ("two_operators", "one_operator_alone", "other_slices", "unsolicited_grants/run", "deletions/run", "silent_causes/run", "polling/run",
           "best_effort/run", "resend_and_give_up/run", "refusals/run", "provisioned_flows/run", "class_names/run")
NOT_BUILT = "the library for C is not built (tools/ci/build_channel_c): nothing was tested"


@unittest.skipUnless(c_library.is_built(), NOT_BUILT)
class LibraryForC(unittest.TestCase):
    @classmethod
    def setUpClass(cls):
        folder = tempfile.TemporaryDirectory()
        cls.addClassCleanup(folder.cleanup)
        cls.folder, cls.library = folder.name, c_library.build_shared(folder.name)

    def opened(self, text=P2):
        channel = Channel(self.library)
        self.assertEqual(channel.open(text), DONE)
        self.addCleanup(channel.close)
        channel.names = [row.name for row in read_plant(text.decode()).rows]
        return channel

    def test_a_c_program_prints_the_first_reply(self):
        program = c_library.build_program(HEADER / "first_reply.c", self.folder)
        done = subprocess.run([program, EXAMPLES / "plant_p2.toml"], capture_output=True, text=True, check=True)
        self.assertEqual(done.stdout, f"{FIRST_REPLY}\n")
        if shutil.which("valgrind") is None:
            self.skipTest("valgrind is not installed: memory was not checked")
        checked = subprocess.run(["valgrind", "-q", "--leak-check=full", "--show-leak-kinds=all", "--error-exitcode=9", program, EXAMPLES / "plant_p2.toml"],
                                 capture_output=True, text=True)
        self.assertEqual((checked.returncode, checked.stderr), (0, ""))

    def test_scripts_are_answered_as_by_the_second_implementation(self):
        for name in SCRIPTS:
            data = (EXAMPLES / f"{name}.txt").read_bytes()
            plant, _, script = data.partition(b"---\n")
            channel, lines = self.opened(plant), []
            for line in script.decode().splitlines():
                if line:
                    self.assertEqual(channel.perform(line), DONE, (name, line))
                    lines += channel.lines()
            status, text = reference_answer(["run"], data)
            self.assertEqual((status, text.decode().splitlines()), (0, lines), name)

    def test_outputs_wait_until_they_are_fetched(self):
        lines = [f"M {A1} {FIRST.hex()}", f"M {A1} 11000100", f"Q {A1} 257 5", "T", "T"]
        late, soon, fetched = self.opened(), self.opened(), []
        for line in lines:
            self.assertEqual((late.perform(line), soon.perform(line)), (DONE, DONE))
            fetched += soon.lines()
        code, head = late.fetch()
        found = [late.line_of(head)]
        self.assertEqual((code, late.perform("T"), soon.perform("T")), (DONE, DONE, DONE))
        self.assertEqual(found + late.lines(), fetched + soon.lines())

    def test_a_short_buffer_loses_nothing(self):
        channel = self.opened()
        self.assertEqual(channel.arrive(A1, FIRST), DONE)
        length = len(FIRST_REPLY) // 2
        code, head = channel.fetch(size=length - 1)
        self.assertEqual((code, head.kind, head.length), (SHORT, 1, length))
        self.assertEqual(channel.call("next_output", ctypes.byref(head), None, ctypes.c_size_t(0), None, ctypes.c_size_t(0)), SHORT)
        code, head = channel.fetch(size=length, grants=0)
        self.assertEqual((code, channel.line_of(head)), (DONE, f"R {A1} {FIRST_REPLY}"))
        self.assertEqual(channel.fetch()[0], NONE_WAITS)
        self.assertEqual(channel.at("tick", 0), DONE)
        code, head = channel.fetch(grants=0)
        self.assertEqual((code, head.kind, head.granted), (SHORT, 3, 1))
        self.assertEqual(channel.lines(), ["F A 0 0/6/8/32"])

    def test_faults_have_the_numbers_of_the_header(self):
        channel, names = self.opened(), names_of_codes()
        codes = [channel.arrive("020000000009", b""), channel.request("020000000009", 1, 1), channel.at("tick", 2), channel.at("collect", 0)]
        self.assertEqual([names[code] for code in codes], ["UNKNOWN_MODEM", "UNKNOWN_MODEM", "UNKNOWN_OPERATOR", "NOTHING_TO_COLLECT"])
        for name, start, rows in (("ROW_COUNT", 1, []), ("NOT_PAST", 0, [(8, 32, 32), (40, 32, 32)]), ("OFF_FRAME", 1, [(8, 0, 0), (40, 32, 32)]),
                                  ("NEW_SLICES_OVERLAP", 1, [(8, 33, 32), (40, 32, 32)]), ("BUDGET_OVER_SLICE", 1, [(8, 32, 33), (40, 32, 32)]),
                                  ("DONE", 1, [(8, 32, 32), (40, 32, 32)]), ("UNFINISHED", 2, [(8, 32, 32), (40, 32, 32)])):
            self.assertEqual(names[channel.reslice(start, rows)], name)
        self.assertEqual(channel.lines(), [])
        for name, text in (("NOT_TOML", b"\xff"), ("NOT_TOML", b"= "), ("MISSING_KEY", b""), ("BAD_VALUE", P2.replace(b"= 72", b"= 0")),
                           ("SLICES_OVERLAP", P2.replace(b"[40, 32]", b"[39, 32]")), ("MODEM_TWICE", P2.replace(b"0003", b"0001")),
                           ("PLANT_BUDGET_OVER_SLICE", P2.replace(b"budget = 32", b"budget = 33"))):
            self.assertEqual(names[channel.open(text)], name, text)
        self.assertEqual(channel.at("tick", 0), DONE)

    def test_a_saved_channel_goes_on_as_it_would_have(self):
        first = [f"M {A1} {FIRST.hex()}", f"M {A1} 11000100", f"Q {A1} 257 5", "T"]
        later = [f"M {A1} 150002000000000101", f"Q {A1} 257 3", "T", "T"]
        going_on, opened = self.opened(), self.opened()
        for line in first:
            self.assertEqual(going_on.perform(line), DONE)
        self.assertEqual(going_on.lines()[-1][:6], "MAP 0 ")
        code, saved = going_on.save()
        self.assertEqual((code, saved[:20], P2 in saved), (DONE, b"melfjits-snapshot 1 ", True))
        self.assertEqual(opened.open_saved(saved), DONE)
        for line in later:
            self.assertEqual((going_on.perform(line), opened.perform(line)), (DONE, DONE))
        answers = opened.lines()
        self.assertEqual((len(answers) > 4, going_on.lines()), (True, answers))

    def test_a_channel_is_saved_at_rest_into_a_buffer_that_is_long_enough(self):
        channel, names = self.opened(), names_of_codes()
        code, saved = channel.save()
        self.assertEqual((code, channel.save(len(saved) - 1), channel.save(len(saved))), (DONE, (SHORT, len(saved)), (DONE, saved)))
        self.assertEqual(channel.at("tick", 0), DONE)
        self.assertEqual(names[channel.save()[0]], "FRAME_WAITS")
        self.assertEqual((channel.at("collect", 0), names[channel.save()[0]]), (DONE, "NOT_AT_FRAME"))
        self.assertEqual(names[channel.change(P2)], "NOT_AT_FRAME")
        for text, name in ((saved[1:], "NOT_A_SNAPSHOT"), (saved[:-1], "NOT_A_SNAPSHOT"), (P2, "NOT_A_SNAPSHOT")):
            self.assertEqual(names[channel.open_saved(text)], name)
        self.assertEqual(channel.lines()[0][:4], "F A ")

    def test_a_plant_that_is_changed_keeps_the_flows(self):
        channel, names = self.opened(), names_of_codes()
        for line in (f"M {A1} {FIRST.hex()}", f"M {A1} 11000100", "T"):
            self.assertEqual(channel.perform(line), DONE)
        self.assertEqual(names[channel.change(P2.replace(b"head = 8", b"head = 7"))], "CONSTANTS_DIFFER")
        self.assertEqual(names[channel.change(b"= ")], "NOT_TOML")
        wider = P2.replace(b"budget = 32", b"budget = 30", 1)
        self.assertEqual(channel.change(wider), DONE)
        self.assertEqual(wider in channel.save()[1], True)
        for line in (f"Q {A1} 257 5", "T"):
            self.assertEqual(channel.perform(line), DONE)
        self.assertIn("F A 1 257/6/8/5 0/6/13/27", channel.lines())

    def test_closed_handles(self):
        channel = Channel(self.library)
        calls = (channel.close, lambda: channel.arrive(A1, FIRST), lambda: channel.request(A1, 257, 1), lambda: channel.at("work", 0),
                 lambda: channel.at("tick", 0), lambda: channel.at("collect", 0), lambda: channel.reslice(1, []), lambda: channel.fetch()[0],
                 lambda: channel.save()[0], lambda: channel.change(P2))
        self.assertEqual([names_of_codes()[call()] for call in calls], ["CLOSED"] * len(calls))
        self.assertEqual(channel.call("open", None, ctypes.c_size_t(0)), 11)
        self.assertEqual([channel.open(P2), channel.open(P2), channel.close(), channel.close()], [DONE, DONE, DONE, 2])
        self.assertEqual([call() for call in calls], [2] * len(calls))


ROUNDS, TICKS = 4, 50


@unittest.skipUnless(c_library.is_built(), NOT_BUILT)
class Allocations(unittest.TestCase):
    def test_a_tick_allocates_nothing_where_no_output_waits(self):
        folder = tempfile.TemporaryDirectory()
        self.addCleanup(folder.cleanup)
        library = c_library.build_counting(folder.name)
        channel = Channel(library)
        self.addCleanup(channel.close)
        library.begin_counting()
        self.assertEqual(channel.open(P2), DONE)
        self.assertGreater(library.allocations(), 0)
        channel.names = ["A", "B"]
        for line in (f"M {A1} {FIRST.hex()}", f"M {A1} 11000100", f"Q {A1} 257 5", *["T"] * ROUNDS):
            self.assertEqual(channel.perform(line), DONE)
            channel.lines()
        library.begin_counting()
        made = []
        for _ in range(TICKS):
            for name, place in (("tick", 0), ("collect", 0), ("tick", 1), ("collect", 1)):
                self.assertEqual(channel.at(name, place), DONE)
                made += channel.lines()
        self.assertEqual((len(made), library.allocations()), (3 * TICKS, 0))


if __name__ == "__main__":
    unittest.main()
