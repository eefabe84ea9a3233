"""Tests the frame numbers of the second implementation with what docs/FORMATS.md says of them, and the tool that compares renumbered scripts."""

import unittest

from service.reference.answers import reference_answer
from service.reference.numbering import NotRenumbered, number_in, requests_number
from service.reference.plant import read_plant
from service.reference.program import Core
from service.reference.resuming import Service
from tools import EXAMPLES
from tools.compare import renumbered_cases
from tools.compare.answers import Answers, Differs

P2 = (EXAMPLES / "plant_p2.toml").read_text()
STEP = 2**29
# Unsolicited grants of 64 bytes each 6,000 microseconds, which are 3 frames.
ADDITION = b"M 020000000003 0F0001181D010200010601060F010613020040140400001770150400000000160101"
ACKNOWLEDGEMENT = b"M 020000000003 11000100"


def service_of(*lines, text=P2):
    service = Service(Core(read_plant(text)), text)
    return service, "".join(service.answers(list(lines)))


class FrameNumbers(unittest.TestCase):
    def test_lines(self):
        for line, requests in ((b"N", True), (b"N 0", True), (b"NN", True), (b" N 0", False), (b"n 0", False), (b"", False), (b"N" * 4_097, False)):
            self.assertEqual(requests_number(line), requests)
        self.assertEqual([number_in(b"N %d" % number) for number in (0, 7, 2**32 - 1)], [0, 7, 2**32 - 1])
        for line in (b"N", b"N ", b"N 00", b"N 4294967296", b"N +1", b"N 1 ", b"N 1\n", b"N \xd9\xa1"):
            self.assertRaises(NotRenumbered, number_in, line)

    def test_numbers_of_a_flow(self):
        service, _ = service_of(ADDITION, ACKNOWLEDGEMENT, *[b"T"] * 4)
        before = service.core
        self.assertEqual((before.books[1].flows[513].start, before.books[1].flows[513].since, before.books[1].frame), (0, 0, 4))
        self.assertEqual(list(service.answers([b"N %d" % (4 + STEP)])), [f"N frame {4 + STEP}\n"])
        flow = service.core.books[1].flows[513]
        self.assertEqual((flow.start, flow.since, service.core.books[1].frame), (STEP + 3, STEP, 4 + STEP))
        self.assertEqual((before.books[1].flows[513].start, before.books[0].frame), (0, 4))

    def test_a_refused_number_leaves_the_core(self):
        service, _ = service_of(b"T")
        core = service.core
        for line in (b"N 0", b"N 2", b"N", b"N %d" % STEP):
            self.assertEqual(list(service.answers([line])), ["fault: line 1\n"])
            self.assertIs(service.core, core)

    def test_the_last_frame(self):
        text = P2.replace("ucd_count = 1", f"ucd_count = 1\nfirst_frame = {STEP - 1}")
        self.assertEqual(service_of(b"N 4294967295", b"T A", b"N %d" % (STEP - 1), b"T A", text=text)[1],
                         f"N frame 4294967295\nfault: line 2\nN frame {STEP - 1}\nF A {STEP - 1} 0/6/8/32\n")


class RenumberedScripts(unittest.TestCase):
    def test_scripts_of_some_seeds_agree(self):
        made = [made for made in map(renumbered_cases.renumbered_script, range(12)) if made is not None]
        self.assertGreater(len(made), 5)
        for one in made:
            renumbered_cases.judge(Answers(None), one)

    def test_first_numbers(self):
        made = renumbered_cases.Renumbered(P2, given=[(1, 1 + STEP)], refused=[3])
        output = (f"F A 0 0/6/8/32\nN frame {1 + STEP}\nfault: line 3\nfault: line 4\nMAP {1 + STEP} 01\nframe {2 + STEP} 2\nnext ={5 + STEP} 8 16 15\n"
                  f"flow 3 020000000001 =5 - - - - 9 7 9\nend 5 9\n").encode()
        self.assertEqual(renumbered_cases.with_first_numbers(output, made),
                         ["F A 0 0/6/8/32", "fault: line 4", "MAP 1 01", "frame 2 2", "next 5 8 16 15", "flow 3 020000000001 =5 - - - - 7", "end"])
        self.assertIsNone(renumbered_cases.with_first_numbers(b"F A 0 0/6/8/32\n", made))

    def test_what_is_noticed_is_reported(self):
        class Other(Answers):
            """Answers of a program that answers something else after a line `N`."""
            def __init__(self, old, new):
                super().__init__(None)
                self.old, self.new = old, new

            def of(self, words, data, part=None):
                status, text = reference_answer(words, data)
                return (status, text.replace(self.old, self.new)) if b"\nN " in data else (status, text)

        made = renumbered_cases.Renumbered(P2, [ADDITION, b"N %d" % STEP, b"T"], [ADDITION, b"", b"T"], [(0, STEP)])
        for old, new, is_noticed in ((b"", b"", False), (b"F B", b"F b", True), (b"N frame", b"N Frame", True), (b"R 02", b"S 02", True), (b"F A 53687091", b"F A 53687092", True)):
            self.assertEqual(self.differs(Other(old, new), made), is_noticed)

    def differs(self, answers, made):
        try:
            renumbered_cases.judge(answers, made)
            return False
        except Differs:
            return True


if __name__ == "__main__":
    unittest.main()
