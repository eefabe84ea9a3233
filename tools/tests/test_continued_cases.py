"""Tests the tool that restarts, changes and renumbers plants, and what an operator observes in its cases."""

import unittest
from collections import Counter
from unittest import mock

from service.reference import resuming
from service.reference.answers import reference_answer
from service.reference.changes import changed_core
from service.reference.numbering import renumbered_core
from service.reference.plant import read_plant
from tools import EXAMPLES
from tools.compare import continued_cases
from tools.compare.continued_cases import Different, continued_case, judge
from tools.compare.observing import own_lines, settled_state

P2 = (EXAMPLES / "plant_p2.toml").read_text()
STEP = 2**29
SEEDS = range(25)


class Second:
    """The second implementation in the place of a program, with other texts in what it prints."""

    def __init__(self, old=b"", new=b"", in_inputs_with=b""):
        self.old, self.new, self.part = old, new, in_inputs_with

    def answer(self, words, data):
        status, output = reference_answer(words, data)
        return status, output.replace(self.old, self.new) if self.part in data else output


def differing(program=None):
    """Returns what differs, by seed."""
    found = {}
    for seed in SEEDS:
        try:
            judge(seed, continued_case(seed), program)
        except Different as difference:
            found[seed] = difference.args[0]
    return found


class Cases(unittest.TestCase):
    def test_a_case_is_the_same_twice(self):
        for seed in range(5):
            self.assertEqual(continued_case(seed), continued_case(seed))

    def test_a_case_has_changes_numbers_and_restarts(self):
        counts, lines = Counter(), 0
        for made in map(continued_case, SEEDS):
            self.assertEqual(len(made.parts), made.counts["restarts"] + 1)
            self.assertTrue(any(what.startswith("change of plant: ") for what in made.counts))
            self.assertTrue(all(part.begin.startswith(b"melfjits-snapshot ") for part in made.parts[1:]))
            self.assertFalse([line for line in made.alone if line.startswith((b"P", b"N"))])
            counts += made.counts
            lines += made.counts["lines of scripts"]
        self.assertTrue(10 <= lines / len(SEEDS) <= 60)
        for what in ("restarts", "frame number: given", "frame number: no number", "change of plant: changed", "change of plant: the plant file has status 3"):
            self.assertGreater(counts[what], 0, what)

    def test_operators_are_few(self):
        self.assertEqual({1, 2, 3, 4}, {len(read_plant(continued_case(seed).text).rows) for seed in range(100)})

    def test_no_slices_change_after_a_change_for_others(self):
        for made in map(continued_case, SEEDS):
            taken = False
            for part in made.parts:
                for line, answer in zip(answered_lines(part.lines), part.output):
                    taken = taken or answer.startswith("P frame")
                    self.assertFalse(taken and line.startswith(b"Z"))


def answered_lines(lines):
    """Yields the lines that have an answer: a plant file has one with its line `P`."""
    in_file = False
    for line in lines:
        if not in_file:
            yield line
        in_file = line == b"P" or in_file and line != b"---"


class Comparisons(unittest.TestCase):
    def test_the_second_implementation_agrees(self):
        self.assertEqual(differing(), {})
        self.assertEqual(differing(Second()), {})

    def test_other_outputs_are_noticed(self):
        for old, new, part in ((b"\nF ", b"\nf ", b""), (b"\nslice ", b"\nslices ", b"melfjits"), (b"P frame", b"P Frame", b"\nP\n"), (b"N frame", b"N Frame", b"\nN ")):
            found = differing(Second(old, new, part))
            self.assertGreater(len(found), 5)
            self.assertIn("process", {what.split(" ")[0] for what in found.values()})

    def test_a_plant_left_alone_that_differs_is_noticed(self):
        alone = {made.input_alone() for made in map(continued_case, SEEDS)}

        class Other(Second):
            def answer(self, words, data):
                status, output = reference_answer(words, data)
                return status, output.replace(b"R 02", b"S 02") if data in alone else output

        self.assertEqual({what for seed, what in differing(Other()).items() if seed % 10}, {"lines of the watched operator"})

    def test_a_change_that_touches_an_operator_that_stays_is_noticed(self):
        """Both processes and the second implementation agree here. What the operator observes is not that of the plant left alone."""
        def touching(touch):
            def changed(core, file):
                core, text = changed_core(core, file)
                for book in core.books:
                    touch(book)
                return core, text
            return mock.patch.object(resuming, "changed_core", changed)

        def forget(book):
            book.kept = [entry for entry in book.kept if entry.waits]

        def hurry(book):
            for entry in book.kept:
                entry.ticks = 1

        for touch in (forget, hurry):
            with touching(touch):
                found = differing()
            self.assertGreater(len(found), 3)
            self.assertEqual({what.split(" ")[-1] for what in found.values()}, {"operator"})

    def test_a_number_that_touches_a_flow_is_noticed(self):
        def renumbered(core, text, line):
            core = renumbered_core(core, text, line)
            for flow in (flow for book in core.books for flow in book.flows.values()):
                flow.since = core.books[0].frame
                flow.start = max(0, flow.start - 1)
            return core

        with mock.patch.object(resuming, "renumbered_core", renumbered):
            self.assertGreater(len(differing()), 1)

    def test_a_restart_that_loses_something_is_noticed(self):
        def begun(data):
            core, text, lines = resuming.snapshot_begun(data)
            for book in core.books:
                book.kept = []
            return core, text, lines

        with mock.patch.object(continued_cases, "snapshot_begun", begun):
            self.assertGreater(len(differing()), 5)


class Observed(unittest.TestCase):
    def test_own_lines(self):
        row = read_plant(P2).rows[1]
        lines = ["R 020000000001 10", "S 020000000003 Short", f"F B {STEP + 3} 0/6/40/32", f"MAP {STEP + 3} 01", "F A 3", "N frame 7"]
        self.assertEqual(own_lines(lines, row, STEP), ["S 020000000003 Short", "F B 3 0/6/40/32"])

    def test_settled_state(self):
        """Frames of 2,000 microseconds: a poll each 3 frames, a grant each 2, and a flow without an active set."""
        def lines(frame):
            return ["F A 9", "melfjits-snapshot 1 0", "---", f"frame {frame} 1", "operator A 3 0 0", "slice 8 32 32", f"next ={frame + 4} 8 16 15",
                    f"flow 1 020000000001 =1 - =4,0,0,0,0,0,6000,0,0,0,0,0 =4,0,0,0,0,0,6000,0,0,0,0,0 - {frame - 5} 7 {frame - 300}",
                    f"flow 2 020000000001 =2 - =6,0,0,0,0,0,0,0,9,5999,0,1 =6,0,0,0,0,0,0,0,9,5999,0,1 - {frame - 7} 0 {frame - 3}",
                    f"flow 3 020000000001 =3 =4,0,0,0,0,0,6000,0,0,0,0,0 - - =1 - - - {frame - 1} 0 {frame - 1}", "end 9 9"]

        settled = settled_state(lines(400), "A", 2_000)
        self.assertEqual([line.split(" ")[-3:] for line in settled if line.startswith("flow")], [["2", "7", "255"], ["1", "0", "3"], ["0", "0", "1"]])
        self.assertEqual(settled[2], "next 4 8 16 15")
        self.assertEqual(settled_state(lines(400 + STEP), "A", 2_000), settled)
        moved = [line.replace("299", "298") for line in lines(599)]
        self.assertNotEqual(settled_state([line.replace(" 594 ", " 593 ") for line in moved], "A", 2_000), settled_state(moved, "A", 2_000))
        self.assertIsNone(settled_state(["F A 9", "fault: line 2"], "A", 2_000))


if __name__ == "__main__":
    unittest.main()
