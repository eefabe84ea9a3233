"""Tests the command `resume` of the second implementation with the snapshot of docs/FORMATS.md, and the tool that cuts scripts."""

import random
import re
import textwrap
import unittest

from service.reference.answers import reference_answer
from service.reference.plant import read_plant
from service.reference.resuming import resumed, split_snapshot
from service.reference.saving import end_of
from service.reference.snapshots import SnapshotFault, read_snapshot
from service.reference.states import StateFault, books_of
from tools import EXAMPLES, ROOT
from tools.compare import answers, resumed_cases
from tools.generator.spoiling import mended, spoiled

P2 = (EXAMPLES / "plant_p2.toml").read_text()
DOCUMENT = (ROOT / "docs/FORMATS.md").read_text()
WORKED = textwrap.dedent(re.search(r"(?m)^(    melfjits-snapshot.*\n(    .*\n)+)", DOCUMENT)[1])
BEST_EFFORT = "=2,0,0,0,0,0,0,0,0,0,0,0"
STATE = f"""frame 5 1
operator A 2 2 1
slice 8 32 32
next -
flow 257 020000000001 =257 - {BEST_EFFORT} {BEST_EFFORT} - 3 7 4
flow 258 020000000002 =258 - - - =1 - {BEST_EFFORT} - 5 0 5
response 020000000002 1 dsa 258 waiting 150 3 -
response 020000000001 1 dsc 257 held 9 0 -
message 020000000001 0F
"""


def snapshot_with(*change):
    """Returns a snapshot of the plant of two operators, with a change of what it has of the operators."""
    text = f"melfjits-snapshot 1 {len(P2)}\n{P2}---\n" + (STATE.replace(*change) if change else STATE)
    return (text + end_of(text.encode())).encode()


def reason(data):
    """Returns the line and the reason of a snapshot's fault."""
    try:
        read_snapshot(data)
        return None
    except SnapshotFault as fault:
        return fault.line, fault.reason


def broken_rule(*change):
    try:
        books_of(read_plant(P2), read_snapshot(snapshot_with(*change)))
        return None
    except StateFault as fault:
        return fault.rule


class Snapshots(unittest.TestCase):
    def test_worked_snapshot(self):
        snapshot = read_snapshot(WORKED.encode())
        alfa, b = snapshot.states
        self.assertEqual((snapshot.plant_text, snapshot.frame, alfa.name, b.name), (b"[plant]\nack_wait = 2\n", 17, "Alfa", "B"))
        self.assertEqual([saved.flow.sfid for saved in alfa.flows], [3, 8])
        self.assertEqual((alfa.flows[0].pending, alfa.flows[1].pending.gave_sid), (None, True))
        self.assertEqual([(entry.kind, entry.waits, entry.ticks, entry.resends) for entry in alfa.responses],
                         [("DSA", True, 3, 1), ("DSD", False, 40, 0)])
        self.assertEqual((alfa.arrivals[1], b.arrivals), (("020000000001", b""), [("0A0B0C0D0E0F", (16_383, 65_535))]))

    def test_checksum(self):
        # RFC 1950, of a text whose checksum is widely known: 11E60398 in hexadecimal.
        self.assertEqual(end_of(b"Wikipedia"), f"end 0 {0x11E60398}\n")

    def test_faults(self):
        for old, new, fault in (
                ("melfjits-snapshot 1", "melfjits-snapshot 2", (1, "Version")), ("1 21", "1 x", (1, "Shape")), ("1 21", "1 20", (3, "Shape")),
                ("1 21", "1 2100", (2, "Cut")), ("frame 17 2", "frame 17  2", (5, "Shape")), ("frame 17", "frame 4294967296", (5, "Range")),
                ("operator B", "operator Alfa", (15, "Repeated")), ("slice 0 72 24", "slice 0 4097 24", (7, "Range")),
                ("next =20 0 36 12", "next =20 0 36", (8, "Shape")), ("next =20 0 36 12", "next 20 0 36 12", (8, "Shape")),
                ("flow 8", "flow 3", (10, "Repeated")), ("64,20000", "0,20000", (10, "Parameters")), ("=6,0,0,0,0", "=6,0,0,0,1", (10, "Parameters")),
                ("dsa", "DSA", (11, "Shape")), ("waiting 3", "waiting 0", (11, "Range")), ("held 40 0", "held 40 1", (12, "Range")),
                ("001 7 dsd", "002 258 dsd", (12, "Repeated")), ("001 -", "001 0", (14, "Shape")), ("end 18", "end 17", (19, "LineCount")),
                ("3745741436", "3745741437", (19, "Checksum")), ("3745741436\n", "3745741436\n\n", (20, "Surplus")), ("3745741436\n", "", (19, "Cut"))):
            self.assertEqual(reason(WORKED.replace(old, new).encode()), fault, (old, new))

    def test_each_end_is_a_fault(self):
        for length in range(len(WORKED)):
            self.assertEqual(reason(WORKED[:length].encode())[0], 2 if 22 < length < 44 else 1 + WORKED[:length].count("\n"), length)


class States(unittest.TestCase):
    def test_a_state_that_keeps_the_rules(self):
        self.assertIsNone(broken_rule())

    def test_rules(self):
        for old, new, rule in (
                ("operator A", "operator C", "the plant has the operator"), ("message 020000000001", "message 020000000003", "modems are listed"),
                ("flow 258", "flow 513", "SFIDs are in their range"), ("=258 ", "=273 ", "SIDs are in their range"),
                ("=258 ", "=257 ", "SIDs are distinct"), ("=258 ", "- ", "a flow whose set is to be admitted has a SID"),
                (" 5 0 5", " 6 0 5", "no frame of a flow is to come"),
                (" 5 0 5", " 5 1 5", "a backlog is of a flow that may request"), ("dsa 258", "dsd 258", "the flow awaits an acknowledgement"),
                ("dsa 258", "dsa 257", "the flow awaits an acknowledgement"), ("slice 8", "slice 7", "a slice is in the frame"),
                ("8 32 32", "8 33 32", "slices do not overlap"), ("8 32 32", "8 32 33", "the budget"), ("next -", "next =6 8 32 32", "slices wait for one frame"),
                ("next -", "next =5 8 32 32", "a slice change is of a later frame")):
            self.assertEqual(broken_rule(old, new), rule, (old, new))

    def test_a_snapshot_is_what_was_read(self):
        status, text = resumed(snapshot_with() + b"---\nK\n")
        frames = "operator B 0 0 0\nslice 40 32 32\nnext -\n"
        self.assertEqual((status, text.split("---\n")[1].split("end ")[0]), (0, STATE.replace("frame 5 1", "frame 5 2") + frames))

    def test_the_sid_of_a_flow_without_an_admitted_set(self):
        """A change that is abandoned at the next tick takes back the SID that came with it, and no other."""
        old = STATE[STATE.index("flow 258"):STATE.index("response 020000000001")]
        for mark, sid in ((0, "=258"), (1, "-")):
            new = f"flow 258 020000000002 =258 - - - ={mark} - {BEST_EFFORT} - 5 0 5\nresponse 020000000002 1 dsc 258 waiting 1 0 -\n"
            _, text = resumed(snapshot_with(old, new) + b"---\nK\nT\nK\n")
            first, last = text.split("melfjits-snapshot ")[1:]
            self.assertIn(new, first)
            self.assertIn(f"flow 258 020000000002 {sid} - - - - 5 0 5\n", last)

    def test_parts_of_the_input(self):
        for text, parts in ((b"a\n---\nb\n---\nc\n", (b"a\n---\nb\n", [b"c", b""])), (b"a\n---\n----\n", (b"a\n---\n----\n", [])), (b"a", (b"a---\n", [])),
                            (b"a\n---", (b"a\n---\n", [])), (b"---\n---", (b"---\n", [b""]))):
            self.assertEqual(split_snapshot(text), parts)
        self.assertEqual(resumed(b"melfjits-snapshot " + b"x" * 1_048_622 + b"\n---\n")[0], 6)
        self.assertEqual(resumed(b"melfjits-snapshot " + b"x" * 1_048_621 + b"\n---\n")[1], "fault: snapshot 1\n")


class CutScripts(unittest.TestCase):
    def seeds(self):
        cuts = ((seed, resumed_cases.cut_of(seed)) for seed in range(12))
        return [(seed, cut) for seed, cut in cuts if cut is not None][:2]

    def test_a_cut_is_the_same_twice(self):
        for seed, cut in self.seeds():
            self.assertEqual(resumed_cases.cut_of(seed), cut)

    def test_cut_scripts_agree(self):
        second = answers.Answers(None)
        for seed, cut in self.seeds():
            snapshot = resumed_cases.judge_cut(second, cut)
            self.assertIsNone(reason(snapshot))
            self.assertEqual(sum(resumed_cases.judge_spoiled(second, seed, cut, snapshot).values()), resumed_cases.SPOILED)

    def test_another_frame_after_the_resumption_is_noticed(self):
        class Late(answers.Answers):
            def of(self, words, data, part=None):
                status, text = reference_answer(words, data)
                return status, text.replace(b"MAP ", b"MAP 1") if data.startswith(b"melfjits-snapshot") else text

        cut = resumed_cases.Cut(P2, ["T"], ["T"])
        self.assertIsNotNone(resumed_cases.judge_cut(answers.Answers(None), cut))
        with self.assertRaises(answers.Differs):
            resumed_cases.judge_cut(Late(None), cut)

    def test_a_last_line_is_mended(self):
        for text in (WORKED, WORKED.replace("end 18", "end 5"), WORKED.replace("1 21", "1 7"), WORKED.replace(" 12 30 15", " 12 31 15")):
            self.assertIsNone(reason(mended(text.encode())), text)

    def test_changes_of_what_is_no_snapshot(self):
        rng = random.Random(1)
        for text in (b"", b"\n", b"end", b"---\n", b"melfjits-snapshot 1 0\n---\n") * 40:
            self.assertIsInstance(spoiled(rng, text), bytes)


if __name__ == "__main__":
    unittest.main()
