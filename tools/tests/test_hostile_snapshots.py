"""Tests the tool that gives spoiled snapshots to the program: what it makes, and which answers it takes for wrong ones."""

import pathlib
import random
import tempfile
import unittest
from collections import Counter

from service.reference.answers import reference_answer
from service.reference.saving import end_of
from tools import EXAMPLES
from tools.compare import hostile_snapshots, trials
from tools.compare.program import Started
from tools.generator.spoiling import with_other_operators

P2 = (EXAMPLES / "plant_p2.toml").read_text()
FRONT = f"melfjits-snapshot 1 {len(P2)}\n{P2}---\n"
BEST_EFFORT = "=2,0,0,0,0,0,0,0,0,0,0,0"
A = f"operator A 1 1 2\nslice 8 32 32\nnext -\nflow 257 020000000001 =257 - {BEST_EFFORT} {BEST_EFFORT} - 3 7 4\n"
A += "response 020000000001 1 dsc 257 held 9 0 0A\nmessage 020000000001 0F\nmessage 020000000002 -\n"
B = "operator B 0 0 1\nslice 40 32 32\nnext -\nrequest 020000000003 513 7\n"


def text_with(*changes, end=None):
    """Returns a snapshot of the plant of two operators with changes, and with a right last line or another one."""
    text = FRONT + "frame 5 2\n" + A + B
    for old, new in changes:
        assert old in text
        text = text.replace(old, new)
    return (text + (end or end_of(text.encode()))).encode()


def verdict(text, status, output):
    """Returns what an answer is counted as, or what is wrong with it."""
    try:
        return hostile_snapshots.judged(text_with(), hostile_snapshots.input_of(text), (status, output))
    except hostile_snapshots.Wrong as wrong:
        return f"wrong: {wrong}"


class Texts(unittest.TestCase):
    def test_a_text_is_the_same_twice(self):
        once = [hostile_snapshots.text_of(number) for number in (7, 150, 7)]
        hostile_snapshots.snapshot.cache_clear()
        self.assertEqual([hostile_snapshots.text_of(number) for number in (7, 150)], once[:2])
        self.assertEqual(once[0], once[2])

    def test_snapshots_have_each_kind_of_record(self):
        counts = Counter()
        for number in range(40):
            counts += hostile_snapshots.records_of(hostile_snapshots.snapshot(number))
        self.assertGreater(min(counts.values()), 2)
        self.assertEqual(len(counts), 9)

    def test_other_operators(self):
        texts = {with_other_operators(random.Random(seed), text_with()) for seed in range(20)}
        front = FRONT + "frame 5 {}\n"
        expected = [front.format(2) + A + B, front.format(2) + B + A, front.format(1) + A, front.format(1) + B]
        self.assertEqual(texts, {(text + end_of(text.encode())).encode() for text in expected})

    def test_the_second_implementation_is_right(self):
        counts, found = hostile_snapshots.try_some(None, 1, range(300))
        self.assertEqual(found, [])
        kinds = {" ".join(kind.split(" ")[:3]) for kind, _ in counts.items() if kind.startswith("status")}
        self.assertLessEqual({"status 0: resumed", "status 3: fault:"}, kinds)


class Verdicts(unittest.TestCase):
    def test_a_whole_snapshot(self):
        self.assertEqual(verdict(text_with(), 0, text_with()), "status 0: resumed and written back")
        for status, output in ((3, b"fault: state\n"), (0, b""), (0, text_with() + b"\n"), (0, text_with(end="end 1 1\n")), (0, b"fault: line 1\n")):
            self.assertIn("wrong", verdict(text_with(), status, output))

    def test_refusals(self):
        text = text_with(("held 9", "held 0"))
        line = text[:text.index(b"held 0")].count(b"\n") + 1
        for output, is_right in ((b"fault: snapshot %d\n" % line, True), (b"fault: snapshot %d\n" % (line - 1), False), (b"fault: state\n", True),
                                 (b"fault: snapshot %d\n" % (text.count(b"\n") + 1), True), (b"fault: snapshot %d\n" % (text.count(b"\n") + 2), False),
                                 (b"fault: snapshot 0%d\n" % line, False), (b"fault: snapshot %d" % line, False), (b"", False), (b"fault: memory\n", False),
                                 (b"fault: snapshot %d\nfault: state\n" % line, False), (b"fault: state \n", False), (b"fault: plant 1\n", True),
                                 (b"fault: plant 3 operator[0].flow[12].modem\n", True), (b"fault: plant 2 operator\n", True), (b"fault: plant 4 A B\n", True),
                                 (b"fault: plant 7 02000000000A\n", True), (b"fault: plant 8 241\n", True), (b"fault: plant 10 Alfa\n", True),
                                 (b"fault: plant 11\n", False), (b"fault: plant 12 a\n", False), (b"fault: plant 4 A\n", False), (b"fault: plant\n", False)):
            self.assertEqual("wrong" not in verdict(text, 3, output), is_right, output)

    def test_a_plant_file_that_the_lines_behind_it_complete(self):
        text = text_with()[:len(FRONT) - len("---\n" * 2 + "K\n") - 4]
        lines = text.count(b"\n") + 2
        for line, is_right in ((2, True), (lines, True), (lines + 2, True), (lines + 3, False), (1, False)):
            self.assertEqual("wrong" not in verdict(text, 3, b"fault: snapshot %d\n" % line), is_right, line)
        self.assertNotIn("wrong", verdict(text, *reference_answer(["resume"], hostile_snapshots.input_of(text))))

    def test_statuses(self):
        text = text_with(("held 9", "held 0"))
        for status in (-11, -6, -9, 1, 2, 4, 5, 101, 139):
            self.assertIn("wrong", verdict(text, status, b"fault: state\n"))
        self.assertIn("wrong", verdict(text, 6, b"fault: io\n"))
        self.assertEqual(verdict(text.replace(b"[plant]", b"[pl\xffnt]"), 6, b"fault: io\n"), "status 6: fault: io")
        self.assertIn("wrong", verdict(text.replace(b"[plant]", b"[pl\xffnt]"), 6, b""))

    def test_a_wrong_last_line_is_refused(self):
        right = text_with(("held 9", "held 8"))
        self.assertNotIn("wrong", verdict(right, 0, right))
        for end in ("end 1 1\n", text_with()[text_with().rindex(b"end "):].decode()):
            text = text_with(("held 9", "held 8"), end=end)
            self.assertIn("last line", verdict(text, 0, right))
            self.assertNotIn("wrong", verdict(text, 3, b"fault: snapshot %d\n" % text.count(b"\n")))

    def test_a_text_is_written_back(self):
        for changes in ([("held 9 0 0A", "held 009 00 0a")], [("=257 -", "=00257 -")], [("frame 5 2", "frame 05 002")], [("0000002 -", "0000002 ")],
                        [("=2,0,0", "=02,00,0")]):
            text = text_with(*changes)
            self.assertEqual(reference_answer(["resume"], hostile_snapshots.input_of(text)), (0, text_with()))
            self.assertEqual(verdict(text, 0, text_with()), "status 0: resumed and written back in another spelling")
            self.assertIn("written back", verdict(text, 0, text))
        for old, new in (("held 9", "held 8"), ("3 7 4", "3 6 4"), ("0F", "0E"), ("- 3 7", "- 2 7"), ("513", "514"), ("head = 8", "head = 7"), (A, "")):
            self.assertIn("written back", verdict(text_with(), 0, text_with((old, new))))

    def test_a_name_keeps_its_zeros(self):
        text = text_with(("operator A", "operator 00A"), ('name = "A"', 'name = "00A"'))
        text = text.replace(b"snapshot 1 %d" % len(P2), b"snapshot 1 %d" % (len(P2) + 2))
        text = text[:text.rindex(b"end ")]
        text += end_of(text).encode()
        self.assertEqual(hostile_snapshots.written_back(text), text)
        self.assertEqual(reference_answer(["resume"], hostile_snapshots.input_of(text)), (0, text))

    def test_operators_in_another_order_or_anew(self):
        for text in (text_with((A + B, B + A)), text_with((A, ""), ("frame 5 2", "frame 5 1"))):
            status, output = reference_answer(["resume"], hostile_snapshots.input_of(text))
            self.assertEqual(verdict(text, status, output), "status 0: resumed, with operators in another order or anew")
            self.assertIn("wrong", verdict(text, status, output.replace(b"513 7", b"513 8")))

    def test_checksum(self):
        # RFC 1950, of a text whose checksum is widely known: 11E60398 in hexadecimal.
        self.assertFalse(hostile_snapshots.is_ended(b"Wikipedia\nend 0 %d\n" % 0x11E60398))
        self.assertTrue(hostile_snapshots.is_ended(text_with()))
        for end in (b"", b"end 24 1", b"end x 1\n", b"end 1\n", b"end -1 1\n"):
            text = text_with()
            self.assertFalse(hostile_snapshots.is_ended(text[:text.rindex(b"end ")] + end))


class Programs(unittest.TestCase):
    def program(self, *lines):
        path = pathlib.Path(self.enterContext(tempfile.TemporaryDirectory())) / "program"
        path.write_text("#!/bin/sh\n" + "".join(line + "\n" for line in lines))
        path.chmod(0o755)
        return path

    def test_input_output_and_status(self):
        started = Started(self.program('/bin/echo "$@"; /bin/cat; exit 3'))
        for data in (b"a\n", b"", b"x" * 200_000, b"b"):
            self.assertEqual(started.answer(["resume", "x"], data), (3, b"resume x\n" + data))
        started.close()

    def test_signals(self):
        self.assertEqual(Started(self.program("kill -SEGV $$")).answer([], b"a")[0], -11)
        self.assertEqual(Started("/bin/sleep", 0.2).answer(["60"], b"")[0], -9)

    def test_a_wrong_program_is_noticed(self):
        for lines, why in ((["kill -SEGV $$"], "status -11"), (["exit 0"], ""), (["echo fault: state", "exit 3"], "the second implementation")):
            counts, found = hostile_snapshots.try_some(self.program(*lines), 1, range(6))
            self.assertGreater(len(found), 2)
            self.assertIn(why, "".join(found))

    def test_tasks(self):
        self.assertEqual(trials.tasks_of(150, 200, 100), [range(150, 200), range(200, 300), range(300, 350)])
        self.assertEqual(trials.tasks_of(100, 30, 100), [range(100, 130)])
        self.assertEqual(trials.tasks_of(0, 200, 100), [range(0, 100), range(100, 200)])


if __name__ == "__main__":
    unittest.main()
