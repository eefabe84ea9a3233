"""Tests tools/run ci/cases against what CONTRIBUTING.md says of the cases: its worked case, its tables of lines, and what each line means.
"""

import pathlib
import re
import tempfile
import textwrap
import unittest

from tools import ROOT
from tools.ci import cases

SECTION = (ROOT / "CONTRIBUTING.md").read_text().split("\n### How to write a case\n")[1].split("\n## ")[0]
# Each line that a case may have, by how it begins.
SIGNS = {*cases.EXPECTED, *cases.VARIED, "0", "~", "alone", ">", ".", "*", "P", "=*", "check*", "-", "silent"}


def case_of(*lines):
    return cases.case_of("a case", lines)


def text_of(*lines):
    """Returns the input of a case after its plant file."""
    return case_of("0 run", *lines).data.decode()


class Document(unittest.TestCase):
    def test_worked_case(self):
        first = SECTION.split("\nCases of `check`")[0]
        block = textwrap.dedent("\n".join(line for line in first.splitlines() if line.startswith("    ")))
        self.assertIn(f"\n{block}\n\n", (ROOT / "tests/rules.txt").read_text())
        self.assertTrue(block.startswith("# ") and len(block.splitlines()) > 10)

    def test_tables(self):
        lines = re.findall(r"^\| `(.*?)` \|", SECTION, re.MULTILINE)
        self.assertEqual({line.split(" ")[0] for line in lines}, SIGNS)
        for line in lines:
            if not line.startswith(("~", "P")):
                case_of("0 run", line)
        for line in ("~ head = 8 > head = 9", "~ head = 8 *> 9 head = 9|"):
            self.assertNotEqual(case_of("0 run", line).plant, cases.PLANT)

    def test_unknown_lines(self):
        for line in ("? x", "=x", "~ no such text > x", "> x "):
            with self.assertRaises(SystemExit):
                case_of("0 run", line)
        with self.assertRaises(SystemExit):
            case_of("> x")


class Input(unittest.TestCase):
    def test_plant(self):
        self.assertIn("\nhead = 9\nack_wait = 2\nframe_us", case_of("0 run", "~ head = 8 > head = 9|ack_wait = 2").plant)
        self.assertIn('modems = ["m1","m2","020000000003"]', case_of("0 run", '~ ["020000000003" *> 1 [X"020000000003"', '~ X *> 2 "m{1}",').plant)
        self.assertEqual(case_of("0 run", "alone").plant, "")
        self.assertTrue(case_of("0 run", "~ [plant]…[[operator]] > x").plant.startswith("x\nname"))

    def test_lines(self):
        self.assertEqual(text_of("> a", "> b", ". c"), "a\nb\nc")
        self.assertEqual(case_of("0 run", r"> \r\t\xFF\x20").data, b"\r\t\xff \n")
        self.assertEqual(case_of("2 history 'A B'").words, ["history", "A B"])

    def test_changes_of_plant(self):
        self.assertEqual(text_of("> a", "P", "> b"), f"a\nP\n{cases.PLANT}---\nb\n")
        changed = text_of("~ head = 8 > head = 7", "P head = 7 > head = 6|x = 1 ~ [plant] *> 2 #|")
        self.assertEqual(changed, f"P\n{cases.PLANT.replace('[plant]', '#|#|').replace('head = 8', 'head = 6|x = 1')}---\n".replace("|", "\n"))
        self.assertEqual(case_of("0 run", r"P [plant] > \xFF\r").data[:5], b"P\n\xff\r\n")
        self.assertEqual(case_of("0 run", "P head = 8 > head = 7").plant, cases.PLANT)

    def test_repeated(self):
        self.assertEqual(text_of("* 3 {8} {8+4} {0:02x}|"), "8 8 00\n9 12 01\n10 16 02\n")
        self.assertEqual(text_of("* 2 x|"), "x\nx\n")

    def test_beginnings_and_changes(self):
        self.assertEqual(text_of("< 0F01 M {}|"), "M -\nM 0F\nM 0F01\n")
        changed = text_of("^ 0F01 {}|").splitlines()
        self.assertEqual((len(changed), changed[0], changed[255], changed[256], changed[-1]), (512, "0001", "FF01", "0F00", "0FFF"))
        self.assertEqual(changed.count("0F01"), 2)


class Expected(unittest.TestCase):
    def differ(self, lines, status=0, output=b"", errors=None):
        return bool(list(cases.differences(case_of("0 run", *lines), status, output, errors)))

    def test_status(self):
        self.assertTrue(self.differ([], status=1))
        self.assertFalse(self.differ([]))

    def test_output(self):
        self.assertFalse(self.differ(["= a", "= b"], output=b"a\nb\n"))
        self.assertTrue(self.differ(["= a", "= b"], output=b"a\nb\nc\n"))
        self.assertTrue(self.differ(["= a"], output=b"b\n"))
        self.assertFalse(self.differ(["= a…d"], output=b"a\nbc\nd\n"))
        self.assertFalse(self.differ(["=* 2 x{1}|"], output=b"x1\nx2\n"))
        self.assertFalse(self.differ(["x 6A0A"], output=b"j\n"))
        self.assertTrue(self.differ(["x 6A0A"], output=b"k\n"))

    def test_output_that_is_not_stated(self):
        self.assertTrue(self.differ([], output=b"a\n"))
        self.assertFalse(self.differ(["- b"], output=b"a\n"))
        self.assertTrue(self.differ(["- b"], output=b"ab\n"))

    def test_checks(self):
        output = b"line 1: M\n  check 22, accepted\n    more\n  check 2, repeated\n"
        self.assertFalse(self.differ(["check 22, accepted", "check 2, repeated"], output=output))
        self.assertTrue(self.differ(["check 22, accepted"], output=output))
        self.assertTrue(self.differ(["check* 2 22, accepted"], output=output))

    def test_errors(self):
        self.assertFalse(self.differ([], errors=b"anything\n"))
        self.assertTrue(self.differ(["silent"], errors=b"anything\n"))
        self.assertFalse(self.differ(["! any…"], errors=b"anything\n"))
        self.assertTrue(self.differ(["! any"], errors=b"anything\n"))


class Files(unittest.TestCase):
    def read(self, text):
        with tempfile.TemporaryDirectory() as folder:
            path = pathlib.Path(folder) / "some.txt"
            path.write_text(text)
            return cases.cases_of(path)

    def cases_of(self, text):
        return [case.name for case in self.read(text)]

    def test_count_and_names(self):
        self.assertEqual(self.cases_of("2 cases: some.\n\n# a\n0 run\n\n# b\n0 run\n"), ["some.txt: a", "some.txt: b"])
        for text in ("3 cases: some.\n\n# a\n0 run\n\n# b\n0 run\n", "2 cases: some.\n\n# a\n0 run\n\n# a\n0 run\n", "some.\n\n# a\n0 run\n"):
            with self.assertRaises(SystemExit):
                self.cases_of(text)

    def test_tables(self):
        rows = re.findall(r"^    (\+ .*)$", SECTION, re.MULTILINE)
        self.assertEqual(len(rows), 3)
        found = self.read("4 cases: some.\n\n# a\n" + "\n// A comment.\n".join(rows) + "\n\n# b\n0 run\n")
        self.assertEqual([case.name for case in found], ["some.txt: a: head = 73", "some.txt: a: frame_us = 1000000", "some.txt: a: one name twice", "some.txt: b"])
        self.assertEqual([(case.status, case.words, case.output) for case in found[:3]], [
            (3, ["check"], "fault: plant 3 plant.head\n"), (0, ["check"], "ok\n"), (3, ["check"], "fault: plant 3 operator[1].name\n")])
        self.assertEqual([case.plant for case in found[:2]], [cases.PLANT.replace("head = 8", "head = 73"), cases.PLANT.replace("us = 2000", "us = 1000000")])
        changed = self.read("1 cases: some.\n\n# a\n+ ok ~ head = 8 > head = 9|hold = 2 ~ head = 9 *> 2 #|\n")[0]
        self.assertEqual((changed.name, changed.plant), ("some.txt: a: head = 9, hold = 2, 2 #", cases.PLANT.replace("head = 8", "#\n#\n\nhold = 2")))
        self.assertEqual((changed.status, changed.output), (0, "ok\n"))

    def test_other_lines_of_a_table_are_refused(self):
        for row in ("0 check", "+ maybe ~ head = 8 > head = 9", "+ ok", "+ ok head = 8 > head = 9", "+ ok ~ no such text > x"):
            with self.assertRaises(SystemExit):
                self.read(f"2 cases: some.\n\n# a\n+ ok ~ head = 8 > head = 9\n{row}\n")
