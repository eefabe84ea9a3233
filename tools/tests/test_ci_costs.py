"""Tests of how tools/run measure/ci_costs tells the checks of a CI run apart, and adds them up."""

import unittest

from tools.measure.ci_costs import Check, by_crate, check_of, seconds_of

BUILD = ["/kit/bin/rattle", "build", "--crate-name", "tlv24", "src/lib.rt"]
CHECK = ["/kit/bin/rattle", "check", "--crate-name", "tlv24", "src/lib.rt"]


class Checks(unittest.TestCase):
    def test_a_check_is_told_by_its_command(self):
        for words, folder, check in (
            (BUILD, "/copy/crates/tlv24", Check("tlv24", "proof")),
            ([*BUILD, "--test"], "/copy/crates/tlv24", Check("tlv24", "tests")),
            ([*CHECK, "--incremental", "/tmp/rt-edits-7-a_b/seed"], "/tmp/rt-edit-7-x", Check("tlv24", "before")),
            ([*CHECK, "--incremental", "/tmp/rt-edits-7-a_b/11"], "/tmp/rt-edit-7-x", Check("tlv24", "edits", 11)),
            (CHECK, "/tmp/rt-edit-7-x", Check("tlv24", "edits")),
            ([*CHECK, "--only", "read::word", "--only", "read::put"], "/tmp/edits-a_b", Check("tlv24", "edits", "read::word, read::put")),
            (["/kit/bin/rattle", "fmt", "--crate-name", "tlv24"], "/copy", None),
            (["python3", "check", "--crate-name", "tlv24"], "/copy", None),
            ([""], "/", None),
        ):
            with self.subTest(words=words, folder=folder):
                self.assertEqual(check_of(words, folder), check)

    def test_seconds_are_those_of_the_process_and_its_children(self):
        # proc(5): fields 14 to 17 are utime, stime, cutime and cstime, in hundredths of a second; field 22 is the start.
        stat = "41 (a b) c) S 40 41 41 0 -1 4194304 9 9 9 9 150 50 1000 200 20 0 1 0 77 1 1"
        self.assertEqual(seconds_of(stat), (14.0, "77"))

    def test_seconds_are_added_up_by_crate(self):
        edits = [(Check("tlv24", "edits", 0), 10.0), (Check("tlv24", "edits", 1), 12.0)]
        rows = by_crate([(Check("lists", "proof"), 9.0), (Check("tlv24", "proof"), 57.0), (Check("tlv24", "before"), 60.0), *edits])
        self.assertEqual(
            rows,
            [("tlv24", {"proof": 57.0, "before": 60.0, "edits": 22.0}, 2), ("lists", {"proof": 9.0}, 0)],
        )


if __name__ == "__main__":
    unittest.main()
