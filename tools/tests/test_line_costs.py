"""Tests of what tools/run measure/line_costs reads from a profile, and of how it calls a line."""

import unittest

from tools.measure.line_costs import counted_parts, name_of

# As callgrind writes it: a name stands once, and its number later. Part 2 has three allocations, of which one is a realloc.
PROFILE = """\
# callgrind format
part: 1
desc: Trigger: --dump-before=read
summary: 900

fn=(1) main
16 7
cfn=(2) malloc
calls=2 40
16 300

totals: 900
part: 2
desc: Trigger: --dump-before=read
summary: 4651

fn=(1)
16 9
cfn=(2)
calls=2 40
16 310
cfn=(3) free
calls=5 60
16 500
cfn=(4) realloc
calls=1 70
16 80

fn=(2)
40 100

totals: 4651
"""


class LineCosts(unittest.TestCase):
    def test_each_part_has_its_instructions_and_allocations(self):
        self.assertEqual(counted_parts(PROFILE), [(900, 2), (4651, 3)])

    def test_a_line_is_called_by_its_message(self):
        for line, name in (
            (b"T\n", "tick of all operators"),
            (b"Q 020000000001 7 3\n", "bandwidth request"),
            (b"M 020000000001 15000100000007\n", "DSD-REQ"),
            (b"M 020000000001 11000000\n", "DSA-ACK"),
            (b"X\n", "invalid line"),
        ):
            with self.subTest(line=line):
                self.assertEqual(name_of(line), name)


if __name__ == "__main__":
    unittest.main()
