"""Tests tools/ci/quoted_errors.py: which quotes of standard error are compared, and what is wrong with them.

A script in place of the program writes what it read to standard error. The quotes of the repository are compared with the program by
tools/ci/examples.sh.
"""

import pathlib
import tempfile
import unittest

from tools import ROOT
from tools.ci.quoted_errors import pages, quotes_of, wrong_quotes

# Writes its command and its input to standard error.
PROGRAM = "#!/bin/sh\necho no output\necho \"$@\" >&2\ncat >&2\n"
INPUT = "one = 1\ntwo = 1\n"


class Quotes(unittest.TestCase):
    def setUp(self):
        folder = tempfile.TemporaryDirectory()
        self.addCleanup(folder.cleanup)
        self.top = pathlib.Path(folder.name)
        for name in ("docs", "examples/first"):
            (self.top / name).mkdir(parents=True)
        (self.top / "examples/first/input.txt").write_text(INPUT)
        self.program = self.top / "program"
        self.program.write_text(PROGRAM)
        self.program.chmod(0o755)

    def wrong(self, text, page="docs/PAGE.md", program=None):
        (self.top / page).write_text(text)
        return wrong_quotes(program or self.program, self.top)

    def test_the_same_text(self):
        block = f"Text.\n\n```stderr check examples/first/input.txt\ncheck\n{INPUT}```\n"
        for page in ("docs/PAGE.md", "PAGE.md", "examples/README.md", "examples/first/README.md"):
            count, wrong = self.wrong(block, page)
            self.assertEqual(wrong, [])
        self.assertEqual(count, 4)

    def test_another_text(self):
        for text in ("", "check\n", "check\none = 1\ntwo = 2\n", f"check\n{INPUT}\n", f"run\n{INPUT}", f"no output\ncheck\n{INPUT}"):
            _, wrong = self.wrong(f"Text.\n\n```stderr check examples/first/input.txt\n{text}```\n")
            self.assertEqual(wrong, [f"docs/PAGE.md, line 3: the page has\n{text}where the program writes\ncheck\n{INPUT}"])

    def test_changes_of_the_input(self):
        count, wrong = self.wrong("```stderr history A examples/first/input.txt ~ = 1 > = 23 ~ two = 1| > three|four = 4|\nhistory A\none = 23\nthree\nfour = 4\n```\n")
        self.assertEqual((count, wrong), (1, []))
        _, wrong = self.wrong("```stderr check examples/first/input.txt ~ five > six\n```\n")
        self.assertEqual(len(wrong), 1)
        self.assertIn("docs/PAGE.md, line 1: the plant has no 'five' to change", wrong[0])

    def test_no_such_file_and_no_command(self):
        _, wrong = self.wrong("```stderr check examples/none.txt\n```\n\n```stderr examples/first/input.txt\n```\n", program="/none")
        self.assertEqual([what.split(": ")[0] for what in wrong], ["docs/PAGE.md, line 1", "docs/PAGE.md, line 4"])
        self.assertIn("No such file", wrong[0])
        self.assertIn("no command", wrong[1])

    def test_without_the_program(self):
        self.assertEqual(self.wrong("```stderr check examples/first/input.txt\nother\n```\n", program="/none"), (1, []))

    def test_messages_in_no_block_are_found(self):
        messages = ("warning: line 4: unknown key plant.a", 'line 37 (script line 2), "T C": unknown operator "C"', "operator[0] (A), line 18: budget 33 is too large",
                    "operators A (line 12) and B (line 25): slices overlap", "plant, line 1: frame_us is missing", "operator A is at frame 1: other slices come too late")
        for message in messages:
            for text in (f"Text:\n\n    {message}\n", f"```text\n{message}\n```\n", f"It says `{message}`.\n\n```run\nT\n```\n"):
                _, wrong = self.wrong(text)
                self.assertEqual(len(wrong), 1, text)
                self.assertRegex(wrong[0], r"^docs/PAGE.md, line \d+: quote standard error in a block that begins with ```stderr ")

    def test_other_lines_are_none(self):
        for line in ("line 14: Z 1 8/32/32 40/32/32", "fault: line 14", "warning:", "F A 0 0/6/8/32", "operator A"):
            self.assertEqual(self.wrong(f"Text:\n\n    {line}\n\n`{line}`\n"), (0, []), line)

    def test_pages_of_the_repository(self):
        """The pages that quote standard error are among those that are compared."""
        found = {str(page.relative_to(ROOT)) for page in pages(ROOT) if list(quotes_of(ROOT, page))}
        self.assertEqual({"docs/FORMATS.md", "docs/GUIDE.md", "examples/trace/README.md"} - found, set())


if __name__ == "__main__":
    unittest.main()
