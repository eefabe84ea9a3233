"""Tests tools/run ci/check_prose: it finds each kind of mistake in its line, and nothing where there is none."""

import pathlib
import subprocess
import tempfile
import unittest

from tools import ROOT
from tools.prose.check_prose import documents
from tools.prose.checks import findings_of
from tools.prose.words import CROSSED_OUT

# One use of each pattern of CROSSED_OUT, in their order.
USES = (
    "the line behind it", "the line beside it", "want of memory ends it", "a line at fault", "it is told", "it puts out a line", "parted by a space",
    "two slices meet", "it stands there", "it comes to nothing", "it is no number", "all but for one", "`read_flow` answers it", "the word `run`",
    "it is chosen (own)", "other slices come", "a kept response", "it is given up", "it is sent again", "a silent cause", "it asks for 5 minislots",
    "the headline says so", "the gate passes", "it lets go", "what is heard", "a change goes through the house",
)  # fmt: skip
ALLOWED = (
    "There is no longer line.", "`behind` is code.", 'It prints "a line at fault".', "A plant is behind a Unix socket.", "There is no such line.",
    "Parts of a MAP are few.", "A requirement is met.", "The standard says so.", "Its own modems send.", "`serve` answers a line.", "`./plant_script run` answers too.",
)  # fmt: skip


class Findings(unittest.TestCase):
    def setUp(self):
        folder = tempfile.TemporaryDirectory()
        self.addCleanup(folder.cleanup)
        self.root = pathlib.Path(folder.name)
        (self.root / "docs").mkdir()

    def found(self, text, name="docs/PAGE.md"):
        """Returns the kinds that are found in a document, each with its line."""
        path = self.root / name
        path.write_text(text)
        return [(finding.kind, finding.line) for finding in findings_of(self.root, path)]

    def test_each_crossed_out_word(self):
        self.assertEqual(len(USES), len(CROSSED_OUT))
        for use in USES:
            self.assertEqual(self.found(f"# Title\n\n- First.\n- Now {use}.\n"), [("word", 4)], use)

    def test_words_in_headings_and_cells(self):
        self.assertEqual(self.found("# What stands\n\n| a | b |\n|---|---|\n| 1 | told |\n"), [("word", 1), ("word", 5)])

    def test_allowed_text(self):
        for text in ALLOWED:
            self.assertEqual(self.found(text + "\n"), [], text)
        self.assertEqual(self.found("Text.\n\n    it stands behind\n\n```\nit stands behind\n```\n"), [])

    def test_sentences(self):
        self.assertEqual(self.found("One.\nWord\n" + "word\n" * 33 + "word. Two.\n"), [])
        self.assertEqual(self.found("One.\nWord\n" + "word\n" * 34 + "word. Two.\n"), [("sentence", 1)])
        self.assertEqual(self.found("word\n" * 30 + "word.\n", "README.md"), [("sentence", 1)])
        self.assertEqual(self.found("word\n" * 29 + "word.\n", "README.md"), [])
        for name in ("docs/ARCHITECTURE.md", "docs/THEOREM.md"):
            self.assertEqual(self.found("word\n" * 25 + "word.\n", name), [("sentence", 1)])
            self.assertEqual(self.found("word\n" * 24 + "word.\n", name), [])

    def test_lines(self):
        self.assertEqual(self.found("a" * 100 + "\n"), [])
        self.assertEqual(self.found("Text.\n\n" + "a" * 101 + "\n"), [("line", 3)])
        self.assertEqual(self.found("| " + "a" * 101 + " |\n|---|\n\n    " + "a" * 101 + "\n"), [])
        self.assertEqual(self.found("- Word:\n  `" + "a " * 50 + "a`\n- `" + "a " * 50 + "a`\n"), [])
        self.assertEqual(self.found("- Word:\n  `" + "a " * 50 + "a`.\n"), [("line", 2)])

    def test_generated_pages(self):
        (self.root / "docs/reference").mkdir()
        self.assertEqual(self.found("Told.\n" + "word\n" * 40 + "[a](NONE.md)\n" + "a" * 101 + "\n", "docs/reference/PAGE.md"), [("link", 1), ("line", 43)])
        self.assertIn(ROOT / "docs/reference/README.md", documents())

    def test_cells(self):
        row = "| 1 | " + "word " * 12
        self.assertEqual(self.found("| a | b |\n|---|---|\n" + row + "|\n"), [])
        self.assertEqual(self.found("| a | b |\n|---|---|\n" + row + "word |\n"), [("cell", 3)])
        self.assertEqual(self.found("| a |\n|---|\n| `a | b` |\n"), [])

    def test_links(self):
        self.found("# A title: `code`\n", "docs/OTHER.md")
        self.assertEqual(self.found("[a](OTHER.md#a-title-code) [b](OTHER.md) [c](https://x.org/y) [d](#one)\n\n# One\n"), [])
        self.assertEqual(self.found("Text.\n\n[a](GONE.md)\n"), [("link", 3)])
        self.assertEqual(self.found("[a](OTHER.md#gone)\n![b](gone.svg)\n"), [("link", 1), ("link", 1)])

    def test_names_of_files(self):
        (self.root / "tools").mkdir()
        (self.root / "tools/run").touch()
        self.assertEqual(self.found("`tools/run x`, `tools/*`, tools/run and PAGE.md. `crates/a/out/b`, /x/tools/gone.\n"), [])
        self.assertEqual(self.found("Text `tools/gone`.\n\n    tools/gone x\n\nAnd GONE.md.\n"), [("file", 1), ("file", 3), ("file", 5)])

    def test_names_of_definitions(self):
        (self.root / "crates/low/src").mkdir(parents=True)
        (self.root / "crates/low/src/cell.rt").write_text("pub fn open_cell() {}")
        (self.root / "crates/low/specs").mkdir()
        (self.root / "crates/low/specs/Row.antt").write_text("pub record IsRow (row : Row) : Type 0")
        text = "`low`, `open_cell`, `IsRow row`, `Row.antt`, `a.b`, `fault: gone`.\n"
        self.assertEqual(self.found(text + "\n`IsRow gone`\n", "docs/ARCHITECTURE.md"), [("name", 3)])
        self.assertEqual(self.found("# Rows\n\n`Cell::gone`\n", "docs/THEOREM.md"), [("name", 3), ("name", 3)])
        self.assertEqual(self.found("`IsGone`\n"), [])


class Program(unittest.TestCase):
    def run_on(self, text):
        """Returns the exit status and the output of the program on a document."""
        with tempfile.NamedTemporaryFile("w", suffix=".md") as file:
            file.write(text)
            file.flush()
            done = subprocess.run([ROOT / "tools/run", "ci/check_prose", file.name], capture_output=True, text=True, check=False)
        return done.returncode, done.stdout

    def test_words_of_standard_input(self):
        for text, status, out in (("It ends.\n\n    it stands\n", 0, ""), ("It ends.\nIt stands.\n", 1, "1: word: 'stands': write")):
            done = subprocess.run([ROOT / "tools/run", "ci/check_prose", "--words"], input=text, capture_output=True, text=True, check=False)
            self.assertEqual((done.returncode, done.stdout[:len(out)]), (status, out))

    def test_statuses(self):
        self.assertEqual(self.run_on("Text.\n")[0], 0)
        status, out = self.run_on("It stands here.\n")
        self.assertEqual(status, 1)
        self.assertIn(":1: word: 'stands'", out)
