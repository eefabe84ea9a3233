"""Tests tools/run ci/crate_lists: what it writes into a small repository, and that it notices each kind of difference."""

import pathlib
import subprocess
import tempfile
import unittest

from tools import ROOT

CRATES = """# NAME: what it depends on
# Part: Tests
trials: low
# Part: Low ones
low:
# Part: High ones
middle: low toml
high staticlib: std_heap low middle
"""
PAGE = """# Page

<!-- generated: {} -->
old
<!-- end -->

After.
"""


class Lists(unittest.TestCase):
    def setUp(self):
        folder = tempfile.TemporaryDirectory()
        self.addCleanup(folder.cleanup)
        self.root = pathlib.Path(folder.name)
        (self.root / "docs").mkdir()
        (self.root / "crates.txt").write_text(CRATES)

    def run_tool(self, *options):
        done = subprocess.run([ROOT / "tools/run", "ci/crate_lists", "--root", self.root, *options], capture_output=True, text=True, check=False)
        return done.returncode, done.stdout + done.stderr

    def written(self, block):
        """Returns what the tool writes between the marks of a block."""
        page = self.root / "docs/PAGE.md"
        page.write_text(PAGE.format(block))
        self.assertEqual(self.run_tool(), (0, ""))
        self.assertEqual(self.run_tool("--check"), (0, ""))
        before, rest = page.read_text().split(f"<!-- generated: {block} -->\n\n")
        lines, after = rest.split("\n\n<!-- end -->\n")
        self.assertEqual((before, after), tuple(PAGE.split("<!-- generated: {} -->\nold\n<!-- end -->\n")))
        return lines

    def test_crates(self):
        self.assertEqual(self.written("crates"), "\n".join((
            "- Low ones: [low](reference/low.md)", "- High ones: [middle](reference/middle.md), [high](reference/high.md)",
            "- Tests: [trials](reference/trials.md)",
        )))  # fmt: skip

    def test_graph_leaves_out_what_is_reached_through_another(self):
        self.assertEqual(self.written("graph"), "```\n 3  high   → middle\n 2  trials → low\n    middle → low\n 1  low\n```")

    def test_libraries(self):
        self.assertEqual(self.written("libraries"), "`toml`")

    def test_check_changes_nothing_and_notices(self):
        page = self.root / "docs/PAGE.md"
        page.write_text(PAGE.format("crates"))
        self.run_tool()
        text = page.read_text()
        (self.root / "crates.txt").write_text(CRATES.replace("high static", "highest static"))
        status, output = self.run_tool("--check")
        self.assertEqual(status, 1)
        self.assertIn(", [high](reference/high.md)\n+- High ones: [middle](reference/middle.md), [highest](reference/highest.md)\n", output)
        self.assertEqual(page.read_text(), text)

    def test_a_moved_dependency(self):
        self.written("graph")
        (self.root / "crates.txt").write_text(CRATES.replace("high staticlib: std_heap low middle", "high: low"))
        self.assertEqual(self.run_tool("--check")[0], 1)

    def test_faults(self):
        for file, text, message in (
            ("crates.txt", "low:\n", "crates.txt: low has no part\n"),
            ("docs/PAGE.md", PAGE.format("other"), "there is no block other: it is one of crates, graph, libraries\n"),
        ):
            self.setUp()
            (self.root / "docs/PAGE.md").write_text(PAGE.format("crates"))
            (self.root / file).write_text(text)
            self.assertEqual(self.run_tool("--check"), (1, message))
