"""Tests tools/run ci/doc_comments: it notices each kind of finding in a small crate, and nothing in good comments."""

import pathlib
import subprocess
import tempfile
import unittest

from tools import ROOT

GOOD = """//! The module of a small crate.

/// A value that has a field.
pub struct Value {
    /// Its number.
    pub number: u8,
}

/// Returns the number of the value.
pub fn number() -> u8 {
    7
}

/// Names of tests need no verb.
#[test]
fn the_number_is_seven() {}
"""


class Comments(unittest.TestCase):
    def findings(self, text):
        """Returns the kinds that the tool finds in a crate with this text, and its exit status."""
        with tempfile.TemporaryDirectory() as folder:
            source = pathlib.Path(folder) / "crates" / "small" / "src" / "lib.rt"
            source.parent.mkdir(parents=True)
            source.write_text(text)
            done = subprocess.run([ROOT / "tools/run", "ci/doc_comments", "--root", folder], capture_output=True, text=True, check=False)
        lines = done.stdout.splitlines()[:-1]
        return [line.split(": ")[1] for line in lines], done.returncode

    def test_good_comments_have_no_finding(self):
        self.assertEqual(self.findings(GOOD), ([], 0))

    def test_a_function_begins_with_a_verb(self):
        for word in ("The", "How", "Names", "Nothing"):
            self.assertEqual(self.findings(GOOD.replace("Returns the number", f"{word} the number")), (["verb"], 1))

    def test_a_short_comment_is_found(self):
        self.assertEqual(self.findings(GOOD.replace("Returns the number of the value.", "Returns it.")), (["short"], 1))
        self.assertEqual(self.findings(GOOD.replace("A value that has a field.", "A value.")), (["short"], 1))

    def test_a_word_that_is_not_used_is_found(self):
        self.assertEqual(self.findings(GOOD.replace("the number of the value", "what the value is told of")), (["word"], 1))

    def test_a_public_function_without_a_comment_is_found(self):
        self.assertEqual(self.findings(GOOD.replace("/// Returns the number of the value.\n", "")), (["missing"], 1))

    def test_a_function_for_c_is_a_function(self):
        text = GOOD.replace("pub fn number", 'pub extern "C" fn number')
        self.assertEqual(self.findings(text), ([], 0))
        self.assertEqual(self.findings(text.replace("/// Returns the number of the value.\n", "")), (["missing"], 1))

    def test_attributes_stand_between_a_comment_and_its_function(self):
        text = GOOD.replace("pub fn number", "#[inline]\npub fn number")
        self.assertEqual(self.findings(text), ([], 0))
        self.assertEqual(self.findings(text.replace("Returns the number", "The number")), (["verb"], 1))
