"""Tests tools/run ci/fuzz_library: the inputs it begins with, that a wrong library fails, and the library for C if that is built."""

import contextlib
import io
import pathlib
import subprocess
import tempfile
import unittest

from tools import EXAMPLES, ROOT
from tools.compare import c_library
from tools.fuzzing import fuzz_library as TOOL
from tools.tests.stub_library import build_archive


class Inputs(unittest.TestCase):
    def test_lines_become_octets(self):
        for line, octets in (("M 020000000002 0F00-11", "02030F0011"), ("Q 020000000003 513 7", "0305FF02010007"), ("T", "00"), ("T A", "00"),
                             ("M 020000000009 -", "0400"), ("", ""), ("Z 1 8/32/32 40/32/32", ""), ("M 020000000001 0", ""), ("Q 020000000001 70000 1", "")):
            self.assertEqual(TOOL.octets_of_line(line).hex().upper(), octets, line)

    def test_texts_are_those_of_examples_and_tests(self):
        found = TOOL.opened_texts(TOOL.inputs())
        self.assertIn((EXAMPLES / "plant_p2.toml").read_bytes(), found)
        self.assertGreater(len(found), 100)
        self.assertGreater(sum(text.startswith(b"melfjits-snapshot 1 ") for text in found), 10)
        self.assertEqual(len(set(found)), len(found))

    def test_what_modems_send_is_that_of_examples_and_tests(self):
        found = TOOL.sent_octets(TOOL.inputs())
        self.assertGreater(len(found), 200)
        self.assertTrue(any(octets.startswith(bytes.fromhex("010F0F0001180A010200010601060F0102")) for octets in found))


@unittest.skipUnless(TOOL.compiler(), f"none of {', '.join(TOOL.COMPILERS)} is installed: nothing was fuzzed")
class Targets(unittest.TestCase):
    def test_a_library_whose_calls_say_that_the_handle_is_closed_fails(self):
        for target, text in (("open", "a text is refused by a number that is not documented"), ("arrive", "the plant file is refused")):
            with tempfile.TemporaryDirectory() as folder, contextlib.redirect_stdout(io.StringIO()) as printed:
                self.assertFalse(TOOL.fuzz(target, 1, pathlib.Path(folder), [build_archive(pathlib.Path(folder))]))
                self.assertEqual(len([path for path in pathlib.Path(folder).iterdir() if path.name.startswith("crash-")]), 1)
            self.assertIn(f"fuzz_library: {text}\n", printed.getvalue())

    @unittest.skipUnless(c_library.is_built(), "the library for C is not built (tools/ci/build_channel_c): it was not fuzzed")
    def test_the_library(self):
        with tempfile.TemporaryDirectory() as folder:
            words = [ROOT / "tools/run", "ci/fuzz_library", "--seconds", "2", "--output", folder]
            done = subprocess.run(words, capture_output=True, text=True, check=False)
        self.assertEqual((done.returncode, done.stderr, done.stdout.count(", 0 findings\n")), (0, "", 2), done.stdout)


if __name__ == "__main__":
    unittest.main()
