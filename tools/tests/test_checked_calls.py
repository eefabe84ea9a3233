"""Tests tools/run compare/checked_library_calls: what it notices, and the library for C if that is built."""

import pathlib
import subprocess
import tempfile
import unittest

from tools import ROOT
from tools.compare import c_library
from tools.compare import checked_library_calls as TOOL


class Checks(unittest.TestCase):
    def test_another_end_of_a_program_is_noticed(self):
        self.assertEqual(TOOL.printed(["cat"], b"R\n"), b"R\n")
        for script in ("exit 1", "echo found >&2"):
            with self.assertRaisesRegex(TOOL.Differs, "^sh ended with status"):
                TOOL.printed(["sh", "-c", script], b"")

    def test_another_output_is_noticed(self):
        TOOL.compare("run", b"R 1\nend\n", b"R 1\nend\n")
        with self.assertRaisesRegex(TOOL.Differs, "^run: line 2 is\nb'S'\nwhere an ordinary run has\nb'F'$"):
            TOOL.compare("run", b"R\nS\nend\n", b"R\nF\nend\n")
        with self.assertRaises(TOOL.Differs):
            TOOL.compare("run", b"R\n", b"R\nF\n")

    def test_an_allocation_that_changes_the_output_is_noticed(self):
        with tempfile.TemporaryDirectory() as name:
            folder = pathlib.Path(name)
            source = folder / "program.c"
            source.write_text('#include <stdlib.h>\n#include <unistd.h>\nint main(void) { void *p = malloc(9); free(p); '
                              'return write(1, p ? "A" : "B", 1) != 1; }\n')
            subprocess.run(["gcc", "-o", folder / "program", source], check=True)
            made = TOOL.cases_with_changes(3)[0]
            with self.assertRaisesRegex(TOOL.Differs, "^allocation 1: "):
                TOOL.fail_allocations(str(folder / "program"), folder, [made])
            source.write_text("int main(void) { return 0; }\n")
            subprocess.run(["gcc", "-o", folder / "program", source], check=True)
            with self.assertRaisesRegex(TOOL.Differs, "^no allocation failed"):
                TOOL.fail_allocations(str(folder / "program"), folder, [made])

    def test_the_cases_make_all_calls(self):
        names = {call.split(" ")[0] for made in TOOL.cases_with_changes(60) for _line, call in made.calls}
        self.assertEqual(names, {"arrive", "request", "tick", "collect", "reslice", "reopen", "change"})

    @unittest.skipUnless(c_library.is_built(), "the library for C is not built (tools/ci/build_channel_c): no call of it was checked")
    def test_the_library(self):
        done = subprocess.run([ROOT / "tools/run", "compare/checked_library_calls", "6", "--failed", "1"], capture_output=True, text=True, check=False)
        self.assertEqual((done.returncode, done.stderr), (0, ""))
        self.assertRegex(done.stdout, r"AddressSanitizer and UndefinedBehaviorSanitizer: no finding\n[1-9]\d* allocations of 1 cases failed")


if __name__ == "__main__":
    unittest.main()
