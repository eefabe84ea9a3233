"""Tests of tools/run ci/plants: `rt plant` over holes in place of proofs. A file that does as little stands in for `rt plant`."""

import contextlib
import io
import os
import pathlib
import tempfile
import unittest
from unittest import mock

from tools.ci import plants

# Prints the list of the crate's functions, the files of its copy and what a check of the copy says.
RT_PLANT = """\
import os, pathlib, shutil, tempfile, time, types

rt = types.SimpleNamespace(RATTLE="rattle", main=None)

class Copy:
    def __init__(self, crate, source, folder, flags, seconds):
        self.crate, self.folder, self.end = crate, folder, time.monotonic() + seconds
        for part in ("src", "proofs"):
            shutil.copytree(part, f"{folder}/{part}")

def main(name, *options):
    rt.main("check", name)
    crate = types.SimpleNamespace(name=name, words=lambda flags: ["--crate-name", name, *flags])
    with tempfile.TemporaryDirectory() as folder:
        copy = Copy(crate, None, folder, [], 60)
        for path in sorted(pathlib.Path(folder).rglob("*.antt")):
            print(path.relative_to(folder))
        print(copy.check(["push_plant0", "push_plant1"]), end="")
        copy.end = 0
        print(copy.check(["push_plant0"]))
    print(options)
    return 0
"""
RATTLE = """\
#!/bin/sh
echo "$*" | grep -q -- '--allow-holes' && echo 'fn lists::listed::push_plant0: depends on a hole in `x`'
echo 'fn lists::listed::push_plant1: no proof: `search` did not prove `returns`'
"""


class Plants(unittest.TestCase):
    def setUp(self):
        folder = tempfile.TemporaryDirectory()
        self.addCleanup(folder.cleanup)
        self.root = pathlib.Path(folder.name)
        for path, text in {
            "crates/lists/src/listed.rt": "fn push() { right() }\n",
            "crates/lists/proofs/Lib.antt": "mod Lemmas\n",
            "crates/lists/proofs/listed/push/Answers.antt": "an answer\n",
            "kit/bin/rt-plant": RT_PLANT,
            "kit/bin/rattle": RATTLE,
            "kit/bin/rt": "#!/bin/sh\n",
        }.items():
            file = self.root / path
            file.parent.mkdir(parents=True, exist_ok=True)
            file.write_text(text)
            file.chmod(0o755)

    def run_tool(self, *arguments):
        """Runs the tool on the crate of this test. Returns its status and what it prints."""
        out = io.StringIO()
        path = f"{self.root / 'kit/bin'}:{os.environ['PATH']}"
        words = ["plants", "--libraries", str(self.root / "crates"), *arguments]
        with mock.patch.dict(os.environ, PATH=path), mock.patch("sys.argv", words), contextlib.redirect_stdout(out):
            return plants.main(), out.getvalue()

    def test_wrong_bodies_are_tried_over_holes(self):
        status, printed = self.run_tool("lists", "--minutes", "5")
        self.assertEqual(status, 0)
        self.assertEqual(
            printed.splitlines(),
            [
                "",
                "crate lists: its functions",
                "fn lists::listed::push: proved",
                "",
                "proofs/Lib.antt",
                "proofs/listed/push/Proof.antt",
                # A wrong body that rests on a hole meets its contract.
                "fn lists::listed::push_plant0: proved in `x`",
                "fn lists::listed::push_plant1: no proof: `search` did not prove `returns`",
                # No time is left for the second check.
                "None",
                "('--minutes', '5')",
            ],
        )

    def test_a_crate_that_is_not_there_is_an_error(self):
        errors = io.StringIO()
        with self.assertRaises(SystemExit) as ended, contextlib.redirect_stderr(errors):
            self.run_tool("nothing")
        self.assertEqual(ended.exception.code, 2)
        self.assertIn("there is no crate nothing in", errors.getvalue())


if __name__ == "__main__":
    unittest.main()
