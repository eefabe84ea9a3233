"""Tests tools/run measure/library and library_memory: what they read of a profile, their lines, and that growing memory is noticed."""

import contextlib
import io
import pathlib
import re
import subprocess
import sys
import tempfile
import unittest
from unittest import mock

from service.reference.answers import reference_answer
from tools import ROOT
from tools.compare import c_library
from tools.measure import library, library_memory
from tools.measure.latency import REPLY, SILENT, TICK, plant_text

NOT_BUILT = "the library for C is not built (tools/ci/build_channel_c): nothing was measured"
# As callgrind writes it: a name is there once, and its number later. Two requests, of which one allocates.
PROFILE = """\
# callgrind format
events: Ir

fn=(1) main
16 7
cfn=(2) handle_request
calls=2 40
+3 900

fn=(2)
40 20
cfn=(3) melfjits_request
calls=2 50
* 800
cfn=(4) melfjits_next_output
calls=2 60
41 80

fn=(3)
50 200
cfn=(5) core_step
calls=2 70
50 500
cfn=(6) malloc
calls=1 80
51 100

fn=(5)
70 480
cfn=(7) memcpy
calls=5 90
70 900
"""


class Calls(unittest.TestCase):
    def test_a_profile_has_calls_and_instructions(self):
        profile = library.Profile(PROFILE)
        self.assertEqual(profile.of("handle_request"), [2, 900])
        self.assertEqual(profile.of("malloc"), [1, 100])
        self.assertEqual(list(profile.chain("melfjits_request")), [("melfjits_request", 800), ("core_step", 500)])

    def test_kinds_of_lines(self):
        found = [library.kind_of(line, kind) for line, kind in ((b"T\n", TICK), (b"Q 02 1 1\n", SILENT), (b"M 02 11\n", SILENT), (b"M 02 0F\n", REPLY))]
        self.assertEqual(found, ["T", "Q", "S", "R"])

    def test_a_row(self):
        costs = library.costs_of("- 9 0\nQ 30 0\nQ 10 2\nQ 20 0\n")
        self.assertEqual((costs["-"], costs["T"]), ([(9, 0)], []))
        self.assertEqual(library.row("Q", costs["Q"], {"Q": 1234.5}), "| bandwidth request | 3 | 20 | 30 | 30 | 1,234 | 0, 2 |")

    @unittest.skipUnless(c_library.is_built(), NOT_BUILT)
    def test_the_library_is_measured(self):
        words = [ROOT / "tools/run", "measure/library", "--lines", "1", "--counted", "1", "--program", "/nowhere"]
        done = subprocess.run(words, capture_output=True, text=True, check=False)
        self.assertEqual((done.returncode, done.stderr), (0, ""))
        rows = re.findall(r"^\| ([a-z0-9 ]+) \| (\d+|1,000) \| [\d,]+ \|", done.stdout, re.MULTILINE)
        self.assertEqual(rows, [("clock", "1,000"), ("message with a reply", "39"), ("acknowledgement", "32"), ("bandwidth request", "32"),
                                ("tick of 32 operators", "25")])  # (each fifth line is a tick)


class Memory(unittest.TestCase):
    def test_lines_can_be_repeated(self):
        with mock.patch.object(library_memory, "TURNS", 13):  # (the plant has a shorter time for its cached responses, too)
            script = library_memory.lines(1)
        plant = plant_text(1).replace("[plant]\n", "[plant]\nhold = 350\n")
        status, answers = reference_answer(["run"], f"{plant}---\n{script * 2}".encode())
        codes = [line[21:23] for line in answers.decode().splitlines() if line.startswith("R ")]
        self.assertEqual((status, codes, answers.count(b"\nS ")), (0, ["00"] * 2 * 13 * 3, 0))

    def measured(self, rows, status=0):
        """Returns how the command ends if the process prints these rows."""
        with tempfile.TemporaryDirectory() as folder:
            program = pathlib.Path(folder, "program")
            program.write_text("#!/bin/sh\n" + "".join(f"echo {row}\n" for row in rows) + f"exit {status}\n")
            program.chmod(0o755)
            with mock.patch.object(c_library, "build_program", lambda *_words: program), mock.patch.object(c_library, "is_built", lambda: True), \
                    mock.patch.object(sys, "argv", ["library_memory"]), contextlib.redirect_stdout(io.StringIO()):
                try:
                    return library_memory.main()
                except SystemExit as end:
                    return end.code

    def test_growth_is_noticed(self):
        self.assertIsNone(self.measured(["1 100", "2 200", "3 264"]))
        self.assertEqual(self.measured(["1 100", "2 100", "3 165"]), "the memory has grown by 65 KB in the second half")
        self.assertRegex(self.measured(["1 100", "2 100"], 1), "ended with status 1 after 2 rows")
        self.assertRegex(self.measured(["1 100"]), "after 1 rows")

    @unittest.skipUnless(c_library.is_built(), NOT_BUILT)
    def test_the_memory_is_measured(self):
        words = [ROOT / "tools/run", "measure/library_memory", "--hours", "0.1", "--every", "90"]
        done = subprocess.run(words, capture_output=True, text=True, check=False)
        self.assertEqual((done.returncode, done.stderr), (0, ""))
        self.assertEqual(re.findall(r"^\| [\d.]+ \| ([\d,]+) \|", done.stdout, re.MULTILINE), ["45,000", "90,000", "135,000", "180,000"])


if __name__ == "__main__":
    unittest.main()
