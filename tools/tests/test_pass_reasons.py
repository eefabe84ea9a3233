"""Tests service/systemd/pass_reasons: priorities, the limit and its counts, and that its writer never waits. test_serve_channel.py tests it in its place."""

import io
import os
import pathlib
import re
import signal
import subprocess
import sys
import tempfile
import threading
import time
import unittest

from tools import ROOT

SCRIPT = ROOT / "service/systemd/pass_reasons"
TEXTS = {"pass_reasons": SCRIPT.read_text()}
# What crates/program_runner writes of a refused change, with reasons of an invalid plant file, and what it writes at its end.
REFUSED = """line 7: the plant is not changed: the plant file is invalid, for the reasons that follow; its lines are counted from 1
operator[0] (Alfa), line 27: budget must be an integer from 0 to 4096, not the string "24"
"""
LAST = "writing to standard output failed: the output is incomplete\n"
SECONDS = 30


class Reasons(unittest.TestCase):
    def setUp(self):
        folder = tempfile.TemporaryDirectory()
        self.addCleanup(folder.cleanup)
        self.script = pathlib.Path(folder.name, "pass_reasons")
        self.script.write_text(TEXTS["pass_reasons"])

    def start(self, *words, errors=subprocess.PIPE):
        process = subprocess.Popen([sys.executable, "-IS", self.script, *words], stdin=subprocess.PIPE, stderr=errors, bufsize=0)
        # (a test that waits for a script with an edit fails)
        timer = threading.Timer(SECONDS, process.kill)
        timer.start()
        for closed in (process.stdin, *filter(None, (process.stderr,))):
            self.addCleanup(closed.close)
        for ended in (process.wait, process.kill, timer.cancel):
            self.addCleanup(ended)
        return process

    def write(self, process, text):
        data = text.encode()
        while data:
            data = data[process.stdin.write(data):]

    def passed(self, text, *words):
        """Returns the lines that are passed on of a text that is written at once."""
        return self.start(*words).communicate(text.encode(), SECONDS)[1].decode().splitlines()

    def test_a_refused_change_is_a_warning_and_an_end_is_an_error(self):
        process = self.start()
        self.write(process, REFUSED)
        time.sleep(0.8)
        self.write(process, LAST)
        lines = process.communicate(timeout=SECONDS)[1].decode().splitlines()
        self.assertEqual(lines, [f"<4>{line}" for line in REFUSED.splitlines()] + [f"<3>{LAST.strip()}"])

    def test_an_end_alone_is_an_error_and_a_warning_is_none(self):
        self.assertEqual(self.passed("out of memory: the run needs more memory than this process may use\n"),
                         ["<3>out of memory: the run needs more memory than this process may use"])
        self.assertEqual(self.passed("warning: line 4: unknown key plant.ack_wiat (did you mean ack_wait?)\n"),
                         ["<4>warning: line 4: unknown key plant.ack_wiat (did you mean ack_wait?)"])

    def test_the_words_of_the_program_are_the_ones_that_are_looked_for(self):
        source = (ROOT / "crates/program_runner/src/refusal_reasons.rt").read_text()
        self.assertIn('"line {number}: the plant is not changed: {text}\\n"', source)

    def test_of_a_burst_so_many_lines_are_passed_and_the_others_counted(self):
        text = "".join(f"line {number}: the plant is not changed: x\n" for number in range(1, 31))
        self.assertEqual(self.passed(text, "5"), [f"<4>line {number}: the plant is not changed: x" for number in range(1, 6)] + ["<4>held back: 25 reasons"])
        self.assertEqual(len(self.passed(text, "")), 21)
        self.assertEqual(len(self.passed(text, "many")), 21)
        self.assertEqual(len(self.passed(text, "30")), 30)
        self.assertEqual(self.passed(text, "29")[-1], "<4>held back: 1 reason")

    def test_the_count_comes_after_a_second_and_then_lines_are_passed_again(self):
        process = self.start("2")
        self.write(process, "warning: a\n" * 3)
        started = time.monotonic()
        lines = [process.stderr.readline() for _ in range(3)]
        self.assertEqual(lines, [b"<4>warning: a\n"] * 2 + [b"<4>held back: 1 reason\n"])
        self.assertGreater(time.monotonic() - started, 0.5)
        self.write(process, "warning: b\n")
        self.assertEqual(process.stderr.readline(), b"<4>warning: b\n")

    def test_a_long_flood_is_counted_each_second(self):
        process = self.start("1")
        end = time.monotonic() + 2.6
        while time.monotonic() < end:
            self.write(process, "warning: a\n" * 20)
            time.sleep(0.01)
        lines = process.communicate(timeout=SECONDS)[1].decode().splitlines()
        self.assertIn(len([line for line in lines if line == "<4>warning: a"]), (2, 3, 4))
        self.assertGreater(len([line for line in lines if re.fullmatch("<4>held back: [0-9]+ reasons", line)]), 1)

    def test_the_writer_does_not_wait_for_a_reader_of_the_output(self):
        reader, writer = os.pipe()
        self.addCleanup(os.close, reader)
        process = self.start("1000000", errors=writer)
        os.close(writer)
        started = time.monotonic()
        self.write(process, "".join(f"warning: {'a' * 90}{number}\n" for number in range(50_000)))
        process.stdin.close()
        self.assertEqual(process.wait(SECONDS), 0)
        self.assertLess(time.monotonic() - started, 25)

    def test_a_reader_that_has_gone_ends_nothing(self):
        process = self.start()
        process.stderr.close()
        self.write(process, "warning: a\n")
        time.sleep(0.5)
        self.write(process, "warning: b\n")
        self.assertIsNone(process.poll())
        process.stdin.close()
        self.assertEqual(process.wait(SECONDS), 0)

    def test_a_long_line_is_cut_and_a_last_line_needs_no_end(self):
        self.assertEqual(self.passed("a" * 200_000 + "\nb"), ["<3>" + "a" * 4_096, "<3>b"])

    def test_a_stop_does_not_end_it_before_its_input(self):
        process = self.start()
        self.write(process, "warning: a\n")
        self.assertEqual(process.stderr.readline(), b"<4>warning: a\n")
        process.send_signal(signal.SIGTERM)
        time.sleep(0.1)
        self.write(process, LAST)
        self.assertEqual(process.communicate(timeout=SECONDS)[1].count(b"writing to standard output"), 1)


# Each edit of the script is a fault that the test which is named must notice.
EDITS = [
    ("a_refused_change_is_a_warning_and_an_end_is_an_error", "GROUP_SECONDS = 0.5", "GROUP_SECONDS = 5"),
    ("a_refused_change_is_a_warning_and_an_end_is_an_error", "GROUP_SECONDS = 0.5", "GROUP_SECONDS = 0"),
    ("an_end_alone_is_an_error_and_a_warning_is_none", "        return 3", "        return 4"),
    ("an_end_alone_is_an_error_and_a_warning_is_none", "not changed|warning: ", "not changed"),
    ("of_a_burst_so_many_lines_are_passed_and_the_others_counted", "self.passed < self.most", "self.passed <= self.most"),
    ("of_a_burst_so_many_lines_are_passed_and_the_others_counted", "    report(True)\n", ""),
    ("of_a_burst_so_many_lines_are_passed_and_the_others_counted", 'b"" if held == 1 else b"s"', 'b"s"'),
    ("the_count_comes_after_a_second_and_then_lines_are_passed_again", "self.end, self.passed = now + 1, 0", "self.end = now + 1"),
    ("the_count_comes_after_a_second_and_then_lines_are_passed_again", "if limit.held else None", "if False else None"),
    ("a_long_flood_is_counted_each_second", "        report(now >= limit.end)\n", ""),
    ("the_writer_does_not_wait_for_a_reader_of_the_output", "            waiting.put(b\"<%d>", "            os.write(2, b\"<%d>"),
    ("the_writer_does_not_wait_for_a_reader_of_the_output", "daemon=True", "daemon=False"),
    ("the_writer_does_not_wait_for_a_reader_of_the_output", "writer.join(LAST_SECONDS)", "writer.join()"),
    ("a_reader_that_has_gone_ends_nothing", "            waiting.put(b\"<%d>", "            os.write(2, b\"<%d>"),
    ("a_long_line_is_cut_and_a_last_line_needs_no_end", "[line[:MOST_LINE] for line in lines]", "lines"),
    ("a_long_line_is_cut_and_a_last_line_needs_no_end", 'lines.take(data or b"\\n" * (not is_open and lines.rest != b""))', 'lines.take(data or b"")'),
    ("a_stop_does_not_end_it_before_its_input", "signal.signal(signal.SIGTERM, signal.SIG_IGN)", "pass"),
]


def is_noticed(test, old, new):
    """Returns whether a test fails once the script has the edit."""
    global SECONDS
    text, seconds = TEXTS["pass_reasons"], SECONDS
    assert text.count(old) == 1, f"pass_reasons has {text.count(old)} times: {old}"
    TEXTS["pass_reasons"], SECONDS = text.replace(old, new), 4
    try:
        return not unittest.TextTestRunner(stream=io.StringIO()).run(Reasons(f"test_{test}")).wasSuccessful()
    finally:
        TEXTS["pass_reasons"], SECONDS = text, seconds


class Edits(unittest.TestCase):
    def test_each_edit_is_noticed(self):
        self.assertEqual([edit for edit in EDITS if not is_noticed(*edit)], [])
