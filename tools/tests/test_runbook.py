"""Tests docs/RUNBOOK.md: it has each alert of the package, is as short as it should be, and its commands on files print what it says.

The commands run on the folder and the answers of a channel that the second implementation has served. Those of systemd are left out.
"""

import os
import pathlib
import re
import subprocess
import sys
import tempfile
import unittest

from tools import EXAMPLES, ROOT

RUNBOOK = (ROOT / "docs/RUNBOOK.md").read_text()
MOST_WORDS, MOST_WORDS_OF_ALERT, MOST_COMMANDS = 920, 100, 3
FOLDER = "/var/lib/plant_script/east"
PLANT = (EXAMPLES / "plant_p2.toml").read_text()
# Operator A has room for four flows, so that the fifth request gets code 3. Line 11 is invalid, and line 12 names no SID of the modem.
ADDED = "".join(f"M 020000000001 0F000{tid}180A010200010601060F0102\nM 020000000001 11000{tid}00\n" for tid in (1, 2, 3, 4))
LINES = f"{ADDED}T\n" + "M 020000000001 0F0005180A010200010601060F0102\n" + "X\nQ 020000000001 999 1\nT\n"


def sections():
    """Returns the text of each section by its heading."""
    parts = re.split(r"(?m)^###? (.*)\n", RUNBOOK)
    return dict(zip(parts[1::2], parts[2::2]))


def commands(text):
    return [line.strip() for line in text.splitlines() if line.startswith("    ")]


class Page(unittest.TestCase):
    def test_each_alert_has_a_section_and_no_other(self):
        alerts = re.findall(r"(?m)^ +- alert: (\w+)$", (ROOT / "service/prometheus/alerts.yml").read_text())
        self.assertGreater(len(alerts), 20)
        self.assertEqual([heading for heading in sections() if heading.startswith("Melfjits")], alerts)

    def test_its_length(self):
        self.assertLessEqual(len(RUNBOOK.split()), MOST_WORDS)
        for heading, text in sections().items():
            self.assertLessEqual(len(commands(text)), MOST_COMMANDS, heading)
            self.assertLessEqual(len(text.split()), MOST_WORDS_OF_ALERT, heading)
            self.assertTrue(commands(text) or heading in ("Alerts", "Without an alert"), heading)


class Commands(unittest.TestCase):
    def setUp(self):
        folder = tempfile.TemporaryDirectory()
        self.addCleanup(folder.cleanup)
        self.top = pathlib.Path(folder.name)
        (self.top / "folder").mkdir()
        words = [sys.executable, ROOT / "service/reference", "serve", "--state", self.top / "folder"]
        with open(self.top / "answers", "wb") as answers:
            subprocess.run(words, input=f"{PLANT}---\n{LINES}".encode(), stdout=answers, check=True)
        self.program = self.top / "program"
        self.program.write_text(f'#!/bin/sh\nexec {sys.executable} {ROOT}/service/reference "$@"\n')
        self.program.chmod(0o755)

    def run_command(self, heading, beginning):
        """Runs the command of a section that begins so, on the files of the channel, and returns what it prints."""
        found, = [line for line in commands(sections()[heading]) if line.startswith(beginning)]
        text = found.split(" > ")[0].replace("--channel east", f"--folder {FOLDER}/folder").replace("describe_state", str(ROOT / "service/describe_state"))
        done = subprocess.run(["sh", "-c", text.replace(FOLDER, str(self.top))], capture_output=True, text=True, check=False,
                              env={**os.environ, "PLANT_SCRIPT": str(self.program)})
        self.assertEqual((done.returncode, done.stderr), (0, ""), found)
        return done.stdout

    def test_answers(self):
        self.assertEqual(self.run_command("MelfjitsInvalidLines", "grep"), "fault: line 11\n")
        self.assertEqual(self.run_command("MelfjitsRefusals", "grep"), "R 020000000001 10000503\n")
        self.assertEqual(self.run_command("MelfjitsBeganAnew", "grep"), "S line 1 frame 0\n")
        self.assertRegex(self.run_command("MelfjitsNoMap", "tail"), r"^F A 1 .*\nF B 1 .*\nMAP 1 ")
        frames = self.run_command("MelfjitsStateNotSaved", "grep")
        self.assertEqual(re.findall("(?m)^F . .", frames), ["F A 0", "F B 0", "F A 1", "F B 1"])

    def test_the_invalid_line_is_found_in_the_journal(self):
        first = self.run_command("MelfjitsInvalidLines", "head")
        lines = self.run_command("MelfjitsInvalidLines", "sed").splitlines()
        number = int(self.run_command("MelfjitsInvalidLines", "grep").split()[-1])
        self.assertEqual((first, lines[number - int(first.split()[-1]) - 1]), ("=line 0\n", "X"))

    def test_the_plant_file_in_service(self):
        self.assertEqual(self.run_command("Reload refused", "sed"), PLANT)

    def test_the_state_and_the_flows_of_a_modem(self):
        self.assertIn("flows: 4 of at most 4", self.run_command("MelfjitsBudgetCommitted", "describe_state --channel"))
        self.assertIn("Modem 020000000001 of operator A: 4 flows", self.run_command("MelfjitsStateUnknown", "describe_state"))

    def test_who_sends_most(self):
        most = self.run_command("MelfjitsFlood", "tail").splitlines()[-1].split()
        self.assertEqual(most, ["9", "M", "020000000001"])
        self.assertEqual(self.run_command("MelfjitsInputWaits", "tail").splitlines()[-1], "-")

    def test_the_disk(self):
        self.assertEqual(self.run_command("MelfjitsDiskFull", "du").count("\n"), 2)
        self.assertIn(f"{self.top}/folder/journal", self.run_command("MelfjitsStateNotSaved", "ls"))
        self.run_command("MelfjitsDiskFull", "truncate")
        self.assertEqual((self.top / "answers").read_bytes(), b"")


if __name__ == "__main__":
    unittest.main()
