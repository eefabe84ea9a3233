"""Tests service/systemd/operator_group with commands of its own in place of groupadd and getent. Needs neither root nor systemd."""

import unittest

from tools import ROOT
from tools.tests.group_script import GroupScript

SCRIPT = ROOT / "service/systemd/operator_group"
FOLDER = "plant-bridge@east.service.d"


class OperatorGroups(GroupScript, unittest.TestCase):
    script = SCRIPT

    def drop_in(self, operator, group):
        return f"# (written by operator_group)\n[Service]\nSupplementaryGroups={group}\nEnvironment=GROUP_{operator}={group}\n"

    def test_each_operator_gets_a_group(self):
        for words in (("east", "A"), ("east", "Bravo", "layer2"), ("east", "A")):
            done = self.run_script(*words)
            self.assertEqual((done.returncode, done.stderr), (0, ""))
            self.assertEqual(done.stdout, f"{self.folder}/units/{FOLDER}/operator_{words[1]}.conf\nto take effect: systemctl restart plant-bridge@east\n")
        self.assertEqual(self.drop_ins(), {f"{FOLDER}/operator_A.conf": self.drop_in("A", "_plant_east_a"), f"{FOLDER}/operator_Bravo.conf": self.drop_in("Bravo", "layer2")})
        self.assertEqual((self.folder / "added").read_text(), "--system -- _plant_east_a\n--system -- layer2\n")

    def test_no_two_operators_have_the_same_group(self):
        """The names A and a differ, and their groups would not."""
        self.assertEqual(self.run_script("east", "A").returncode, 0)
        for words in (("east", "a"), ("east", "B", "_plant_east_a")):
            done = self.run_script(*words)
            self.assertEqual((done.returncode, done.stdout), (1, ""))
            self.assertIn("the group _plant_east_a is that of another operator: ", done.stderr)
        self.assertEqual(list(self.drop_ins()), [f"{FOLDER}/operator_A.conf"])
        self.assertEqual(self.run_script("east", "a", "other").returncode, 0)

    def test_wrong_arguments_change_nothing(self):
        for words, reason in (((), "usage: "), (("east",), "usage: "), (("", "A"), "no channel"), (("../east", "A"), "no channel"), (("east", "A/B"), "no operator"), (("east", "A" * 17), "no operator"),
                              (("east", ""), "no operator"), (("east", "A", "root:0"), "no group"), (("East", "A"), None), (("e" * 30, "A"), "no group")):
            done = self.run_script(*words)
            if reason is None:
                self.assertEqual(done.returncode, 0)
                continue
            self.assertEqual((done.returncode, done.stdout), (2, ""), words)
            self.assertIn(reason, done.stderr)
        self.assertEqual(list(self.drop_ins()), ["plant-bridge@East.service.d/operator_A.conf"])

    def test_a_group_that_cannot_be_made_changes_no_unit(self):
        self.command("groupadd", "echo no >&2; exit 10")
        done = self.run_script("east", "A")
        self.assertEqual((done.returncode, done.stderr), (1, "no\n"))
        self.assertFalse((self.folder / "units").exists())
