"""Tests service/systemd/channel_group with commands of its own in place of groupadd and getent. Needs neither root nor systemd.

tools/ci/package_trial tries it with real users and channels.
"""

import unittest

from tools import ROOT
from tools.tests.group_script import GroupScript

SCRIPT = ROOT / "service/systemd/channel_group"
UNITS = ("plant@{}.socket", "plant-bridge@{}.socket", "plant@{}.service", "plant-bridge@{}.service", "plant-ticker@{}.service", "plant-metrics@{}.service",
         "plant-renumber@{}.service")


class Groups(GroupScript, unittest.TestCase):
    script = SCRIPT

    def wanted(self, channel, group):
        texts = {unit: "[Socket]\nSocketGroup" if unit.endswith(".socket") else "[Service]\nGroup" for unit in UNITS}
        return {f"{unit.format(channel)}.d/group.conf": f"# (written by channel_group)\n{text}={group}\n" for unit, text in texts.items()}

    def test_all_units_of_the_channel_get_the_group(self):
        for words, group in ((("east",), "_plant_east"), (("east", "layer2"), "layer2")):
            done = self.run_script(*words)
            self.assertEqual((done.returncode, done.stderr), (0, ""))
            self.assertEqual(self.drop_ins(), self.wanted("east", group))
            self.assertTrue(done.stdout.endswith("to take effect: systemctl restart plant@east.socket plant@east, and the other units of the channel that run\n"))
        self.assertEqual((self.folder / "added").read_text(), "--system -- _plant_east\n--system -- layer2\n")

    def test_a_group_that_is_there_is_taken(self):
        (self.folder / "group._plant_east").touch()
        self.assertEqual(self.run_script("east").returncode, 0)
        self.assertFalse((self.folder / "added").exists())

    def test_wrong_arguments_change_nothing(self):
        for words, reason in (((), "usage: "), (("a", "b", "c"), "usage: "), (("",), "no channel can have the name "), (("../east",), "no channel can have the name ../east"),
                              (("-h",), "no channel can have the name -h"), (("East",), "no group can have the name _plant_East: give another one"),
                              (("east 1", "east"), "no channel can have the name east 1"),
                              (("east", "root:0"), "no group can have the name root:0"), (("e" * 30,), "no group can have the name _plant_eee")):
            done = self.run_script(*words)
            self.assertEqual((done.returncode, done.stdout), (2, ""), words)
            self.assertEqual(done.stderr[:15 + len(reason)], f"channel_group: {reason}")
        self.assertFalse((self.folder / "units").exists() or (self.folder / "added").exists())

    def test_a_group_that_cannot_be_made_changes_no_unit(self):
        self.command("groupadd", "echo no >&2; exit 10")
        done = self.run_script("east")
        self.assertEqual((done.returncode, done.stderr), (1, "no\n"))
        self.assertFalse((self.folder / "units").exists())

    def test_a_drop_in_that_cannot_be_written_is_reported(self):
        (self.folder / "units").write_text("")
        done = self.run_script("east")
        self.assertEqual((done.returncode, done.stdout), (1, ""))
        self.assertIn("units", done.stderr)
