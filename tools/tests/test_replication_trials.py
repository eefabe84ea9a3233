"""Runs the short trials of replicated channels, with RabbitMQ, where it is installed. tools/run ci/replication_trials does the long ones."""

import os
import shutil
import subprocess
import sys
import unittest

from tools import ROOT
from tools.compare.program import PROGRAM

SECONDS = 1_800
COMMAND = (ROOT / "tools/run", "ci/replication_trials")
REFERENCE = f"env PYTHONPATH={ROOT} {sys.executable} -P -m tools.replication.reference_program"
ENGINE = "/usr/lib/rabbitmq/bin/rabbitmq-server"


def what_is_missing():
    """Returns what these trials need and this machine does not have, or None."""
    if os.geteuid():
        return "root"
    if not os.access(ENGINE, os.X_OK):
        return "Debian's package rabbitmq-server"
    if not all(map(shutil.which, ("ip", "unshare", "nsenter"))):
        return "the commands ip, unshare and nsenter"
    if subprocess.run(["/usr/bin/python3", "-c", "import pika"], capture_output=True, check=False).returncode:
        return "Debian's package python3-pika"
    if subprocess.run(["unshare", "--net", "ip", "link", "add", "hub", "type", "bridge"], capture_output=True, check=False).returncode:
        return "network namespaces with bridges"
    return None


@unittest.skipIf(what_is_missing(), f"needs {what_is_missing()}")
class Trials(unittest.TestCase):
    def test_killed_replicas_and_nodes(self):
        program = PROGRAM if os.access(PROGRAM, os.X_OK) else REFERENCE
        done = subprocess.run([*COMMAND, "--short", "--kinds", "replica,both,node", "--seconds", "600", "--program", program], capture_output=True, text=True,
                              timeout=SECONDS, check=False)
        self.assertEqual(done.returncode, 0, done.stdout + done.stderr)
        rows = [[cell.strip() for cell in line.strip("|\n").split("|")] for line in done.stdout.splitlines()][2:]
        self.assertEqual([(row[0], row[6:9]) for row in rows], [(kind, ["0", "0", "0"]) for kind in ("replica", "both", "node")], done.stdout)


if __name__ == "__main__":
    unittest.main()
