"""Runs a script that makes groups, with commands of its own in place of groupadd, getent and systemctl."""

import os
import pathlib
import subprocess
import tempfile

SECONDS = 30


class GroupScript:
    """What the tests of `script` have in common: a folder with the commands, and the drop-ins that the script wrote."""

    script = None

    def setUp(self):
        folder = tempfile.TemporaryDirectory()
        self.addCleanup(folder.cleanup)
        self.folder = pathlib.Path(folder.name)
        (self.folder / "bin").mkdir()
        self.command("getent", '[ -e "$PLACE/group.$2" ]')
        self.command("groupadd", 'echo "$*" >>"$PLACE/added"; touch "$PLACE/group.$3"')
        self.command("systemctl", 'echo "$*" >>"$PLACE/systemctl"')

    def command(self, name, text):
        path = self.folder / "bin" / name
        path.write_text(f"#!/bin/sh\n{text}\n")
        path.chmod(0o755)

    def run_script(self, *words):
        environment = {"PATH": f"{self.folder}/bin:{os.environ['PATH']}", "PLACE": str(self.folder), "UNITS": str(self.folder / "units")}
        return subprocess.run([self.script, *words], env=environment, capture_output=True, text=True, timeout=SECONDS, check=False)

    def drop_ins(self):
        return {str(path.relative_to(self.folder / "units")): path.read_text() for path in (self.folder / "units").rglob("*") if path.is_file()}
