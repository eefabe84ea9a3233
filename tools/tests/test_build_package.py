"""Tests tools/run build_package: what it refuses, its versions, and what is in the package and the tarball.

A package is built from a script in place of the program, if dpkg-dev, debhelper and git are installed. No test needs root or installs
anything; tools/ci/package_trial does.
"""

import hashlib
import os
import pathlib
import re
import shutil
import subprocess
import sys
import tarfile
import tempfile
import unittest

from tools import EXAMPLES, ROOT
from tools.packaging import build_package as TOOL
from tools.packaging import packing

PACKED = """etc/plant_script usr/bin/plant_script usr/lib/systemd/system/plant@.service usr/lib/systemd/system/plant@.socket
usr/lib/systemd/system/plant-ticker@.service usr/libexec/plant_script/tick_channel
usr/lib/sysusers.d/plant-script.conf usr/lib/tmpfiles.d/plant-script.conf usr/libexec/plant_script/serve_channel
usr/share/bash-completion/completions/plant_script usr/share/doc/plant-script/FORMATS.md usr/share/doc/plant-script/GLOSSARY.md
usr/share/doc/plant-script/OPERATING.md usr/share/doc/plant-script/README.md usr/share/doc/plant-script/REPLICATION.md
usr/share/doc/plant-script/RULES.md usr/share/doc/plant-script/MONITORING.md usr/share/doc/plant-script/SNAPSHOTS.md
usr/share/doc/plant-script/CONNECT.md usr/share/doc/plant-script/RUNBOOK.md usr/share/doc/plant-script/SCOPE.md usr/share/doc/plant-script/build.txt usr/share/doc/plant-script/changelog.Debian.gz
usr/share/doc/plant-script/changelog.gz usr/share/doc/plant-script/copyright usr/share/doc/plant-script/GUIDE.md
usr/share/doc/plant-script/examples/realtime.conf usr/share/fish/vendor_completions.d/plant_script.fish
usr/share/lintian/overrides/plant-script usr/share/man/man1/plant_script-serve.1.gz usr/share/man/man1/plant_script.1.gz
usr/share/man/man5/plant.toml.5.gz usr/share/zsh/vendor-completions/_plant_script
usr/lib/systemd/system/plant-metrics@.service usr/libexec/plant_script/pass_reasons usr/libexec/plant_script/watch_channel
usr/libexec/plant_script/report_progress usr/libexec/plant_script/channel_group usr/libexec/plant_script/operator_group
usr/libexec/plant_script/renumber_channel usr/lib/systemd/system/plant-renumber@.service usr/lib/systemd/system/plant-renumber@.timer
usr/share/plant-script/alerts.yml usr/share/plant-script/dashboard.json usr/share/doc/plant-script/METRICS.md
usr/lib/systemd/system/plant-bridge@.service usr/lib/systemd/system/plant-bridge@.socket usr/libexec/plant_script/plant_bridge
usr/share/doc/plant-script/BRIDGE.md usr/share/doc/plant-script/STANDBY.md
usr/bin/describe_state usr/share/man/man1/describe_state.1.gz usr/bin/plant_view usr/share/man/man1/plant_view.1.gz usr/bin/dsx
usr/share/man/man1/dsx.1.gz usr/lib/plant_script/service/viewing/page.html""".split()
# The commands, their modules and the examples that are packed are those of the repository.
COMMANDS = ("describe_state", "watch_channel", "renumber_channel", "plant_bridge", "plant_view", "dsx")
MODULES = ["service/__init__.py"] + [
    str(path.relative_to(ROOT)) for folder in ("reference", "watching", "viewing", "messages", "bridging") for path in (ROOT / "service" / folder).glob("*.py")]
PACKED += [f"usr/lib/plant_script/service/{name}" for name in COMMANDS] + [f"usr/lib/plant_script/{name}" for name in MODULES]
PACKED += [f"usr/share/doc/plant-script/examples/{path.relative_to(EXAMPLES)}" for path in EXAMPLES.rglob("*")
           if path.is_file() and path.name != ".gitignore" and "__pycache__" not in path.parts]
EXECUTABLE = {"usr/bin/plant_script", *(f"usr/lib/plant_script/service/{name}" for name in COMMANDS)} | {
    f"usr/libexec/plant_script/{name}" for name in ("serve_channel", "tick_channel", "pass_reasons", "report_progress", "channel_group", "operator_group")} | {
    f"usr/share/doc/plant-script/examples/{path.relative_to(EXAMPLES)}" for path in EXAMPLES.rglob("*") if path.is_file() and os.access(path, os.X_OK)}
LINKS = {f"usr/bin/{name}": f"../lib/plant_script/service/{name}" for name in ("describe_state", "plant_view", "dsx")}
LINKS |= {f"usr/libexec/plant_script/{name}": f"../../lib/plant_script/service/{name}" for name in ("watch_channel", "renumber_channel", "plant_bridge")}
MISSING = sorted({package for command, package in TOOL.COMMANDS.items() if not shutil.which(command)})
VERSION = "0.1~20261124.0930.g"


def without_compression(name):
    """Returns the name of a packed file, of a page without .gz. Only long pages are compressed."""
    return name.removesuffix(".gz") if name.endswith(".md.gz") else name


class Place(unittest.TestCase):
    def setUp(self):
        folder = tempfile.TemporaryDirectory()
        self.addCleanup(folder.cleanup)
        self.top = pathlib.Path(folder.name)

    def write(self, name, text="", mode=0o644, second=0):
        path = self.top / name
        path.parent.mkdir(parents=True, exist_ok=True)
        path.write_text(text)
        path.chmod(mode)
        os.utime(path, (second, second))
        return path


class Program(Place):
    def setUp(self):
        super().setUp()
        for name in ("crates.txt", "crates/lists/src/lib.rt", "crates/lists/specs/Lists.antt", "crates/plant_program/src/main.rt"):
            self.write(name, second=100)
        self.program = self.write(TOOL.PROGRAM, mode=0o755, second=200)

    def refusal(self):
        with self.assertRaises(TOOL.Refused) as found:
            TOOL.proved_program(self.top)
        return str(found.exception)

    def test_one_that_is_newer_than_its_sources_is_packed(self):
        self.write("crates/plant_program/out/rlib/lib.rt", second=300)
        self.write("crates/lists/README.md", second=300)
        self.assertEqual(TOOL.proved_program(self.top), self.program)

    def test_one_that_is_missing_is_refused(self):
        self.program.chmod(0o644)
        self.assertIn("not built; prove and build it with ./prove", self.refusal())
        self.program.unlink()
        self.assertIn("not built; prove and build it with ./prove", self.refusal())

    def test_one_that_is_older_than_a_source_is_refused(self):
        for name in ("crates.txt", "crates/lists/src/lib.rt", "crates/lists/specs/Lists.antt"):
            self.write(name, second=300)
            self.assertEqual(self.refusal(), f"{name} is newer than the proved program; prove and build it again with ./prove")
            self.write(name, second=100)

    def test_the_log_of_prove_belongs_to_its_program(self):
        self.assertIsNone(TOOL.proof_log(self.top, None, self.program))
        log = self.write(TOOL.PROVE_LOG, second=199)
        self.assertIsNone(TOOL.proof_log(self.top, None, self.program))
        os.utime(log, (201, 201))
        self.assertEqual(TOOL.proof_log(self.top, None, self.program), log)
        self.assertEqual(TOOL.proof_log(self.top, "ci.log", self.program), pathlib.Path("ci.log"))


@unittest.skipUnless(shutil.which("git"), "git is not installed: no version was tested")
class Version(Place):
    def setUp(self):
        super().setUp()
        self.write("CHANGELOG.md", "# Changelog\n\n## 0.1 (2026-11-22 to 2026-11-26)\n")
        commit = {"GIT_CONFIG_GLOBAL": "/dev/null", "GIT_COMMITTER_DATE": "2026-11-24T10:30:00+0100", "GIT_AUTHOR_DATE": "2026-11-24T10:30:00+0100"}
        for words in (["init", "--quiet"], ["add", "."], ["-c", "user.name=a", "-c", "user.email=a@b", "commit", "--quiet", "--message", "One"]):
            subprocess.run(["git", "-C", self.top, *words], env={**os.environ, **commit}, check=True)
        self.zone = os.environ.pop("TZ", None)

    def version(self, is_proved=True, revision=1):
        return TOOL.version_of(self.top, TOOL.Commit(self.top), is_proved, revision)

    def test_names_commit_time_and_what_is_not_as_it_should_be(self):
        name = packing.git(self.top, "rev-parse", "HEAD")[:8]
        self.assertEqual(self.version(), f"{VERSION}{name}-1")
        self.assertEqual(self.version(is_proved=False, revision=2), f"{VERSION}{name}+unproved-2")
        self.write("other")
        self.assertEqual(self.version(is_proved=False), f"{VERSION}{name}+modified+unproved-1")

    def test_no_commit_and_no_version_are_refused(self):
        self.write("CHANGELOG.md", "# Changelog\n")
        with self.assertRaises(TOOL.Refused):
            self.version()
        shutil.rmtree(self.top / ".git")
        with self.assertRaises(TOOL.Refused):
            TOOL.Commit(self.top)


@unittest.skipIf(MISSING, f"{', '.join(MISSING)} not installed: no package was built")
class Package(unittest.TestCase):
    @classmethod
    def setUpClass(cls):
        place = tempfile.TemporaryDirectory()
        cls.addClassCleanup(place.cleanup)
        cls.top = pathlib.Path(place.name)
        cls.program, cls.log = cls.top / "program", cls.top / "proof.log"
        cls.program.write_text("#!/bin/sh\necho program\n")
        cls.program.chmod(0o755)
        cls.log.write_text("proved\n")
        cls.files = {path.name: path for path in TOOL.build(ROOT, cls.top / "first", cls.program, True, 1, cls.log)}
        cls.sums, cls.build_text, cls.tarball, cls.package, _ = (cls.files[name] for name in sorted(cls.files))

    def test_has_these_files(self):
        self.assertRegex(self.package.name, r"^plant-script_0\.1~\d{8}\.\d{4}\.g[0-9a-f]{8}(\+modified)?-1_amd64\.deb$")
        (self.top / "files.tar").write_bytes(subprocess.run(["dpkg-deb", "--fsys-tarfile", self.package], capture_output=True, check=True).stdout)
        with tarfile.open(self.top / "files.tar") as tar:
            members = {without_compression(entry.name.removeprefix("./")): entry for entry in tar if not entry.isdir() or entry.name == "./etc/plant_script"}
            self.assertEqual(sorted(members), sorted(PACKED))
            self.assertEqual({name for name, entry in members.items() if entry.mode & 0o111 and entry.isfile()}, EXECUTABLE)
            self.assertEqual({name: entry.linkname for name, entry in members.items() if entry.issym()}, LINKS)
            self.assertEqual(tar.extractfile(members["usr/bin/plant_script"]).read(), self.program.read_bytes())

    def test_the_tarball_has_the_same_files(self):
        self.assertRegex(self.tarball.name, r"^plant-script-0\.1~.*-1-amd64\.tar\.gz$")
        prefix = self.tarball.name.removesuffix("-amd64.tar.gz") + "/"
        with tarfile.open(self.tarball) as tar:
            names = [without_compression(entry.name.removeprefix(prefix)) for entry in tar if not entry.isdir()]
            self.assertEqual(sorted(names), sorted(name for name in PACKED if name != "etc/plant_script"))
            self.assertEqual({(entry.uid, entry.gid) for entry in tar}, {(0, 0)})

    def test_build_txt_and_sums(self):
        rows = dict(line.split(": ", 1) for line in self.build_text.read_text().splitlines())
        self.assertEqual(list(rows), ["version", "commit", "program", "proof log", "toolchain kit"])
        self.assertEqual(rows["program"], f"proved, sha256 {hashlib.sha256(self.program.read_bytes()).hexdigest()}")
        self.assertEqual((rows["proof log"], self.files["proof.log"].read_text()), ("proof.log", "proved\n"))
        subprocess.run(["sha256sum", "--check", "--strict", "--quiet", "SHA256SUMS"], cwd=self.top / "first", check=True)
        self.assertEqual(len(self.sums.read_text().splitlines()), 4)

    def test_is_the_same_each_time(self):
        again = TOOL.build(ROOT, self.top / "second", self.program, True, 1, self.log)
        self.assertEqual({name: path.read_bytes() for name, path in self.files.items()}, {path.name: path.read_bytes() for path in again})

    def test_its_modules_import_nothing_that_is_not_packed(self):
        subprocess.run(["dpkg-deb", "--extract", self.package, self.top / "alone"], check=True)
        top = self.top / "alone/usr/lib/plant_script"
        names = [".".join(path.relative_to(top).with_suffix("").parts) for path in sorted(top.rglob("*.py")) if path.stem not in ("__init__", "__main__")]
        done = subprocess.run([sys.executable, "-P", "-B", "-c", f"import {', '.join(names)}"], env={"PYTHONPATH": str(top)}, cwd="/",
                              capture_output=True, text=True, check=False)
        self.assertEqual((done.returncode, done.stderr, len(names) > 50), (0, "", True))

    def test_its_commands_run_from_where_they_are_installed(self):
        subprocess.run(["dpkg-deb", "--extract", self.package, self.top / "installed"], check=True)
        for name, text in (("usr/bin/describe_state", "--json"), ("usr/libexec/plant_script/watch_channel", "CHANNEL PLANT PIPE"),
                           ("usr/libexec/plant_script/plant_bridge", "PLANT PIPE CONTROL SOCKETS"),
                           ("usr/bin/plant_view", "--highlight NAME"), ("usr/bin/dsx", "KIND tid=N WORD..")):
            done = subprocess.run([self.top / "installed" / name, "--help"], cwd="/", capture_output=True, text=True, check=False)
            self.assertEqual((done.returncode, done.stderr), (0, ""))
            self.assertIn(text, done.stdout)
        self.assertEqual(list((self.top / "installed").rglob("__pycache__")), [])

    def test_its_commands_do_what_those_of_the_repository_do(self):
        """plant_view draws an example of the package, and dsx writes and reads a message."""
        place = self.top / "in_use"
        subprocess.run(["dpkg-deb", "--extract", self.package, place], check=True)
        example = place / "usr/share/doc/plant-script/examples/isolation"
        output = (example / "run_flood.out").read_text()
        self.assertEqual(self.printed(place / "usr/bin/plant_view", "--plant", example / "run_flood.txt", given=output),
                         self.printed(ROOT / "tools/run", "plant_view", "--plant", EXAMPLES / "isolation/run_flood.txt", given=output))
        message = "0F0001180A010200010601060F0102"
        self.assertEqual(self.printed(place / "usr/bin/dsx", *"dsa tid=1 ref=1 set=6 type=be".split()), message + "\n")
        self.assertEqual(self.printed(place / "usr/bin/dsx", "words", message), "dsa tid=1 ref=1 set=6 type=be\n")

    def printed(self, *words, given=""):
        return subprocess.run(words, input=given, cwd="/", capture_output=True, text=True, check=True).stdout

    def test_has_no_path_of_the_machine(self):
        subprocess.run(["dpkg-deb", "--raw-extract", self.package, self.top / "tree"], check=True)
        for path in (self.top / "tree").rglob("*"):
            if path.is_file():
                self.assertNotIn(str(ROOT).encode(), path.read_bytes(), path)


class Text(unittest.TestCase):
    def test_an_unproved_program_says_so(self):
        class Some:
            name, is_modified = "0123", True

        text = TOOL.build_text("1", Some, False, pathlib.Path("/dev/null"), None)
        self.assertRegex(text, r"(?m)^program: not proved, sha256 ")
        self.assertRegex(text, r"(?m)^proof log: none: this program is not proved$")
        self.assertRegex(text, r"(?m)^commit: 0123 with changes that are not committed$")

    def test_license_names_each_library(self):
        """Of the libraries that README names, only atomic_table and http_server are not linked with the program."""
        text = (ROOT / "README.md").read_text().split("<!-- generated: libraries -->")[1].split("<!-- end -->")[0]
        copyright_text = " ".join((ROOT / "packaging/debian/copyright").read_text().split())
        for library in set(re.findall(r"`(\w+)`", text)) - {"atomic_table", "http_server"}:
            self.assertRegex(copyright_text, rf"\b{library}\b")
