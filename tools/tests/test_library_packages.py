"""Tests tools/run build_package --library on a library whose calls do nothing: what it refuses, and what is in the packages.

tools/run ci/library_trial installs packages in a clean system.
"""

import os
import pathlib
import re
import shutil
import subprocess
import tempfile
import unittest

from tools import ROOT
from tools.packaging import build_library, packing
from tools.packaging import library_packages as TOOL
from tools.proving.prover import crates_of
from tools.tests.stub_library import build_archive

FOLDER = ROOT / "packaging/library"
LIB = "usr/lib/x86_64-linux-gnu"
PACKED = {
    "libmelfjits0": {f"{LIB}/libmelfjits.so.0", "usr/share/doc/libmelfjits0/build.txt"},
    "libmelfjits-dev": {"usr/include/melfjits.h", "usr/include/melfjits.hpp", f"{LIB}/libmelfjits.a", f"{LIB}/libmelfjits.so",
                        f"{LIB}/pkgconfig/melfjits.pc", "usr/share/doc/libmelfjits-dev/README.md",
                        "usr/share/doc/libmelfjits-dev/examples/first_reply.c", "usr/share/doc/libmelfjits-dev/examples/plant_p2.toml"}
    | {f"usr/share/doc/libmelfjits-dev/examples/cmts_loop/{path.name}" for path in (ROOT / "examples/cmts_loop").iterdir()},
    "python3-melfjits": {f"usr/lib/python3/dist-packages/melfjits/{path.name}" for path in (ROOT / "bindings/python/melfjits").glob("*.*")}
    | {f"usr/share/doc/python3-melfjits/examples/simulation/{path.name}" for path in (ROOT / "examples/simulation").glob("*.*")}}
MISSING = sorted({package for command, package in {**TOOL.COMMANDS, "rt": "the kit"}.items() if not shutil.which(command)})


class Texts(unittest.TestCase):
    def test_the_symbols_are_the_calls_of_the_header(self):
        text = (FOLDER / "libmelfjits0.symbols").read_text()
        self.assertEqual(re.findall(r"^ (melfjits_\w+)@MELFJITS_0 0\.1~$", text, re.MULTILINE), build_library.header_calls())
        self.assertTrue(text.startswith(f"{build_library.soname()} libmelfjits0 "))

    def test_the_package_has_the_number_of_the_abi(self):
        name = build_library.soname().replace(".so.", "")
        self.assertIn(f"\nPackage: {name}\n", (FOLDER / "control").read_text())

    def test_license_names_each_library(self):
        crates, found, waiting = crates_of(ROOT), set(), ["channel_c"]
        while waiting:
            new = set(crates.get(waiting.pop(), ())) - found
            found |= new
            waiting += new
        text = " ".join((FOLDER / "copyright").read_text().split())
        libraries = found - set(crates) - {"core", "std_alloc", "std_heap"}
        self.assertIn("toml", libraries)
        self.assertEqual([name for name in libraries if not re.search(rf"\b{name}\b", text)], [])


class Archive(unittest.TestCase):
    def setUp(self):
        folder = tempfile.TemporaryDirectory()
        self.addCleanup(folder.cleanup)
        self.top = pathlib.Path(folder.name)
        for name, second in (("crates.txt", 100), ("crates/lists/src/lib.rt", 100), (build_library.ARCHIVE.relative_to(ROOT), 200)):
            path = self.top / name
            path.parent.mkdir(parents=True, exist_ok=True)
            path.touch()
            os.utime(path, (second, second))

    def test_one_that_is_newer_than_its_sources_is_packed(self):
        self.assertEqual(TOOL.proved_archive(self.top), self.top / build_library.ARCHIVE.relative_to(ROOT))

    def test_one_that_is_missing_or_older_is_refused(self):
        os.utime(self.top / "crates/lists/src/lib.rt", (300, 300))
        with self.assertRaisesRegex(packing.Refused, "^crates/lists/src/lib.rt is newer than the library"):
            TOOL.proved_archive(self.top)
        (self.top / build_library.ARCHIVE.relative_to(ROOT)).unlink()
        with self.assertRaisesRegex(packing.Refused, "not built; prove and build it with tools/ci/build_channel_c"):
            TOOL.proved_archive(self.top)


@unittest.skipIf(MISSING, f"{', '.join(MISSING)} not installed: no package was built")
class Packages(unittest.TestCase):
    @classmethod
    def setUpClass(cls):
        place = tempfile.TemporaryDirectory()
        cls.addClassCleanup(place.cleanup)
        cls.top = pathlib.Path(place.name)
        cls.archive = build_archive(cls.top)
        cls.files = TOOL.build(ROOT, cls.top / "first", cls.archive, True, 1)
        cls.debs = {path.name.split("_")[0]: path for path in cls.files if path.suffix == ".deb"}
        for deb in cls.debs.values():
            subprocess.run(["dpkg-deb", "--extract", deb, cls.top / "installed"], check=True)

    def test_have_these_files(self):
        self.assertEqual(sorted(self.debs), sorted(PACKED))
        for name, expected in PACKED.items():
            listed = subprocess.run(["dpkg-deb", "--contents", self.debs[name]], capture_output=True, text=True, check=True).stdout
            found = {line.split(None, 5)[5].split(" -> ")[0].removeprefix("./") for line in listed.splitlines() if line[0] != "d"}
            common = {f"usr/share/doc/{name}/{file}" for file in ("changelog.gz", "changelog.Debian.gz", "copyright")}
            found = {file.removesuffix(".gz") if file.endswith(".md.gz") else file for file in found}
            self.assertEqual(found, expected | common | {f"usr/share/lintian/overrides/{name}"})

    def test_depend_on_the_library_of_the_same_build(self):
        version = re.search(r"^version: (.*)$", (self.top / "first/build.txt").read_text(), re.MULTILINE)[1]
        for name, relation in (("libmelfjits-dev", f"libmelfjits0 (= {version})"), ("python3-melfjits", f"libmelfjits0 (>= {version})")):
            depends = subprocess.run(["dpkg-deb", "--field", self.debs[name], "Depends"], capture_output=True, text=True, check=True).stdout
            self.assertIn(relation, depends)

    def test_build_txt_and_sums(self):
        rows = dict(line.split(": ", 1) for line in (self.top / "first/build.txt").read_text().splitlines())
        self.assertEqual(rows["library"], f"proved, sha256 {packing.sum_of(self.archive)}")
        subprocess.run(["sha256sum", "--check", "--strict", "--quiet", "SHA256SUMS"], cwd=self.top / "first", check=True)

    def test_are_the_same_each_time(self):
        again = TOOL.build(ROOT, self.top / "second", self.archive, True, 1)
        self.assertEqual([path.read_bytes() for path in self.files], [path.read_bytes() for path in again])

    def test_a_call_that_the_symbols_lack_ends_the_build(self):
        folder = self.top / "changed"
        shutil.copytree(ROOT, folder, ignore=shutil.ignore_patterns("out", "crates", "docs", "__pycache__"))
        symbols = folder / "packaging/library/libmelfjits0.symbols"
        symbols.write_text(symbols.read_text().replace(" melfjits_tick@MELFJITS_0 0.1~\n", ""))
        with self.assertRaisesRegex(packing.Refused, r"\+ melfjits_tick@MELFJITS_0"):
            TOOL.build(folder, self.top / "third", self.archive, True, 1)

    def test_python_finds_the_packed_library(self):
        script = "from melfjits import load_library\nprint(load_library()._name)\n"
        installed = self.top / "installed"
        environment = {"PYTHONPATH": str(installed / "usr/lib/python3/dist-packages"), "LD_LIBRARY_PATH": str(installed / LIB)}
        done = subprocess.run(["/usr/bin/python3", "-B", "-c", script], env=environment, capture_output=True, text=True, check=False)
        self.assertEqual((done.stdout, done.stderr), ("libmelfjits.so.0\n", ""))

    def test_have_no_path_of_the_machine(self):
        for path in (self.top / "installed").rglob("*"):
            if path.is_file():
                self.assertNotIn(str(ROOT).encode(), path.read_bytes(), path)


if __name__ == "__main__":
    unittest.main()
