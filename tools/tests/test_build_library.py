"""Tests tools/run build_library on a library whose calls do nothing: names, what is exported, and programs that are linked both ways."""

import os
import pathlib
import re
import shutil
import subprocess
import tempfile
import unittest
from unittest import mock

from bindings.python.melfjits import c_types
from tools import ROOT
from tools.packaging import build_library as TOOL
from tools.tests.stub_library import CLOSED, build_archive

PROGRAM = """#include <melfjits.h>
int main(void) { melfjits_channel channel = MELFJITS_CLOSED_CHANNEL; return (int)melfjits_close(&channel); }
"""


@unittest.skipUnless(shutil.which("gcc"), "gcc is not installed: no library was linked")
class Library(unittest.TestCase):
    @classmethod
    def setUpClass(cls):
        folder = tempfile.TemporaryDirectory()
        cls.addClassCleanup(folder.cleanup)
        cls.top = pathlib.Path(folder.name)
        cls.archive = build_archive(cls.top)
        cls.files = TOOL.install([cls.archive], cls.top / "made", cls.top / "made")
        cls.lib = cls.top / "made/lib"
        (cls.top / "program.c").write_text(PROGRAM)

    def test_has_these_files(self):
        found = sorted(str(path.relative_to(self.top / "made")) for path in (self.top / "made").rglob("*") if not path.is_dir())
        self.assertEqual(found, ["include/melfjits.h", "include/melfjits.hpp", "lib/libmelfjits.a", "lib/libmelfjits.so", "lib/libmelfjits.so.0",
                                 "lib/pkgconfig/melfjits.pc"])
        self.assertEqual(sorted(self.files), sorted(self.top / "made" / name for name in found))
        self.assertEqual(os.readlink(self.lib / "libmelfjits.so"), "libmelfjits.so.0")

    def test_the_shared_library_is_named_by_its_abi(self):
        printed = subprocess.run(["readelf", "--dynamic", self.lib / "libmelfjits.so.0"], capture_output=True, text=True, check=True).stdout
        self.assertIn("soname: [libmelfjits.so.0]", printed)
        self.assertEqual((TOOL.soname(), c_types.SHARED_LIBRARY), ("libmelfjits.so.0",) * 2)

    def test_the_calls_alone_are_exported(self):
        self.assertIn("code_of_closed", TOOL.exports(self.archive))
        names = re.findall(r"^uint32_t (\w+)\(", (ROOT / "bindings/c/melfjits.h").read_text(), re.MULTILINE)
        self.assertGreater(len(names), 10)
        self.assertEqual(TOOL.exports(self.lib / "libmelfjits.so.0", "--dynamic"), set(names))
        self.assertEqual(TOOL.exports(self.lib / "libmelfjits.a"), set(names))

    def test_other_calls_than_those_of_the_header_are_refused(self):
        for more, names, text in (("void melfjits_more(void) {}\n", TOOL.header_calls(), r"exports \['melfjits_more'\] besides"),
                                  ("", [*TOOL.header_calls(), "melfjits_missing"], r"lacks \['melfjits_missing'\]")):
            with tempfile.TemporaryDirectory() as folder, mock.patch.object(TOOL, "header_calls", lambda names=names: names):
                place = pathlib.Path(folder)
                with self.assertRaisesRegex(TOOL.Refused, text):
                    TOOL.install([build_archive(place, more)], place / "made", place / "made")

    def test_a_name_that_nobody_defines_is_refused(self):
        with tempfile.TemporaryDirectory() as folder:
            archive = build_archive(pathlib.Path(folder), "int nowhere(void);\nint call(void) { return nowhere(); }\n")
            with self.assertRaisesRegex(TOOL.Refused, "undefined reference to .nowhere"):
                TOOL.link_shared([archive], folder)

    @unittest.skipUnless(shutil.which("pkg-config"), "pkg-config is not installed: melfjits.pc was not read")
    def test_a_program_is_linked_with_the_shared_library(self):
        environment = {**os.environ, "PKG_CONFIG_PATH": str(self.lib / "pkgconfig")}
        words = subprocess.run(["pkg-config", "--cflags", "--libs", "melfjits"], env=environment, capture_output=True, text=True, check=True).stdout.split()
        self.assertEqual(words, [f"-I{self.top}/made/include", f"-L{self.top}/made/lib", "-lmelfjits"])
        subprocess.run(["gcc", "-o", self.top / "shared", self.top / "program.c", *words], check=True)
        done = subprocess.run([self.top / "shared"], env={"LD_LIBRARY_PATH": str(self.lib)}, check=False)
        self.assertEqual(done.returncode, CLOSED)

    def test_a_program_is_linked_with_the_static_library(self):
        words = ["gcc", f"-I{self.top}/made/include", "-o", self.top / "static", self.top / "program.c", self.lib / "libmelfjits.a"]
        subprocess.run(words, check=True)
        self.assertEqual(subprocess.run([self.top / "static"], check=False).returncode, CLOSED)

    def test_python_loads_the_shared_library_by_its_name(self):
        script = "from melfjits import Channel, ClosedError\ntry:\n    Channel('')\nexcept ClosedError:\n    print('closed')\n"
        environment = {**os.environ, "PYTHONPATH": str(ROOT / "bindings/python"), "LD_LIBRARY_PATH": str(self.lib)}
        environment.pop("MELFJITS_LIBRARY", None)
        done = subprocess.run(["python3", "-B", "-c", script], env=environment, capture_output=True, text=True, check=False)
        self.assertEqual((done.stdout, done.stderr), ("closed\n", ""))


if __name__ == "__main__":
    unittest.main()
