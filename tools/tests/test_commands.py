"""Tests tools/run and the table of its commands: they work from another folder and through a symbolic link, and each says what it does. No file
changes Python's path, and what people run needs nothing of tools/.
"""

import ast
import os
import pathlib
import re
import subprocess
import sys
import tempfile
import unittest

from tools import EXAMPLES, ROOT
from tools.ci.commands import commands

FOLDERS = [ROOT / name for name in ("service", "tools")]
FILES = [path for folder in FOLDERS for path in folder.rglob("*") if path.is_file() and "__pycache__" not in path.parts and path.name != ".gitignore"]
RUN = ROOT / "tools/run"
# What systemd starts has the suffix of a unit, or none.
OF_UNITS = [path for path in FILES if path.parent == ROOT / "service/systemd"]
# Paths of commands that stay next to tools/run.
ENTRIES = [path for path in FILES if not path.suffix and path != RUN and path not in OF_UNITS]
STARTED_BY_OTHERS = {"tools/ci/check_examples.py", "tools/replication/reference_program.py"}
# What modules of service/ may import. The package has no module that imports bindings or pika.
IMPORTED = {"bindings", "pika", "prometheus_client", "service"} | sys.stdlib_module_names


def folded(text):
    """Returns a text in one line of small letters, as parsers of arguments wrap it anew."""
    return " ".join(text.split()).lower()


class Commands(unittest.TestCase):
    def setUp(self):
        folder = tempfile.TemporaryDirectory()
        self.addCleanup(folder.cleanup)
        # Other packages of the same names, as another clone has them, in the current folder.
        self.folder = pathlib.Path(folder.name)
        for name in ("service", "tools"):
            (self.folder / name).mkdir()
            (self.folder / name / "__init__.py").write_text("raise SystemExit('the package of the current folder was imported')\n")

    def run_here(self, *words, given=None):
        done = subprocess.run(words, cwd=self.folder, input=given, capture_output=True, text=True, check=False)
        return done.returncode, done.stdout, done.stderr

    def run_through_link(self, path, *words):
        link = self.folder / "a link"
        link.symlink_to(path)
        try:
            return self.run_here(link, *words)
        finally:
            link.unlink()

    def test_each_command_says_what_it_does(self):
        self.assertGreater(len(commands()), 60)
        for command in commands():
            with self.subTest(command.name):
                status, output, errors = self.run_through_link(RUN, command.name, "--help")
                self.assertEqual((status, errors), (0, ""))
                self.assertIn(folded(command.purpose()), folded(output))
                self.assertLess(len(command.purpose()), 121)

    def test_a_path_is_one_of_a_command(self):
        names = [str(pathlib.Path(*path.relative_to(ROOT).parts[1:])) for path in ENTRIES]
        modules = {command.name: command.module for command in commands()}
        self.assertEqual(set(names) - set(modules), set())
        self.assertLess(len(names), 15)
        in_service = {name for name, path in zip(names, ENTRIES) if path.parent == ROOT / "service"}
        self.assertEqual(in_service, {name for name, module in modules.items() if (module or "").startswith("service.")})
        for name, path in zip(names, ENTRIES):
            with self.subTest(name):
                self.assertEqual(self.run_through_link(path, "--help"), self.run_here(RUN, name, "--help"))

    def test_arguments_input_and_status_are_those_of_the_command(self):
        self.assertEqual(self.run_here(RUN, "dsx", "lines", given="T A\nT\n"), (0, "T A\nT\n", ""))
        status, output, errors = self.run_here(RUN, "plant_view", "--two  blanks")
        self.assertEqual((status, output), (2, ""))
        self.assertIn("unrecognized arguments: --two  blanks\n", errors)

    def test_other_names_are_refused(self):
        for name in ("dsy", "service/dsx", "dsx.py", "*", "."):
            self.assertEqual(self.run_here(RUN, name), (2, "", f"run: no command {name}; tools/run lists the commands\n"))

    def test_without_a_name_it_lists_the_commands(self):
        listed = self.run_here(RUN)
        self.assertEqual((listed[0], listed[2]), (0, ""))
        self.assertEqual(self.run_here(RUN, "--help"), listed)
        for command in commands():
            self.assertRegex(listed[1], f"(?m)^{re.escape(command.name)} +{re.escape(command.purpose())}$")

    def test_the_list_of_the_page_is_compared(self):
        self.assertEqual(self.run_here(RUN, "ci/commands", "--check"), (0, "", ""))

    def test_the_second_implementation(self):
        (self.folder / "reference").symlink_to(ROOT / "service/reference")
        plant = (EXAMPLES / "plant_p2.toml").read_text()
        for folder in (ROOT / "service/reference", "reference"):
            self.assertEqual(self.run_here(sys.executable, folder, "check", given=plant), (0, "ok\n", ""))

    def test_shell_scripts_can_be_read(self):
        for path in FILES:
            if path.suffix == ".sh":
                self.assertEqual(self.run_here("bash", "-n", path), (0, "", ""), path)


class Table(unittest.TestCase):
    def test_each_module_that_can_be_started_is_a_command_and_each_script(self):
        paths = [command.path for command in commands()]
        self.assertEqual(len(paths), len(set(paths)))
        programs = {path for path in FILES if path.suffix == ".sh" or path.suffix == ".py" and '\nif __name__ == "__main__":\n' in path.read_text()}
        others = {path for path in programs ^ set(paths) if "tests" not in path.parts}
        self.assertEqual({str(path.relative_to(ROOT)) for path in others}, STARTED_BY_OTHERS)

    def test_names_are_sorted_by_folder(self):
        names = [command.name for command in commands()]
        self.assertEqual(names, sorted(names, key=lambda name: ("/" in name, name)))


def imported_by(path):
    """Returns the names of the packages that a module imports."""
    found = list(ast.walk(ast.parse(path.read_text())))
    names = [alias.name for node in found if isinstance(node, ast.Import) for alias in node.names]
    return {name.split(".")[0] for name in names + [node.module for node in found if isinstance(node, ast.ImportFrom) and not node.level]}


class Files(unittest.TestCase):
    def test_what_people_run_imports_nothing_of_the_tools(self):
        for path in FILES:
            if path.suffix == ".py" and path.is_relative_to(ROOT / "service"):
                self.assertEqual(imported_by(path) - IMPORTED, set(), path)

    def test_none_changes_the_path(self):
        for path in FILES:
            if path.suffix in ("", ".py") and path != pathlib.Path(__file__).resolve():
                self.assertNotIn("sys.path", path.read_text(), path)

    def test_commands_are_executable_and_modules_are_not(self):
        for path in FILES:
            self.assertEqual(os.access(path, os.X_OK) if path.suffix in ("", ".sh") else not path.stat().st_mode & 0o111, True, path)
