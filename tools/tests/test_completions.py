"""Tests tools/run completions with a program of its own, whose help is typed here, and the files of packaging/completions.

The files are compared with the help of the built program by tools/ci/run_checks.sh. Here their commands are compared with the source of the
help. What zsh and fish read is tested if they are installed.
"""

import os
import pathlib
import re
import shutil
import subprocess
import tempfile
import unittest

from tools import ROOT
from tools.manual.help_texts import read_help
from tools.packaging import completions as TOOL

TOP = """Do what is typed

Usage: plant_script <COMMAND>

Commands:
  run      Run it: the operator's part
  history  Print [all] of it
  help     Print this message or the help of the given subcommand(s)

Options:
  -h, --help  Print help

Text that is no list:

    plant_script run < script.txt
"""
RUN = """Run it

Usage: plant_script run [OPTIONS]

Options:
      --input <FILE>  Read FILE
      --json          Write JSON: a line each
      --level <N>     Set the level
  -h, --help          Print help

Options that are no list.
"""
HISTORY = """Print it

Usage: plant_script history <OPERATOR>

Arguments:
  <OPERATOR>  Name of the operator

Options:
      --input <FILE>    Read FILE
      --state <FOLDER>  Keep it in FOLDER
  -h, --help            Print help

    plant_script history A < script.txt
"""
PROGRAM = f"""#!/bin/sh
case "$*" in
--help) cat <<'END'
{TOP}END
;;
"run --help") cat <<'END'
{RUN}END
;;
"history --help") cat <<'END'
{HISTORY}END
;;
*) exit 2 ;;
esac
"""


def is_here(shell):
    return unittest.skipUnless(shutil.which(shell), f"{shell} is not installed: its completion was not tested")


class Completions(unittest.TestCase):
    @classmethod
    def setUpClass(cls):
        cls.place = tempfile.TemporaryDirectory()
        cls.addClassCleanup(cls.place.cleanup)
        cls.folder = pathlib.Path(cls.place.name)
        cls.program = cls.folder / "plant_script"
        cls.program.write_text(PROGRAM)
        cls.program.chmod(0o755)
        cls.read = TOOL.read_program(cls.program)
        TOOL.write(cls.folder, cls.read)

    def path(self, name):
        return self.folder / TOOL.FOLDER / name

    def shell(self, *words):
        environment = {**os.environ, "PATH": f"{self.folder}:{os.environ['PATH']}", "HOME": str(self.folder), "XDG_CONFIG_HOME": str(self.folder)}
        return subprocess.run(words, cwd=self.folder, env=environment, capture_output=True, text=True, check=True).stdout

    def bash(self, *words):
        """Returns what bash offers for the last of these words."""
        line = " ".join(f"'{word}'" for word in ("plant_script", *words))
        script = f"compopt() {{ :; }}; . '{self.path('plant_script.bash')}'; COMP_WORDS=({line}); COMP_CWORD={len(words)}; _plant_script; printf '%s\\n' \"${{COMPREPLY[@]}}\""
        return self.shell("bash", "-c", script).split()

    def test_what_the_help_lists_is_read(self):
        top, commands = self.read
        self.assertEqual([command.name for command in commands], ["run", "history", "help"])
        self.assertEqual(top.options, [TOOL.Option(("-h", "--help"), None, "Print help")])
        self.assertEqual(commands[0].options, [TOOL.Option(("--input",), "FILE", "Read FILE"), TOOL.Option(("--json",), None, "Write JSON: a line each"),
                                               TOOL.Option(("--level",), "N", "Set the level"), TOOL.Option(("-h", "--help"), None, "Print help")])
        self.assertEqual(commands[1].options, [TOOL.Option(("--input",), "FILE", "Read FILE"), TOOL.Option(("--state",), "FOLDER", "Keep it in FOLDER"),
                                               TOOL.Option(("-h", "--help"), None, "Print help")])
        self.assertEqual([command.operands for command in commands], [[], ["OPERATOR"], []])

    def test_bash(self):
        self.assertEqual(self.bash(""), ["run", "history", "help", "-h", "--help"])
        self.assertEqual(self.bash("h"), ["history", "help"])
        self.assertEqual(self.bash("run", "--"), ["--input", "--json", "--level", "--help"])
        self.assertEqual(self.bash("run", "--input", "plant"), ["plant_script"])
        self.assertEqual(self.bash("history", "--"), ["--input", "--state", "--help"])
        self.assertEqual(self.bash("help", "r"), ["run"])

    @is_here("fish")
    def test_fish(self):
        def offered(line):
            return self.shell("fish", "--no-config", "-c", f"source {self.path('plant_script.fish')}; complete -C '{line}'").splitlines()

        self.assertEqual(sorted(offered("plant_script h")), ["help\tPrint this message or the help of the given subcommand(s)", "history\tPrint [all] of it"])
        self.assertEqual(sorted(offered("plant_script run --")), ["--help\tPrint help", "--input\tRead FILE", "--json\tWrite JSON: a line each", "--level\tSet the level"])
        self.assertEqual(sorted(offered("plant_script help r")), ["run"])

    @is_here("zsh")
    def test_zsh(self):
        self.assertEqual(self.shell("zsh", "-n", self.path("_plant_script")), "")
        text = self.path("_plant_script").read_text()
        for part in ("#compdef plant_script\n", "'run:Run it\\: the operator'\"'\"'s part'", "'--input[Read FILE]:FILE:_files'", "'--json[Write JSON\\: a line each]'",
                     "'--level[Set the level]:N:'", "'(-h --help)'{-h,--help}'[Print help]'", "        history) _arguments '--input[Read FILE]:FILE:_files' '--state[Keep it in FOLDER]:FOLDER:_files -/' '(-h --help)'{-h,--help}'[Print help]' :OPERATOR: ;;",
                     "        help) _describe command commands ;;\n"):
            self.assertIn(part, text)

    def test_check_names_what_differs(self):
        self.assertEqual(TOOL.check(self.folder, self.read), 0)
        path = self.path("plant_script.fish")
        text = path.read_text()
        path.write_text(text.replace("-l json", "-l jsons"))
        self.assertEqual(TOOL.check(self.folder, self.read), 1)
        path.write_text(text)

    def test_a_program_without_help_is_refused(self):
        failing = self.folder / "failing"
        failing.write_text(PROGRAM.replace("esac\n", "esac\nexit 1\n"))
        failing.chmod(0o755)
        for program in ("/nowhere/program", "/usr/bin/true", failing):
            with self.assertRaises(TOOL.NoHelp):
                TOOL.read_program(program)
        with self.assertRaises(TOOL.NoHelp):
            TOOL.option_of("input FILE", "Read FILE")


class Stored(unittest.TestCase):
    def test_commands_are_those_of_the_source(self):
        summary = {name: command.summary for name, command in read_help(ROOT)[1].items()}
        text = (ROOT / TOOL.FOLDER / "plant_script.fish").read_text()
        stored = dict(re.findall(r"^complete -c plant_script -n __fish_use_subcommand -a (\w+) -d '(.*)'$", text, re.MULTILINE))
        stored.pop("help")
        self.assertEqual(stored, summary)

    def test_options_of_folders(self):
        texts = {name: (ROOT / TOOL.FOLDER / name).read_text() for name in TOOL.FILES_OF_SHELLS}
        self.assertIn("    serve) words='--input --json --state --snapshot-every -h --help' ;;\n", texts["plant_script.bash"])
        self.assertIn('    --state)\n        compopt -o filenames\n        mapfile -t COMPREPLY < <(compgen -d -- "$word")\n', texts["plant_script.bash"])
        self.assertIn("FOLDER:_files -/' '--snapshot-every[", texts["_plant_script"])
        self.assertIn(" -l state -x -a '(__fish_complete_directories)' -d ", texts["plant_script.fish"])

    def test_all_files_are_there(self):
        self.assertEqual({path.name for path in (ROOT / TOOL.FOLDER).iterdir()}, set(TOOL.FILES_OF_SHELLS))
