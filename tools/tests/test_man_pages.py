"""Tests tools/run man_pages: the pages of docs/man are those of the sources, and each has what it should have.

Pages are built again if pandoc is installed in the version that built them. They are checked if mandoc is installed, and formatted if man is.
The help texts of the source are compared with those of the program if it is built. A test that is skipped says what was left out.
"""

import contextlib
import io
import os
import pathlib
import re
import shutil
import subprocess
import tempfile
import unittest

from tools import ROOT
from tools.ci.check_examples import keys_of_plant_files
from tools.compare.program import PROGRAM
from tools.manual import man_pages as TOOL
from tools.manual.documents import for_page, section
from tools.manual.faults import NoPage
from tools.manual.help_texts import PROGRAM_SOURCE, SOURCE, TEXTS, help_of, read_help
from tools.manual.pages import NAMES, TEMPLATES, escaped
from tools.prose.markdown import COMMANDS

SECTIONS = ["NAME", "SYNOPSIS", "DESCRIPTION", "COMMANDS", "OPTIONS", "EXIT STATUS", "INPUT", "OUTPUT", "EXAMPLES", "FILES", "SEE ALSO"]
# The page of a file has no sections of a command.
SECTIONS_OF = {"describe_state.1": [name for name in SECTIONS if name not in ("COMMANDS", "INPUT")],
               "plant_view.1": [name for name in SECTIONS if name not in ("COMMANDS", "INPUT", "FILES")],
               "dsx.1": ["NAME", "SYNOPSIS", "DESCRIPTION", "COMMANDS", "EXIT STATUS", "WORDS", "EXAMPLES", "SEE ALSO"],
               "plant.toml.5": ["NAME", "SYNOPSIS", "DESCRIPTION", "EXAMPLES", "FILES", "SEE ALSO"]}
# Characters that pandoc spells.
SPELLED = {"aq": "'", "dq": '"', "ga": "`", "ha": "^", "rs": "\\", "ti": "~", "at": "@"}
SOURCES = (SOURCE, TEXTS, PROGRAM_SOURCE, "README.md", "CHANGELOG.md", "docs/FORMATS.md", "docs/MONITORING.md", "docs/OPERATING.md", "examples/plant_p2.toml", "docs/man")
# What a page is not if a command is not installed.
USES = {"mandoc": "checked", "man": "formatted"}


def why_not_built():
    """Returns why no page can be built again as it was, or None."""
    version = TOOL.pandoc_version()
    if version is None:
        return "pandoc is not installed: no page was built again"
    if any(version != TOOL.HEAD.search((ROOT / "docs/man" / name).read_text())[1] for name in NAMES):
        return "pandoc is installed in another version: no page was built again"
    return None


def is_here(command):
    return unittest.skipUnless(shutil.which(command), f"{command} is not installed: no page was {USES[command]}")


def copied(folder):
    """Copies the sources and the pages into a folder."""
    for name in SOURCES:
        target = pathlib.Path(folder) / name
        target.parent.mkdir(parents=True, exist_ok=True)
        (shutil.copytree if (ROOT / name).is_dir() else shutil.copy)(ROOT / name, target)
    return pathlib.Path(folder)


class Pages(unittest.TestCase):
    def test_are_current(self):
        self.assertEqual({name: TOOL.difference(ROOT, name) for name in NAMES}, dict.fromkeys(NAMES))

    @unittest.skipIf(why_not_built(), why_not_built())
    def test_are_what_pandoc_writes(self):
        for name in NAMES:
            self.assertEqual((ROOT / "docs/man" / name).read_text(), TOOL.built(ROOT, name, TOOL.pandoc_version()))

    def test_sections(self):
        for name in NAMES:
            self.assertEqual(re.findall("^.SH (.*)$", (ROOT / "docs/man" / name).read_text(), re.MULTILINE), SECTIONS_OF.get(name, SECTIONS))

    def part_of_page(self, name, part):
        """Returns a section of a page as text: with neither fonts nor escapes."""
        text = (ROOT / "docs/man" / name).read_text().split(f".SH {part}\n")[1].split("\n.SH ")[0]
        return re.sub(r"\\(?:f?\[(\w+)\]|(.))", lambda found: SPELLED.get(found[1], "") if found[1] else found[2], text)

    def terms(self, name, part):
        return re.findall(r"^\.TP\n(.*)$", self.part_of_page(name, part), re.MULTILINE)

    def test_commands(self):
        _, commands = read_help(ROOT)
        terms = {term.split(" ")[0] for term in self.terms("plant_script.1", "COMMANDS")}
        self.assertEqual({term for term in terms if not term.startswith("-")}, set(commands))
        self.assertEqual({term for term in terms if term.startswith("-")}, {option.name for command in commands.values() for option in command.options})
        synopsis, examples = (self.part_of_page("plant_script.1", part) for part in ("SYNOPSIS", "EXAMPLES"))
        for command in commands.values():
            self.assertRegex(synopsis, rf"(?m)^plant_script {command.name} \[OPTIONS\]( {command.operand})?$")
            for example in command.examples:
                self.assertIn(f"\n{example}\n", examples)

    def test_statuses(self):
        self.assertEqual(self.terms("plant_script.1", "EXIT STATUS"), ["0", "2", "3", "4", "5", "6", "7", "125", "126", "127"])
        self.assertEqual(self.terms("plant_script-serve.1", "EXIT STATUS"), ["0", "3", "5", "6"])
        self.assertEqual(self.terms("describe_state.1", "EXIT STATUS"), ["0", "1", "2", "3", "4", "6"])
        self.assertEqual(self.terms("plant_view.1", "EXIT STATUS"), ["0", "1", "2"])
        self.assertEqual(self.terms("dsx.1", "EXIT STATUS"), ["0", "2", "6"])

    def test_options_of_plant_view(self):
        """The page has the options that the command lists, and no other."""
        listed = subprocess.run([ROOT / "tools/run", "plant_view", "--help"], capture_output=True, text=True, check=True).stdout
        options = set(re.findall(r"--[a-z]+", listed.partition("\noptions:\n")[2]))
        terms = set(re.findall(r"--[a-z]+", " ".join(self.terms("plant_view.1", "OPTIONS"))))
        self.assertEqual((terms, "--plant" in terms), (options, True))

    def test_commands_of_dsx(self):
        """The page has the commands that `dsx --help` lists, and no other."""
        listed = subprocess.run([ROOT / "service/dsx", "--help"], capture_output=True, text=True, check=True).stdout
        commands = re.findall(r"^    dsx (\w+)", listed.partition("\nKIND is")[0], re.MULTILINE)
        terms = [term.split(" ")[0] for term in self.terms("dsx.1", "COMMANDS") if not term.startswith("-")]
        self.assertEqual((set(terms), "KIND" in terms), (set(commands), True))

    def test_keys(self):
        page = (ROOT / "docs/man/plant.toml.5").read_text()
        terms = re.findall(r"\\f\[B\](\w+)\\f\[R\]", " ".join(re.findall(r"^\.TP\n(.*)$", page, re.MULTILINE)))
        self.assertEqual(set(keys_of_plant_files()) - set(terms), set())

    def test_no_markdown_is_left(self):
        for name in NAMES:
            without_code = re.sub(r"^\.nf\n.*?^\.fi$", "", (ROOT / "docs/man" / name).read_text(), flags=re.MULTILINE | re.DOTALL)
            self.assertEqual(re.findall(r"(?<!\\f\[R)\]\(|`|\\\[ga\]|\*\*|\{\{", without_code), [])


class Check(unittest.TestCase):
    """What --check reports, in a copy of the sources."""

    def changed(self, name, old, new):
        with tempfile.TemporaryDirectory() as folder:
            root = copied(folder)
            text = (root / name).read_text()
            self.assertIn(old, text)
            (root / name).write_text(text.replace(old, new, 1))
            return [TOOL.difference(root, page) for page in NAMES]

    def test_sources(self):
        older = "is older than its sources"
        self.assertEqual(self.changed("docs/FORMATS.md", "| `resends` | 0 to 255 | 3 |", "| `resends` | 0 to 255 | 4 |"), [None, None, older, None, None, None])
        self.assertEqual(self.changed("docs/FORMATS.md", "| `T` | for each operator", "| `T` | for every operator"), [older, older, None, None, None, None])
        self.assertEqual(self.changed("CHANGELOG.md", "\n## ", "\n## 9.9 (2026-11-22 to 2026-11-22)\n\n## "), [older] * 6)
        self.assertEqual(self.changed("docs/MONITORING.md", "## State in words\n", "## State in words\n\nText.\n"), [None, None, None, older, None, None])
        summary = read_help(ROOT)[1]["trace"].summary
        self.assertEqual(self.changed(SOURCE, f'"{summary}"', '"Trace"'), [older, None, None, None, None, None])

    def test_pages(self):
        self.assertEqual(self.changed("docs/man/plant.toml.5", "is TOML", "is JSON"), [None, None, "was changed by hand", None, None, None])
        self.assertEqual(self.changed("docs/man/plant.toml.5", "Built by", "Made by"), [None, None, "has no head of tools/run man_pages", None, None, None])
        with tempfile.TemporaryDirectory() as folder:
            root = copied(folder)
            (root / "docs/man/plant_script.1").unlink()
            self.assertEqual(TOOL.difference(root, "plant_script.1"), "is not there")
            printed = io.StringIO()
            with contextlib.redirect_stdout(printed):
                self.assertEqual(TOOL.check(root), 1)
            self.assertEqual(printed.getvalue(), "docs/man/plant_script.1 is not there; tools/run man_pages builds it\n")

    def test_missing_sources(self):
        with self.assertRaises(NoPage) as found:
            section(ROOT, "docs/FORMATS.md#no-such-heading")
        self.assertEqual(str(found.exception), "docs/FORMATS.md has no heading no-such-heading")
        for name, text in (("CHANGELOG.md", "# Changelog\n"), (SOURCE, "")):
            with tempfile.TemporaryDirectory() as folder, self.assertRaises(NoPage):
                root = copied(folder)
                (root / name).write_text(text)
                TOOL.check(root)


class Help(unittest.TestCase):
    def test_all_commands(self):
        summary, commands = read_help(ROOT)
        self.assertTrue(summary)
        self.assertEqual(set(commands), {*COMMANDS, "resume", "restore", "snapshot"})
        for command in commands.values():
            self.assertTrue(command.summary and command.blocks and command.examples, command.name)
        self.assertEqual(commands["history"].operand, "OPERATOR")
        self.assertEqual([(option.name, option.value) for option in commands["serve"].options],
                         [("--input", "FILE"), ("--json", ""), ("--state", "FOLDER"), ("--snapshot-every", "N")])
        self.assertEqual([option.name for option in commands["one"].options], ["--input"])

    def test_typed(self):
        found = help_of("run", "Run", "Standard input: a\nplant.\n\n    plant_script run < a\n    key = 1    one,\n               or two\n\nExit status: 0 success.")
        self.assertEqual(found.blocks, ["Standard input: a plant.", ["plant_script run < a", "key = 1    one,", "           or two"]])
        self.assertEqual(found.examples, ["plant_script run < a"])
        self.assertEqual(escaped("a line --- and `fault: *`."), r"a line \-\-\- and **fault: \***\.")

    @unittest.skipUnless(pathlib.Path(PROGRAM).exists(), "the program is not built: its help was not compared with the source's")
    def test_is_the_programs(self):
        _, commands = read_help(ROOT)
        for command in commands.values():
            printed = subprocess.run([PROGRAM, command.name, "--help"], capture_output=True, text=True, check=True).stdout
            printed = " ".join(printed.split())
            self.assertEqual(set(re.findall(r"--[a-z-]+", printed.partition("Options:")[2].partition("-h, --help")[0])) - {"--state"},
                             {option.name for option in command.options} - {"--state"})
            for block in (command.summary, *(option.summary for option in command.options), *command.blocks):
                self.assertIn(" ".join((" ".join(block) if isinstance(block, list) else block).split()), printed)

    @unittest.skipUnless(pathlib.Path(PROGRAM).exists(), "the program is not built: its help was not compared")
    def test_help_is_a_command_before_the_name_of_another(self):
        for name in ("resume", "restore", "snapshot"):
            after, before = (subprocess.run([PROGRAM, *words], capture_output=True, text=True, check=True).stdout for words in ((name, "--help"), ("help", name)))
            self.assertEqual(before, after)
            self.assertIn(f"\nUsage: plant_script {name} [OPTIONS]\n", before)


class Markdown(unittest.TestCase):
    def page(self, *lines):
        return "\n".join(for_page(lines))

    def test_tables(self):
        self.assertEqual(self.page("| key | value |", "|---|---|", "| `a` | 1 or 2 |"), "**a**\n:   1 or 2\n")
        self.assertEqual(self.page("| key | value | default |", "|---|---|---|", "| `a` | 1 to 2 | 3 |", "| `b` | 4 to 567890 | |"),
                         "**a**\n:   1 to 2 (default: 3)\n\n**b**\n:   4 to 567890\n")
        self.assertEqual(self.page("| | fault | condition |", "|---|---|---|", "| 1 | No | it is not |"), "1 No\n:   it is not\n")
        self.assertEqual(self.page("| a | b | c | d |", "|---|---|---|---|", "| 1 | 2 | 3 | 4 |"), "1\n:   b: 2; c: 3; d: 4\n")

    def test_links(self):
        self.assertEqual(self.page("The [check](RULES.md#checks), the [flow", "encoding](#flows)."), r"The check (**docs/RULES\.md**), the flow" + "\nencoding.")
        self.assertEqual(self.page("[OPERATING.md](OPERATING.md#limits) has `a-b`; [RULES.md](RULES.md) [`x`](../examples/x/README.md)"),
                         r"**plant_script-serve**(1) has **a\-b**; **docs/RULES\.md** **x**")

    def test_code(self):
        self.assertEqual(self.page("Text:", "", "    a `b` [c](d)", "", "End."), "Text:\n\n    a `b` [c](d)\n\nEnd.")

    def test_templates_are_named(self):
        self.assertEqual({path.name for path in TEMPLATES.iterdir()}, {f"{name}.md" for name in NAMES})


class Installed(unittest.TestCase):
    @is_here("mandoc")
    def test_mandoc(self):
        for name in NAMES:
            done = subprocess.run(["mandoc", "-T", "lint", ROOT / "docs/man" / name], capture_output=True, text=True, check=False)
            self.assertEqual((done.stdout, done.returncode), ("", 0))

    @is_here("man")
    def test_man(self):
        for name in NAMES:
            done = subprocess.run(["man", "-l", "--warnings", ROOT / "docs/man" / name], capture_output=True, text=True, check=False,
                                  env={**os.environ, "MANWIDTH": "80", "LC_ALL": "C.UTF-8", "MANPAGER": "cat"})
            self.assertEqual((done.returncode, done.stderr), (0, ""))
            text = re.sub(".\b", "", done.stdout)
            self.assertIn("SEE ALSO", text)
            self.assertLessEqual(max(map(len, text.splitlines())), 80)
