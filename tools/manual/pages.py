"""Fills the templates of the pages, in Markdown, with texts of the sources."""

import pathlib
import re

from .documents import SPECIAL, bold, for_page, inline, section, without_subsections
from .faults import NoPage
from .help_texts import read_help

TEMPLATES = pathlib.Path(__file__).with_name("pages")
NAMES = ("plant_script.1", "plant_script-serve.1", "plant.toml.5", "describe_state.1", "plant_view.1", "dsx.1")
VERSION = re.compile(r"^## (\S+) \(.*(\d{4}-\d\d-\d\d)\)$", re.MULTILINE)


def title_of(root, name):
    """Returns the title line of a page. Its date and its version are those of the first version in CHANGELOG.md."""
    stem, _, number = name.rpartition(".")
    version = VERSION.search((root / "CHANGELOG.md").read_text())
    if version is None:
        raise NoPage("CHANGELOG.md has no heading of a version")
    return f'.TH "{stem.upper()}" "{number}" "{version[2]}" "Melfjits {version[1]}" "Melfjits Manual"\n'


def markdown_of(root, name):
    """Returns a page in Markdown, with all that it takes from the sources."""
    program, commands = read_help(root)
    lines = []
    for line in (TEMPLATES / f"{name}.md").read_text().splitlines():
        found = re.fullmatch(r"\{\{(\w+)(?: (.*))?\}\}", line)
        lines += MARKS[found[1]](root, commands, found[2]) if found else [filled(line, program, commands)]
    return "\n".join(lines) + "\n"


def filled(line, program, commands):
    """Returns a line of a template in which the summaries are filled in."""
    line = line.replace("{{summary}}", lowered(program))
    return re.sub(r"\{\{summary (\w+)\}\}", lambda found: lowered(commands[found[1]].summary), line)


def lowered(summary):
    """Returns a summary as the line NAME has it."""
    return escaped(summary[0].lower() + summary[1:])


def escaped(text):
    """Returns a plain text in Markdown. What it has in backquotes becomes bold."""
    parts = re.split("`([^`]+)`", text)
    return "".join(bold(part) if place % 2 else SPECIAL.sub(r"\\\1", part) for place, part in enumerate(parts))


# Each mark of a template gives lines.

def of_commands(_root, commands, _detail):
    lines = []
    for command in commands.values():
        operand = f" *{command.operand}*" if command.operand else ""
        lines += [bold(command.name) + operand, "", f":   {escaped(command.summary)}.", ""]
        lines += ["    " + line if line else "" for line in lines_of_options(command)]
        lines += ["    " + line if line else "" for line in lines_of_help(command)]
    return lines


def lines_of_options(command):
    """Returns a list of the options of a command, in Markdown."""
    lines = []
    for option in command.options:
        lines += [bold(option.name) + (f" *{option.value}*" if option.value else ""), f":   {escaped(option.summary)}.", ""]
    return lines


def lines_of_help(command):
    """Returns the blocks of a help text as lines of Markdown."""
    lines = []
    for block in command.blocks:
        lines += [*(f"    {line}" for line in block), ""] if isinstance(block, list) else [escaped(block), ""]
    return lines


def of_synopsis(_root, commands, _detail):
    lines = [f"**plant_script** {bold(command.name)} \\[*OPTIONS*\\]" + (f" *{command.operand}*" if command.operand else "") for command in commands.values()]
    return [*(line + "\\" for line in lines), "**plant_script** \\[*COMMAND*\\] **--help**\\", "**plant_script** **--version**"]


def of_help(_root, commands, name):
    return lines_of_help(commands[name])


def of_options(_root, commands, name):
    return lines_of_options(commands[name])


def of_examples(_root, commands, name):
    lines = []
    for command in [commands[name]] if name else commands.values():
        lines += [f"{escaped(command.summary)}:", "", *(f"    {line}" for example in command.examples for line in example.split("\n")), ""]
    return lines


def of_section(root, _commands, place):
    return for_page(section(root, place))


def of_beginning(root, _commands, place):
    return for_page(without_subsections(section(root, place)))


def of_paragraph(root, _commands, name):
    """Returns the first paragraph of a document, which is below its title."""
    return inline((root / name).read_text().split("\n\n")[1]).split("\n")


def of_file(root, _commands, name):
    return [f"    {line}".rstrip() for line in (root / name).read_text().splitlines()]


MARKS = {"commands": of_commands, "synopsis": of_synopsis, "help": of_help, "options": of_options, "examples": of_examples, "section": of_section,
         "beginning": of_beginning, "paragraph": of_paragraph, "file": of_file}
