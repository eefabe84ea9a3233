"""Reads the help texts of the program from its source."""

import re
from dataclasses import dataclass, field

from .faults import NoPage

FOLDER = "crates/command_line/src"
# The table of commands and options; the ends of the helps, which are constants; and the summary of the program with the operand.
SOURCE, TEXTS, PROGRAM_SOURCE = (f"{FOLDER}/{name}.rt" for name in ("names", "help_texts", "command"))
TEXT = r'"((?:[^"\\]|\\.)*)"'
CONSTANT = re.compile(rf"const (\w+): &str\s*=\s*{TEXT};", re.DOTALL)
PROGRAM = re.compile(rf"Command::new\(alloc, {TEXT}\)\s*\.about\({TEXT}\)", re.DOTALL)
OPERAND = re.compile(rf"\.value_name\({TEXT}\)", re.DOTALL)
# Statuses are described by a section of their own.
STATUSES = re.compile("Exit status(?:es)?:")
INDENTATION = "    "


@dataclass
class Option:
    """An option as the help lists it: its name, the name of its value or nothing, and what it does."""
    name: str
    value: str
    summary: str


@dataclass
class Help:
    """What the help of a command says: its summary, and its blocks, which are paragraphs or lists of lines that keep their layout."""
    name: str
    summary: str
    blocks: list
    operand: str = ""
    options: list = field(default_factory=list)

    @property
    def examples(self):
        """Returns the commands for a shell, each with its lines."""
        commands = [[]]
        for line in (line for block in self.blocks if isinstance(block, list) for line in block):
            if commands[-1] and not commands[-1][-1].endswith("|"):
                commands.append([])
            commands[-1].append(line)
        return ["\n".join(lines) for lines in commands if any("plant_script" in line for line in lines)]


def read_help(root):
    """Returns the summary of the program, and the help of each command by name."""
    program_source = (root / PROGRAM_SOURCE).read_text()
    program, operand = PROGRAM.search(program_source), OPERAND.search(program_source)
    if program is None or operand is None:
        raise NoPage(f"{PROGRAM_SOURCE} has no summary of the program")
    table, _, options = (root / SOURCE).read_text().partition("pub enum OptionName {")
    names, summaries, ends = (arms(table, function, "CommandName") for function in ("text", "summary", "input_text"))
    if not names:
        raise NoPage(f"{SOURCE} has no commands")
    constants = dict(CONSTANT.findall((root / TEXTS).read_text()))
    commands = {}
    for place, name in names.items():
        if ends.get(place) not in constants:
            raise NoPage(f"{TEXTS} has no text {ends.get(place)}, which is the help of {name}")
        commands[name] = help_of(name, summaries[place], unescaped(constants[ends[place]]))
        commands[name].options = [option for option, places in options_of(options) if place in places or not places]
    if "history" in commands:
        commands["history"].operand = operand[1]
    return unescaped(program[2]), commands


def arms(source, function, enum):
    """Returns the text or the constant that a function gives for each value of an enum."""
    found = re.search(rf"fn {function}\b.*?\n    }}\n", source, re.DOTALL)
    rows = re.findall(rf"{enum}::(\w+) =>\s*\{{?\s*(?:Some\()?(?:{TEXT}|(\w+))", found[0] if found else "")
    return {place: unescaped(text) if text else constant for place, text, constant in rows}


def options_of(source):
    """Yields each option, and the commands that have it; none where all have it."""
    names, summaries, values = (arms(source, function, "OptionName") for function in ("text", "summary", "value_name"))
    body = source.partition("fn has_option")[2]
    for place, name in names.items():
        arm = re.search(rf"OptionName::{place}\b[^=]*=> (.*?)(?:,\n        (?:OptionName|\}})|\n    \}})", body, re.DOTALL)
        value = values.get(place, "")
        yield Option(f"--{name}", "" if value == "None" else value, summaries[place]), re.findall(r"CommandName::(\w+)", arm[1] if arm else "")


def help_of(name, summary, text):
    blocks = (block for block in re.split(r"\n\s*\n", text.strip("\n")) if not STATUSES.match(block))
    return Help(name, summary, [[line.removeprefix(INDENTATION) for line in block.splitlines()] if block.startswith(INDENTATION)
                                else " ".join(block.split()) for block in blocks])


def unescaped(text):
    """Returns what a string of the source says."""
    text = re.sub(r"\\\n\s*", "", text)
    return re.sub(r"\\(.)", lambda found: {"n": "\n", "t": "\t"}.get(found[1], found[1]), text)
