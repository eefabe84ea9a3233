"""Writes the completions for bash, zsh and fish in packaging/completions from the help of the program.

    tools/run completions [PROGRAM]              writes the files
    tools/run completions --check [PROGRAM]      tests whether they are what the help lists, and exits with 1 if one is not

PROGRAM is the built program, or the one that is given. The commands, options and operands are those that `PROGRAM --help` and
`PROGRAM COMMAND --help` list.
"""

import argparse
import re
import shlex
import subprocess
import sys
from dataclasses import dataclass, field

from tools import ROOT
from tools.compare.program import PROGRAM

NAME = "plant_script"
FOLDER = "packaging/completions"
HEADING = re.compile(r"(\w+):\s*$")
ROW = re.compile(r"  +(\S.*?)(?:  +(\S.*))?$")
OPTION = re.compile(r"(?:(-\w)(?:, )?)?(--[\w-]+)?(?: <?(\w+)>?)?$")
# The values of options and the operands that are names of files or of folders.
FILES, FOLDERS = ("FILE", "PATH"), ("FOLDER",)


class NoHelp(Exception):
    """The program does not print a help that can be read."""


@dataclass
class Option:
    """An option as the help lists it: its spellings, the name of its value or None, and what it does."""
    spellings: tuple
    value: str | None
    text: str

    @property
    def is_of_file(self):
        return self.value in FILES

    @property
    def is_of_folder(self):
        return self.value in FOLDERS


@dataclass
class Command:
    """What the help of a command lists."""
    name: str
    text: str = ""
    options: list = field(default_factory=list)
    operands: list = field(default_factory=list)


def sections_of(text):
    """Returns the rows below each heading of a help: pairs of a term and what it means."""
    rows, sections = [], {}
    for line in text.splitlines():
        heading, row = HEADING.match(line), ROW.match(line)
        if heading:
            rows = sections[heading[1]] = []
        elif row:
            rows.append((row[1], row[2] or ""))
        elif line or rows:
            rows = []
    return sections


def option_of(term, text):
    found = OPTION.match(term)
    if found is None or not (found[1] or found[2]):
        raise NoHelp(f"cannot read the option {term!r}")
    return Option(tuple(spelling for spelling in found.groups()[:2] if spelling), found[3], text)


def read_command(name, text, help_text):
    sections = sections_of(help_text)
    if "Options" not in sections:
        raise NoHelp(f"the help of {name} lists no options")
    operands = [term.strip("<>[]") for term, _ in sections.get("Arguments", [])]
    return Command(name, text, [option_of(*row) for row in sections["Options"]], operands)


def help_of(program, *words):
    """Returns what the program prints for a request for help."""
    try:
        done = subprocess.run([program, *words, "--help"], capture_output=True, text=True, check=False)
    except OSError as fault:
        raise NoHelp(f"cannot run {program}: {fault.strerror}") from fault
    if done.returncode:
        raise NoHelp(f"{program} {' '.join(words)} --help ended with status {done.returncode}")
    return done.stdout


def read_program(program):
    """Returns the program as a command without a name, and all its commands. `help` takes the name of a command."""
    top_help = help_of(program)
    rows = sections_of(top_help).get("Commands")
    if not rows:
        raise NoHelp(f"the help of {program} lists no commands")
    commands = [read_command(name, text, help_of(program, name)) for name, text in rows if name != "help"]
    commands += [Command(name, text) for name, text in rows if name == "help"]
    return read_command("", "", top_help), commands


def first_lines(mark="#"):
    return f"{mark} Completion of {NAME}. tools/run completions writes this file from the help of the program; do not edit it.\n"


def spellings_of(options):
    return [spelling for option in options for spelling in option.spellings]


def bash(top, commands):
    """Returns the completion for bash."""
    names = " ".join(command.name for command in commands)
    options = [option for command in commands for option in command.options]
    files = dict.fromkeys(spellings_of(option for option in options if option.is_of_file))
    folders = dict.fromkeys(spellings_of(option for option in options if option.is_of_folder))
    lines = [first_lines() + f"_{NAME}() {{", "    local command='' words='' at",
             '    local word=${COMP_WORDS[COMP_CWORD]} before=${COMP_WORDS[COMP_CWORD - 1]}', "    COMPREPLY=()"]
    if files or folders:
        lines.append("    case $before in")
        for names_of_kind, letter in ((files, "f"), (folders, "d")):
            if names_of_kind:
                lines += [f"    {' | '.join(names_of_kind)})", "        compopt -o filenames",
                          f'        mapfile -t COMPREPLY < <(compgen -{letter} -- "$word")', "        return", "        ;;"]
        lines.append("    esac")
    lines += ["    for ((at = 1; at < COMP_CWORD; at++)); do", "        case ${COMP_WORDS[at]} in", f"        {names.replace(' ', ' | ')})",
              "            command=${COMP_WORDS[at]}", "            break", "            ;;", "        esac", "    done", "    case $command in",
              f"    '') words='{' '.join([names, *spellings_of(top.options)])}' ;;"]
    for command in commands:
        words = names if command.name == "help" else " ".join(spellings_of(command.options))
        lines.append(f"    {command.name}) words='{words}' ;;")
    lines += ["    esac", '    mapfile -t COMPREPLY < <(compgen -W "$words" -- "$word")', "}", f"complete -F _{NAME} {NAME}"]
    return "\n".join(lines) + "\n"


def zsh_option(option):
    """Returns an option as _arguments takes it."""
    text = re.sub(r"([\[\]:\\])", r"\\\1", option.text)
    value = "" if option.value is None else f":{option.value}:{'_files' if option.is_of_file else '_files -/' if option.is_of_folder else ''}"
    if len(option.spellings) == 1:
        return shlex.quote(f"{option.spellings[0]}[{text}]{value}")
    return f"{shlex.quote('(' + ' '.join(option.spellings) + ')')}{{{','.join(option.spellings)}}}{shlex.quote('[' + text + ']' + value)}"


def zsh(top, commands):
    """Returns the completion for zsh."""
    lines = [f"#compdef {NAME}", first_lines() + f"_{NAME}() {{", "    local context state line", "    local -A opt_args", "    local -a commands", "    commands=("]
    lines += [f"        {shlex.quote(command.name + ':' + command.text.replace(':', chr(92) + ':'))}" for command in commands]
    lines += ["    )", f"    _arguments -C {' '.join(map(zsh_option, top.options))} '1:command:->command' '*::argument:->argument' && return",
              "    case $state in", "    command) _describe command commands ;;", "    argument)", "        case $words[1] in"]
    for command in commands:
        if command.name == "help":
            lines.append("        help) _describe command commands ;;")
            continue
        words = [*map(zsh_option, command.options), *(shlex.quote(f":{operand}:") for operand in command.operands)]
        lines.append(f"        {command.name}) _arguments {' '.join(words)} ;;")
    lines += ["        esac", "        ;;", "    esac", "}", f'_{NAME} "$@"']
    return "\n".join(lines) + "\n"


def fish_quoted(text):
    """Returns a text in single quotes, as fish reads them."""
    return "'" + text.replace("\\", "\\\\").replace("'", "\\'") + "'"


def fish_option(option, condition):
    spelled = " ".join(f"-{'l' if spelling.startswith('--') else 's'} {spelling.lstrip('-')}" for spelling in option.spellings)
    value = "" if option.value is None else " -r -F" if option.is_of_file else " -x -a '(__fish_complete_directories)'" if option.is_of_folder else " -x"
    return f"complete -c {NAME} -n {fish_quoted(condition)} {spelled}{value} -d {fish_quoted(option.text)}"


def fish(top, commands):
    """Returns the completion for fish."""
    lines = [first_lines() + f"complete -c {NAME} -f"]
    lines += [fish_option(option, "__fish_use_subcommand") for option in top.options]
    lines += [f"complete -c {NAME} -n __fish_use_subcommand -a {command.name} -d {fish_quoted(command.text)}" for command in commands]
    for command in commands:
        seen = f"__fish_seen_subcommand_from {command.name}"
        if command.name == "help":
            lines += [f"complete -c {NAME} -n {fish_quoted(seen)} -a {fish_quoted(' '.join(other.name for other in commands))}"]
        # (after `help`, the names of commands are operands)
        condition = f"{seen}; and not __fish_seen_subcommand_from help" if any(other.name == "help" for other in commands) else seen
        lines += [fish_option(option, condition) for option in command.options]
    return "\n".join(lines) + "\n"


FILES_OF_SHELLS = {f"{NAME}.bash": bash, f"_{NAME}": zsh, f"{NAME}.fish": fish}


def check(root, read):
    """Prints which files are not what the help lists, and returns how many."""
    wrong = []
    for name, written in FILES_OF_SHELLS.items():
        path = root / FOLDER / name
        if not path.exists() or path.read_text() != written(*read):
            wrong.append(name)
            print(f"{FOLDER}/{name} is not what the help lists; tools/run completions writes it")
    return len(wrong)


def write(root, read):
    (root / FOLDER).mkdir(parents=True, exist_ok=True)
    for name, written in FILES_OF_SHELLS.items():
        (root / FOLDER / name).write_text(written(*read))


def main():
    ask = argparse.ArgumentParser("completions", description=__doc__, formatter_class=argparse.RawDescriptionHelpFormatter)
    ask.add_argument("--check", action="store_true", help="test whether the files are what the help lists")
    ask.add_argument("program", metavar="PROGRAM", nargs="?", default=PROGRAM, help="the program whose help is read")
    asked = ask.parse_args()
    try:
        read = read_program(asked.program)
    except NoHelp as fault:
        sys.exit(f"completions: {fault}")
    if asked.check:
        sys.exit(1 if check(ROOT, read) else 0)
    write(ROOT, read)


if __name__ == "__main__":
    main()
