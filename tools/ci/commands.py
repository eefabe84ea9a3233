"""Lists the commands of tools/run, and writes the list in tools/README.md.

    tools/run ci/commands             prints the list, as tools/run does without a name
    tools/run ci/commands --write     writes the list in tools/README.md
    tools/run ci/commands --check     compares that list, and exits with 1 if it differs

What a command does is the first sentence of its --help, up to a colon.
"""

import argparse
import ast
import re
import sys
import textwrap

from tools import ROOT

TABLE = "tools/commands.txt"
PAGE = "tools/README.md"
BLOCK = re.compile(r"(?<=^<!-- generated: commands -->\n).*?(?=^<!-- end -->$)", re.MULTILINE | re.DOTALL)
WIDTH = 100


class Command:
    """One command: its name, its module if it is no script, the module that a Python may lack, and its file."""

    def __init__(self, line):
        self.name, self.module, self.needed = [*line.split(), None, None][:3]
        self.path = ROOT / (f"{self.module.replace('.', '/')}.py" if self.module else f"tools/{self.name}")

    def help_text(self):
        """Returns the doc string of the module, or the comment at the head of the script."""
        text = self.path.read_text()
        if self.module:
            return ast.get_docstring(ast.parse(text))
        return "\n".join(line.removeprefix("#").removeprefix(" ") for line in re.match("#!.*\n((?:#.*\n)+)", text)[1].splitlines())

    def purpose(self):
        """Returns what the command does, in one line without a full stop."""
        sentence = re.match(r".*?(?=: |\. |\.?$)", " ".join(self.help_text().split("\n\n")[0].split()))[0]
        return sentence[0].lower() + sentence[1:]


def commands():
    """Returns all commands, in the order of the table."""
    return [Command(line) for line in (ROOT / TABLE).read_text().splitlines()]


def listing(found):
    width = max(len(command.name) for command in found)
    return "".join(f"{command.name:{width}}  {command.purpose()}\n" for command in found)


def block(found):
    """Returns the list of tools/README.md."""
    items = [textwrap.fill(f"`{command.name}` {command.purpose()}.", WIDTH, initial_indent="- ", subsequent_indent="  ", break_on_hyphens=False,
                           break_long_words=False) for command in found]
    return "\n" + "\n".join(items) + "\n\n"


def main():
    parser = argparse.ArgumentParser("commands", description=__doc__, formatter_class=argparse.RawDescriptionHelpFormatter)
    parser.add_argument("--write", action="store_true", help=f"write the list in {PAGE}")
    parser.add_argument("--check", action="store_true", help="compare that list")
    options = parser.parse_args()
    if not options.write and not options.check:
        print("Commands, each after tools/run:\n\n" + listing(commands()), end="")
        return
    page = ROOT / PAGE
    text = page.read_text()
    new = BLOCK.sub(lambda _: block(commands()), text)
    if options.write:
        page.write_text(new)
    elif new != text:
        sys.exit(f"the list of {PAGE} differs; tools/run ci/commands --write writes it")


if __name__ == "__main__":
    main()
