"""Compares the standard error that pages quote with what the program writes. tools/ci/check_examples.py runs it.

A page under docs/ or examples/, or one at the top, quotes it in a block that begins with ```stderr, a command and the file of its input:

    ```stderr trace examples/trace/trace.txt

Changes of the input may follow, each after ` ~ `, in the form of the cases of tests/ (CONTRIBUTING.md):

    ```stderr check examples/plant_p2.toml ~ budget = 32 > budget = 33

The block is all that the command writes to standard error. The second implementation writes no reasons there, so a block is compared only if
the program is built. Without it, only the file and the changes of each block are tried. A message that a page quotes in another way is found
by how it begins.
"""

import pathlib
import re
import subprocess
from dataclasses import dataclass

from tools import ROOT
from tools.ci.cases import changed
from tools.compare.program import SECONDS
from tools.prose.markdown import split_document

BLOCK = re.compile(r"^```stderr (.*)\n((?:(?!```).*\n)*)```$", re.MULTILINE)
FENCED = re.compile("^```.*?^```$", re.MULTILINE | re.DOTALL)
# How messages of standard error begin that name a place.
MESSAGE = re.compile(r"\s*(?:warning: \S|(?:plant|class\[\d+\]|operator\[\d+\])[^:`]*, line \d+: |operators? \w+ \(line \d+\)|line \d+ \(script line \d+\), |"
                     r"operator \w+ is at frame \d)")


@dataclass(frozen=True)
class Quote:
    """What a page quotes: in which line the block begins, the command, the file of its input with changes, and the text."""
    place: str
    words: tuple
    file: str
    changes: tuple
    text: str


def pages(root):
    return sorted([*root.glob("*.md"), *root.glob("docs/*.md"), *root.glob("examples/**/*.md")])


def quotes_of(root, page):
    """Yields the blocks of a page that quote standard error."""
    text = page.read_text()
    for found in BLOCK.finditer(text):
        start, *changes = found[1].split(" ~ ")
        *words, file = start.split()
        place = f"{page.relative_to(root)}, line {text[:found.start()].count(chr(10)) + 1}"
        yield Quote(place, tuple(words), file, tuple(changes), found[2])


def input_of(root, quote):
    """Returns the bytes of the input of a quote. A change that is not possible is a SystemExit, with the reason."""
    text = (root / quote.file).read_text()
    for change in quote.changes:
        text = changed(text, change)
    return text.encode()


def difference(root, program, quote):
    """Returns what is wrong with a quote, or None."""
    try:
        data = input_of(root, quote)
    except (OSError, SystemExit) as fault:
        return f"{quote.place}: {fault}"
    if not quote.words:
        return f"{quote.place}: the block has no command: write ```stderr COMMAND FILE"
    if not pathlib.Path(program).exists():
        return None
    done = subprocess.run([program, *quote.words], input=data, stdout=subprocess.DEVNULL, stderr=subprocess.PIPE, timeout=SECONDS, check=False)
    written = done.stderr.decode(errors="replace")
    return None if written == quote.text else f"{quote.place}: the page has\n{quote.text}where the program writes\n{written or '(nothing)'}"


def without(pattern, text):
    """Returns a text with empty lines in place of what the pattern finds."""
    return pattern.sub(lambda found: "\n" * found[0].count("\n"), text)


def strays(root, page):
    """Yields the lines of a page that look like standard error and are in no block that is compared."""
    text = page.read_text()
    code = split_document(without(BLOCK, text)).code_lines
    prose = without(FENCED, text)
    spans = [(prose[:found.start()].count("\n") + 1, found[1]) for found in re.finditer("`([^`]+)`", prose)]
    for number, line in code + spans:
        if MESSAGE.match(line):
            yield f"{page.relative_to(root)}, line {number}: quote standard error in a block that begins with ```stderr COMMAND FILE: {line.strip()}"


def wrong_quotes(program, root=ROOT):
    """Returns how many quotes there are, and what is wrong with them."""
    quotes = [quote for page in pages(root) for quote in quotes_of(root, page)]
    wrong = [what for quote in quotes if (what := difference(root, program, quote))]
    return len(quotes), wrong + [what for page in pages(root) for what in strays(root, page)]
