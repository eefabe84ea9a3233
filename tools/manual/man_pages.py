"""Builds the manual pages docs/man: plant_script.1, plant_script-serve.1, plant.toml.5, describe_state.1, plant_view.1 and dsx.1.

    tools/run man_pages              builds the pages; it needs pandoc
    tools/run man_pages --check      tests whether the pages are those of the sources, and exits with 1 if one is not
    tools/run man_pages --markdown NAME      prints a page as pandoc reads it

The sources are the table of commands and the help texts in crates/command_line/src, docs/FORMATS.md, docs/OPERATING.md, docs/MONITORING.md,
README.md, CHANGELOG.md and examples/plant_p2.toml. tools/manual/pages/ says what a page takes from them.

A page has two sums in its head: of what pandoc read, and of what it wrote. So --check needs no pandoc. It reports a page whose sources have
changed since it was built, and one that was changed by hand. If pandoc is installed in the version that built the pages, --check also
builds them again and compares them.
"""

import argparse
import hashlib
import re
import shutil
import subprocess
import sys
import textwrap

from tools import ROOT
from tools.manual.faults import NoPage
from tools.manual.pages import NAMES, markdown_of, title_of

FOLDER = "docs/man"
EXTENSIONS = ("definition_lists", "intraword_underscores", "all_symbols_escapable", "escaped_line_breaks", "startnum",
              "space_in_atx_header", "blank_before_header", "lists_without_preceding_blankline")
# A page indents code by up to 14 columns where it comes from a document. The help texts have shorter lines.
WIDEST_CODE = 66
INDENTATION = "    "
ESCAPE = re.compile(r"\\(?:\[\w+\]|.)")
COMMAND_LINE = re.compile(r"\(|cp |describe_state|plant_script|sed |systemctl|service/|tools/|\./")
HEAD = re.compile(r'\.\\" Built by tools/run man_pages with pandoc (\S+)\. Do not edit\.\n\.\\" Read: (\w+)\n\.\\" Wrote: (\w+)\n')


def sum_of(text):
    return hashlib.sha256(text.encode()).hexdigest()


def pandoc_version():
    """Returns the version of pandoc, or None where it is not installed."""
    if not shutil.which("pandoc"):
        return None
    return subprocess.run(["pandoc", "--version"], capture_output=True, text=True, check=True).stdout.split()[1]


def read_of(root, name):
    """Returns all that a page is made of: its title line, and its Markdown."""
    return title_of(root, name) + markdown_of(root, name)


def built(root, name, version):
    """Returns a page as pandoc writes it, with a head and a title line."""
    done = subprocess.run(["pandoc", "--from", "+".join(("markdown_strict", *EXTENSIONS)), "--to", "man"],
                          input=markdown_of(root, name), capture_output=True, text=True, check=False)
    if done.returncode:
        raise NoPage(f"{name}: pandoc ended with {done.returncode}: {done.stderr}")
    body = title_of(root, name) + cleaned(done.stdout)
    head = f'.\\" Built by tools/run man_pages with pandoc {version}. Do not edit.\n.\\" Read: {sum_of(read_of(root, name))}\n.\\" Wrote: {sum_of(body)}\n'
    return head + body


def cleaned(page):
    """Returns what pandoc wrote as mandoc takes it: no paragraph at once after a heading, no font for code, and hyphens of code that are ASCII."""
    page = re.sub(r"^(\.S[HS] .*\n)\.PP\n", r"\1", page, flags=re.MULTILINE)
    page = re.sub(r"^(\.SH NAME\n\S+) - ", r"\1 \\- ", page, flags=re.MULTILINE)
    page = re.sub(r"\\f\[B\].*?\\f\[R\]", lambda found: found[0].replace("-", "\\-"), page, flags=re.DOTALL)
    return re.sub(r"^\.nf\n\\f\[C\]\n(.*?)\n\\f\[R\]\n\.fi$", lambda found: ".nf\n" + folded(found[1]).replace("-", "\\-") + "\n.fi", page,
                  flags=re.MULTILINE | re.DOTALL)


def folded(block):
    """Returns a block of code of which no line passes the 80th column of a terminal: a comment stands before its command, and the rest of a
    long line is indented."""
    lines = []
    for line in block.split("\n"):
        command, sign, comment = line.partition("  # ")
        is_wide = len(ESCAPE.sub("x", line)) > WIDEST_CODE
        if is_wide and sign:
            lines += [f"# {comment.strip()}", command.rstrip()]
        elif is_wide:
            end = " \\[rs]" if COMMAND_LINE.match(line) else ""
            parts = textwrap.wrap(line, WIDEST_CODE - len(end), subsequent_indent=INDENTATION, break_long_words=False, break_on_hyphens=False)
            lines += [*(part + end for part in parts[:-1]), parts[-1]]
        else:
            lines.append(line)
    return "\n".join(lines)


def difference(root, name):
    """Returns why a page is not that of the sources, or None."""
    path = root / FOLDER / name
    if not path.exists():
        return "is not there"
    page = path.read_text()
    head = HEAD.search(page)
    if head is None:
        return "has no head of tools/run man_pages"
    version, read, wrote = head.groups()
    if wrote != sum_of(page[:head.start()] + page[head.end():]):
        return "was changed by hand"
    if read != sum_of(read_of(root, name)):
        return "is older than its sources"
    if version == pandoc_version() and page != built(root, name, version):
        return "is not what pandoc writes"
    return None


def check(root):
    """Prints what is wrong with the pages, and returns how many are wrong."""
    found = {name: difference(root, name) for name in NAMES}
    for name, what in found.items():
        if what:
            print(f"{FOLDER}/{name} {what}; tools/run man_pages builds it")
    return sum(what is not None for what in found.values())


def build(root):
    version = pandoc_version()
    if version is None:
        raise NoPage("pandoc is not installed; it builds the pages")
    (root / FOLDER).mkdir(exist_ok=True)
    for name in NAMES:
        (root / FOLDER / name).write_text(built(root, name, version))


def main():
    ask = argparse.ArgumentParser("man_pages", description=__doc__, formatter_class=argparse.RawDescriptionHelpFormatter)
    ask.add_argument("--check", action="store_true", help="test whether the pages are those of the sources")
    ask.add_argument("--markdown", metavar="NAME", choices=NAMES, help="print a page as pandoc reads it")
    asked = ask.parse_args()
    try:
        if asked.markdown:
            sys.stdout.write(markdown_of(ROOT, asked.markdown))
        elif asked.check:
            sys.exit(1 if check(ROOT) else 0)
        else:
            build(ROOT)
    except NoPage as fault:
        sys.exit(f"man_pages: {fault}")


if __name__ == "__main__":
    main()
