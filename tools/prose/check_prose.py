"""Checks the prose of the documents: README.md, CHANGELOG.md, CONTRIBUTING.md, docs/*.md, docs/reference/*.md, packaging/README.md,
service/README.md, tools/README.md, bindings/README.md and the README.md of each example.

    tools/run ci/check_prose [FILE..]          checks the documents, or these files
    tools/run ci/check_prose --words < TEXT    checks the words of standard input alone, such as help or messages

Prints a line for each finding, and exits with 1 if there is one.

It finds

    word      a word that we do not use (tools/prose/words.py has them, each with what to write instead)
    sentence  a sentence of more than 35 words; in README.md of more than 30; in docs/ARCHITECTURE.md and docs/THEOREM.md of more than 25
    line      a line of more than 100 columns
    cell      a table cell of more than 12 words
    link      a relative link to a file or a heading that does not exist
    file      the name of a file of the repository that does not exist
    name      in docs/ARCHITECTURE.md and docs/THEOREM.md, a name in code font that no source of a crate has

Code spans, code blocks and quoted text may have any words. Tables and code may have any width, also a line that is one code span. Names of
files are looked for everywhere. In the pages of docs/reference, words and sentences are not checked: they are those of comments in the
sources, from which tools/run reference_pages writes the pages.
"""

import pathlib
import sys

from tools import ROOT
from tools.prose.checks import findings_of, word_findings
from tools.prose.markdown import split_document

DOCUMENTS = ("README.md", "CHANGELOG.md", "CONTRIBUTING.md", "docs/*.md", "docs/reference/*.md", "packaging/README.md", "service/README.md", "tools/README.md",
             "bindings/README.md", "examples/**/README.md")


def documents():
    """Returns the documents of the repository, in the order of their names."""
    return sorted({path for pattern in DOCUMENTS for path in ROOT.glob(pattern)})


def name_of(path):
    return str(path.relative_to(ROOT)) if path.is_relative_to(ROOT) else str(path)


def check(path):
    """Prints what is wrong in a document, and returns how much that is."""
    found = findings_of(ROOT, path)
    for finding in found:
        print(f"{name_of(path)}:{finding.line}: {finding.kind}: {finding.message}")
    return len(found)


def check_words(text):
    """Prints the words of a text that we do not use, and returns how many there are."""
    found = list(word_findings(split_document(text)))
    for finding in found:
        print(f"{finding.line}: {finding.kind}: {finding.message}")
    return len(found)


def main():
    if "--help" in sys.argv or "-h" in sys.argv:
        sys.exit(print(__doc__))
    if sys.argv[1:] == ["--words"]:
        sys.exit(1 if check_words(sys.stdin.read()) else 0)
    paths = [pathlib.Path(name).resolve() for name in sys.argv[1:]] or documents()
    errors = sum([check(path) for path in paths])
    print(f"{len(paths)} documents, {errors} findings")
    sys.exit(1 if errors else 0)


if __name__ == "__main__":
    main()
