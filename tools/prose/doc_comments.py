"""Checks the doc comments of the crates.

    tools/run ci/doc_comments [--list] [--count] [--root FOLDER] [CRATE..]

Prints a line for each finding in the crates that are checked, and exits with 1 if there is one. It finds

    verb      the doc comment of a function whose first word is not a verb in the third person ("Returns", "Parses")
    short     the doc comment of a function, a type or a module that has fewer than five words
    word      a word that we do not use (tools/prose/words.py has them, each with what to write instead)
    missing   a public function without a doc comment

Crates that are not rewritten yet are in WAITING. What is found there is counted, and is not an error; --list prints it all the same.
--count prints a line for each crate. CRATE is the name of a crate; all crates if there is none. --root takes the crates of another folder.
"""

import argparse
import pathlib
import re
import sys
from collections import Counter

from tools import ROOT
from tools.prose.checks import word_findings
from tools.prose.markdown import split_document

KINDS = ("verb", "short", "word", "missing")
FEWEST_WORDS = 5
# Crates whose comments are mended with their next change: a change of a comment is a change of the file, and all crates above are proved
# anew.
WAITING = frozenset()
# Words that end like a verb in the third person and are none.
NO_VERBS = frozenset("""
Addresses Always As Budgets Bytes Causes Checks' Classes Codes Columns Constants Digits Encodings Entries Faults Fields Flows Frames Grants Identifiers
Its Items Less Limits Lines Messages Minislots Modems Names Numbers Operators Others Outputs Parts Plus Ranks Receipts Replies Responses Rows Sets
Slices Spans Steps Subtypes This Thus Ticks Timers Us Values Words Yes
""".split())
DESCRIBED = re.compile(r"^\s*(?:pub(?:\([a-z]+\))? )?(?:const )?(?:unsafe )?(?:extern \S+ )?(?:fn|struct|enum|trait|type) ")
FUNCTION = re.compile(r"^\s*(?P<public>pub(?:\([a-z]+\))? )?(?:const )?(?:unsafe )?(?:extern \S+ )?fn (?P<name>\w+)")
ATTRIBUTE = re.compile(r"^\s*#!?\[")


class Comment:
    """A doc comment: where it begins, its text, and the line of what it describes."""

    def __init__(self, path, line, text, item, is_test):
        self.path, self.line, self.text, self.item, self.is_test = path, line, text, item, is_test


def comments_of(path):
    """Yields the doc comments of a file, and of each public function without one a comment with no text."""
    begun, parts, is_test = 0, [], False
    for number, line in enumerate(path.read_text().splitlines(), 1):
        text = line.strip()
        if text.startswith(("///", "//!")):
            begun = begun or number
            parts.append(text[3:].strip())
            continue
        if ATTRIBUTE.match(line):
            is_test = is_test or text.startswith("#[test]")
            if not (parts and text.startswith("#!")):
                continue
        if parts or FUNCTION.match(line):
            yield Comment(path, begun or number, "\n".join(parts), line, is_test)
        begun, parts, is_test = 0, [], False


def first_word(text):
    return re.split(r"[\s,.:;]", text, maxsplit=1)[0]


def is_verb(word):
    """Says whether a word looks like a verb in the third person."""
    return bool(re.fullmatch(r"[A-Z][a-z]+s", word)) and not word.endswith("ss") and word not in NO_VERBS


def findings_of(comment):
    """Yields the kind of each finding in a doc comment, and what it is."""
    function = FUNCTION.match(comment.item)
    if not comment.text:
        if function and (function["public"] or "").strip() == "pub" and not comment.is_test:
            yield "missing", function["name"]
        return
    if function and not comment.is_test and not is_verb(first_word(comment.text)):
        yield "verb", f"{function['name']}: {comment.text.splitlines()[0]}"
    if DESCRIBED.match(comment.item) and not comment.is_test and len(comment.text.split()) < FEWEST_WORDS:
        yield "short", comment.text
    for finding in word_findings(split_document(comment.text)):
        yield "word", finding.message


def check(root, crate, is_listed):
    """Prints what is wrong in the comments of a crate, and returns how much there is of each kind."""
    counts = Counter()
    for path in sorted((root / "crates" / crate / "src").glob("**/*.rt")):
        for comment in comments_of(path):
            for kind, what in findings_of(comment):
                counts[kind] += 1
                if is_listed:
                    print(f"{path.relative_to(root)}:{comment.line}: {kind}: {what}")
    return counts


def counts_line(counts):
    return ", ".join(f"{kind} {counts[kind]}" for kind in KINDS)


def main():
    parser = argparse.ArgumentParser("doc_comments", description=__doc__, formatter_class=argparse.RawDescriptionHelpFormatter)
    parser.add_argument("--list", action="store_true", help="print the findings of crates that wait too")
    parser.add_argument("--count", action="store_true", help="print a line for each crate")
    parser.add_argument("--root", type=pathlib.Path, default=ROOT, metavar="FOLDER", help="the folder that has the crates")
    parser.add_argument("crates", nargs="*", metavar="CRATE")
    arguments = parser.parse_args()
    names = arguments.crates or sorted(path.name for path in (arguments.root / "crates").iterdir())
    errors, waiting = Counter(), Counter()
    for name in names:
        is_waiting = name in WAITING
        counts = check(arguments.root, name, arguments.list or not is_waiting)
        (waiting if is_waiting else errors).update(counts)
        if arguments.count:
            print(f"{name}{' (waiting)' if is_waiting else ''}: {counts_line(counts)}")
    print(f"{len(names)} crates, {errors.total()} findings: {counts_line(errors)}; in crates that wait: {counts_line(waiting)}")
    sys.exit(1 if errors else 0)


if __name__ == "__main__":
    main()
