"""Counts the clauses of contracts in the crates and those that are wide, and exits with 1 if too many are.

    tools/run ci/clause_widths [--most N] [--list] [--joined] [FOLDER..]

A clause is the text in the braces of `requires`, `ensures` or `ghost` in a .rt file. Its width is that of its widest line, and a second
count has the width of the clause joined to one line. Too many are wide if more than N have a line over 160 columns; N is 0 by default.

FOLDER is the folder of a crate; all crates by default. --list prints each clause with a line over 160 columns, --joined each that is over
160 columns on one line.
"""

import argparse
import pathlib
import re
import sys

ROOT = pathlib.Path(__file__).resolve().parents[2]
WIDE, TOO_WIDE = 120, 160
# The word, perhaps a name with a type or `=`, and the brace that opens the clause. The braces of `ghost use` have no clause.
HEAD = re.compile(r"^[ \t]*(?:requires|ensures|ghost(?! use\b))\b[^{}\n;]*\{", re.MULTILINE)


def clauses(text):
    """Yields of each clause the number of its first line, the widest of its lines, and its text on one line."""
    for head in HEAD.finditer(text):
        depth, end = 1, head.end()
        while depth and end < len(text):
            depth += {"{": 1, "}": -1}.get(text[end], 0)
            end += 1
        lines = text[head.start():end].split("\n")
        yield text.count("\n", 0, head.start()) + 1, max(map(len, lines)), " ".join(text[head.end():end - 1].split())


def counts(widths):
    wide = sum(width > WIDE for width in widths)
    return f"{wide} over {WIDE} columns ({100 * wide / max(len(widths), 1):.1f} %), {sum(width > TOO_WIDE for width in widths)} over {TOO_WIDE}"


def main():
    parser = argparse.ArgumentParser("clause_widths", description=__doc__, formatter_class=argparse.RawDescriptionHelpFormatter)
    parser.add_argument("--most", type=int, default=0)
    parser.add_argument("--list", action="store_true")
    parser.add_argument("--joined", action="store_true")
    parser.add_argument("folders", nargs="*", type=pathlib.Path)
    options = parser.parse_args()
    laid_out, joined = [], []
    for path in (path for folder in options.folders or sorted((ROOT / "crates").iterdir()) for path in sorted(folder.glob("src/**/*.rt"))):
        for line, width, clause in clauses(path.read_text(encoding="utf-8")):
            laid_out.append(width)
            joined.append(len(clause))
            if options.list and width > TOO_WIDE or options.joined and len(clause) > TOO_WIDE:
                print(f"{path}:{line}: {width} columns, {len(clause)} on one line: {clause}")
    print(f"{len(laid_out)} clauses as they are laid out: {counts(laid_out)}")
    print(f"joined to one line each: {counts(joined)}")
    return 1 if not laid_out or sum(width > TOO_WIDE for width in laid_out) > options.most else 0


if __name__ == "__main__":
    sys.exit(main())
