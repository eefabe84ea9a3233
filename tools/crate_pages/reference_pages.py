"""Writes docs/reference: a page for each crate of crates.txt, from its sources alone, and a list of the pages.

    tools/run reference_pages                    writes the pages, and removes those of crates that are gone
    tools/run reference_pages --check            compares the pages with the sources, and exits with 1 if one differs
    tools/run reference_pages --root FOLDER ..   does the same in another folder

A page has what the crate makes public: its types, traits, functions and constants with their signatures, doc comments and clauses, its laws,
its definitions, and its edits that must fail. A clause is shown by the comment `//` above it. Without one it is shown by its text if that has
at most 100 columns, else by its name alone. A definition is shown by its comment, and by its text if that has one or two lines. A law is a
public function whose body does nothing.
"""

import argparse
import pathlib
import re
import sys
from dataclasses import dataclass

from tools import ROOT
from tools.ci.edit_files import FOLDERS, WrongEdit, lines_of
from tools.proving.prover import crates_of

from .crate_items import read_crate
from .definitions import read_file
from .page_text import MARK, page, squeezed, wrapped
from .source_items import WrongSource, doc_of_file

FOLDER = "docs/reference"
PART, TESTS = "# Part:", "Tests"
ABOUT = """\
One page for each crate, with what it makes public, its definitions and its edits that must fail. [ARCHITECTURE](../ARCHITECTURE.md) says how
the crates depend on each other, and [THEOREM](../THEOREM.md) what is proved and how to read the definitions.

- A heading links to its source.
- `requires` is what a caller has to keep, and `ensures` what is proved of the call. `ghost` is what contracts see of a type (`Value`, `view`),
  what a type keeps, or what each type that implements a trait has to define.
- A clause is shown by the comment above it. Without a comment it is shown by its text, or by its name if the text is long.
- A law is a theorem: a function that does nothing.
- A definition is shown by its comment, and by its text if that has one or two lines.
- An edit is shown by its name. It is a wrong change of the file before it, which the prover has to refuse.
"""


@dataclass(frozen=True)
class Crate:
    """What the page of a crate is made of: its dependencies, what it makes public, its files of definitions, and its edits by their folders."""

    name: str
    dependencies: list
    public: object
    specs: list
    edits: dict


def parts_of(root):
    """Returns the names of the crates in each part of crates.txt. The part of tests is the last one."""
    parts, part = {}, ""
    for line in (root / "crates.txt").read_text().splitlines():
        if line.startswith(PART):
            part = line.removeprefix(PART).strip()
        elif line.strip() and not line.startswith("#"):
            parts.setdefault(part, []).append(line.partition(":")[0].split()[0])
    return dict(sorted(parts.items(), key=lambda it: it[0] == TESTS))


def edits_of(folder):
    """Returns the edits in each folder of a crate, as pairs of a name and the files that the edit changes."""
    found = {}
    for name in FOLDERS:
        for path in sorted((folder / name).glob("*.edit")):
            files = tuple(dict.fromkeys(text for kind, text in lines_of(path) if kind == "file"))
            found.setdefault(name, []).append((path.stem, files))
    return found


def specs_of(folder):
    """Returns the files of definitions of a crate that have any, by their names."""
    files = [read_file(folder / "specs", path) for path in sorted((folder / "specs").rglob("*.antt"))]
    return [file for file in files if file.sections]


def summary_of(folder):
    """Returns the first sentence of a crate's doc comment."""
    path = next((path for path in (folder / "src/lib.rt", folder / "src/main.rt") if path.exists()), None)
    sentence = re.match(r"(.+?\.)(?:\s|$)", " ".join(doc_of_file(path.read_text()).split())) if path else None
    if not sentence:
        raise WrongSource(f"crates/{folder.name}: the source has no doc comment `//!` with a sentence")
    return sentence[1]


def index(root):
    """Returns the list of the pages, part by part."""
    lines = ["# Reference", "", MARK, ""]
    for paragraph in ABOUT.strip().split("\n\n"):
        for block in re.split(r"\n(?=- )", paragraph):
            lines += wrapped(block, rest="  " if block.startswith("- ") else "")
        lines.append("")
    for part, names in parts_of(root).items():
        lines += ["", f"## {part}", ""]
        for name in names:
            lines += wrapped(f"- [{name}]({name}.md): {summary_of(root / 'crates' / name)}", rest="  ")
    return squeezed(lines)


def read(root, name, dependencies):
    """Returns what the page of a crate is made of."""
    folder = root / "crates" / name
    return Crate(name, dependencies, read_crate(folder), specs_of(folder), edits_of(folder))


def pages_of(root):
    """Returns the text of each page by the name of its file."""
    crates = {name: read(root, name, dependencies) for name, dependencies in crates_of(root).items()}
    return {"README.md": index(root), **{f"{name}.md": page(crate, crates) for name, crate in crates.items()}}


def differences(root, pages):
    """Returns what is wrong with the pages that are there, a line for each."""
    found = []
    for name, text in sorted(pages.items()):
        path = root / FOLDER / name
        if not path.exists():
            found.append(f"{FOLDER}/{name} is not there; tools/run reference_pages writes it")
        elif (there := path.read_text()) != text:
            line = first_difference(there.splitlines(), text.splitlines())
            found.append(f"{FOLDER}/{name} differs from the sources in line {line}; tools/run reference_pages writes it anew")
    for path in sorted((root / FOLDER).glob("*")):
        if path.name not in pages:
            found.append(f"{FOLDER}/{path.name} is a page of no crate; tools/run reference_pages removes it")
    return found


def first_difference(there, wanted):
    """Returns the number of the first line in which two lists of lines differ."""
    pairs = zip([*there, None], [*wanted, None])
    return next((number for number, (one, other) in enumerate(pairs, 1) if one != other), 1)


def write(root, pages):
    """Writes the pages, and removes those that were written for crates that are gone."""
    folder = root / FOLDER
    folder.mkdir(parents=True, exist_ok=True)
    for name, text in pages.items():
        (folder / name).write_text(text)
    for path in sorted(folder.glob("*")):
        if path.name not in pages:
            if MARK not in path.read_text():
                raise WrongSource(f"{FOLDER}/{path.name} is not written by tools/run reference_pages; move it to another folder")
            path.unlink()


def main(arguments=None):
    parser = argparse.ArgumentParser("reference_pages", description=__doc__, formatter_class=argparse.RawDescriptionHelpFormatter)
    parser.add_argument("--check", action="store_true", help="compare, and write nothing")
    parser.add_argument("--root", type=pathlib.Path, default=ROOT, metavar="FOLDER", help="the repository")
    options = parser.parse_args(arguments)
    try:
        pages = pages_of(options.root)
        if options.check:
            found = differences(options.root, pages)
            print(*found, sep="\n", end="\n" * bool(found))
            sys.exit(1 if found else 0)
        write(options.root, pages)
    except (WrongEdit, WrongSource) as error:
        sys.exit(f"reference_pages: {error}")


if __name__ == "__main__":
    main()
