"""Writes the lists of crates in the documents, from crates.txt.

    tools/run ci/crate_lists            writes the generated blocks of README.md, CONTRIBUTING.md and docs/*.md
    tools/run ci/crate_lists --check    compares them instead, prints each block that differs, and exits with 1 if there is one
    tools/run ci/crate_lists --root FOLDER [--check]    does the same in another folder

A generated block begins with a line `<!-- generated: NAME -->` and ends with a line `<!-- end -->`. NAME is one of

    crates    each part of crates.txt, with links to the pages of its crates in docs/reference; for a document in docs/
    graph     the layers, highest first: each crate with the crates directly below it
    libraries the libraries of the kit that crates depend on, except for the parts of std

A part of crates.txt begins with a comment `# Part: NAME`, and the same name may occur again. A crate that the graph reaches through another
one is left out of that crate's line.
"""

import argparse
import difflib
import pathlib
import re
import sys
import textwrap

DOCUMENTS = ("README.md", "CONTRIBUTING.md", "docs/*.md")
BLOCK = re.compile(r"^<!-- generated: (\w+) -->\n(.*?)^<!-- end -->$", re.MULTILINE | re.DOTALL)
PART = "# Part:"
TESTS = "Tests"
# Parts of the standard library. A crate lists those whose lemmas its proofs cite.
STD = ("core", "std_alloc", "std_collections", "std_heap", "std_io")
WIDTH = 100


class Crate:
    """One crate: its name, its part, and what it depends on."""

    def __init__(self, name, part, dependencies):
        self.name, self.part, self.dependencies = name, part, dependencies
        self.libraries = []


def read_crates(root):
    """Returns the crates of crates.txt by name, in the order of the file."""
    crates, part = {}, None
    for line in (root / "crates.txt").read_text().splitlines():
        if line.startswith(PART):
            part = line.removeprefix(PART).strip()
        if not line.strip() or line.startswith("#"):
            continue
        name, _, rest = line.partition(":")
        if part is None:
            sys.exit(f"crates.txt: {name} has no part")
        crates[name.split()[0]] = Crate(name.split()[0], part, rest.split())
    for crate in crates.values():
        # A name that crates.txt has no line for is a library of the kit.
        crate.libraries = [name for name in crate.dependencies if name not in crates]
        crate.dependencies = [name for name in crate.dependencies if name in crates]
    return crates


def parts_of(crates):
    """Returns the crates of each part: the parts in the order in which they occur first, and tests last."""
    parts = {}
    for crate in sorted(crates.values(), key=lambda crate: crate.part == TESTS):
        parts.setdefault(crate.part, []).append(crate)
    return parts


def below(crates, name):
    """Returns all crates that a crate depends on, directly or through others."""
    found = set(crates[name].dependencies)
    for dependency in crates[name].dependencies:
        found |= below(crates, dependency)
    return found


def nearest(crates, name):
    """Returns the crates that a crate depends on and that no other one of them depends on."""
    indirect = {lower for dependency in crates[name].dependencies for lower in below(crates, dependency)}
    return [dependency for dependency in crates[name].dependencies if dependency not in indirect]


def layer_of(crates, name):
    """Returns the layer of a crate: 1, or one more than the highest layer below it."""
    return 1 + max((layer_of(crates, dependency) for dependency in crates[name].dependencies), default=0)


def item(text):
    """Returns an item of a list, wrapped. A code span stays on one line."""
    text = re.sub("`[^`]*`", lambda span: span[0].replace(" ", "\0"), text)
    lines = textwrap.wrap(text, WIDTH, initial_indent="- ", subsequent_indent="  ", break_long_words=False, break_on_hyphens=False)
    return [line.replace("\0", " ") for line in lines]


def crates_block(crates):
    """Returns each part with links to the pages of its crates."""
    return [line for part, members in parts_of(crates).items()
            for line in item(f"{part}: " + ", ".join(f"[{crate.name}](reference/{crate.name}.md)" for crate in members))]


def graph_block(crates):
    """Returns the layers, highest first, as lines of a code block."""
    width = max(map(len, crates))
    layers = {}
    for name in crates:
        layers.setdefault(layer_of(crates, name), []).append(name)
    lines = ["```"]
    for layer in sorted(layers, reverse=True):
        for at, name in enumerate(layers[layer]):
            head = f"{layer if at == 0 else '':>2}  {name:<{width}}"
            arrow = f"{head} → "
            text = " ".join(nearest(crates, name))
            lines += textwrap.wrap(text, WIDTH, initial_indent=arrow, subsequent_indent=" " * len(arrow)) if text else [head.rstrip()]
    return [*lines, "```"]


def libraries_block(crates):
    """Returns the names of all libraries of the kit that crates depend on, except for the parts of std."""
    names = sorted({name for crate in crates.values() for name in crate.libraries} - {*STD})
    return textwrap.wrap(", ".join(f"`{name}`" for name in names), WIDTH)


BLOCKS = {"crates": crates_block, "graph": graph_block, "libraries": libraries_block}


def generated(crates, text):
    """Returns a document with its generated blocks as they are to be."""

    def block(match):
        if match[1] not in BLOCKS:
            sys.exit(f"there is no block {match[1]}: it is one of " + ", ".join(BLOCKS))
        lines = BLOCKS[match[1]](crates)
        return "\n".join([f"<!-- generated: {match[1]} -->", "", *lines, "", "<!-- end -->"])

    return BLOCK.sub(block, text)


def main():
    parser = argparse.ArgumentParser(description=__doc__, formatter_class=argparse.RawDescriptionHelpFormatter)
    parser.add_argument("--check", action="store_true", help="compare, and write nothing")
    parser.add_argument("--root", type=pathlib.Path, default=pathlib.Path(__file__).resolve().parents[2], help="the repository")
    options = parser.parse_args()
    crates, differs = read_crates(options.root), False
    for path in sorted({path for pattern in DOCUMENTS for path in options.root.glob(pattern)}):
        text = path.read_text()
        new = generated(crates, text)
        if new != text and options.check:
            name = str(path.relative_to(options.root))
            print(*difflib.unified_diff(text.splitlines(), new.splitlines(), name, name + " as generated", lineterm="", n=1), sep="\n")
            differs = True
        elif new != text:
            path.write_text(new)
    if differs:
        sys.exit("the lists differ: run tools/run ci/crate_lists")


if __name__ == "__main__":
    main()
