"""Checks a document: words, sentences, lines, cells, links and names of files."""

import functools
import re
from dataclasses import dataclass

from .markdown import CODE, COMMAND, anchor_of, links_of, plain, split_document
from .words import crossed_out

MOST_COLUMNS, MOST_WORDS_OF_CELL = 100, 12
MOST_WORDS = 35
# The documents that have another limit of words in a sentence.
MOST_WORDS_OF = {"README.md": 30, "docs/ARCHITECTURE.md": 25, "docs/THEOREM.md": 25}
END_OF_SENTENCE = re.compile(r"(?<=[.!?])[\"')*]*\s+(?=[\"'(*]*[A-Z\d" + CODE + COMMAND + "])")
# The folder of the pages that tools/run reference_pages writes. Their words and sentences are those of comments in the sources.
GENERATED = "docs/reference/"
# A line that is one code span, perhaps as an item of a list: nothing of it can go to the next line.
CODE_LINE = re.compile(r"\s*(?:[-*] )?`[^`]*`")
# The documents that name definitions, functions and clauses, and the code spans that do so.
NAMING = ("docs/ARCHITECTURE.md", "docs/THEOREM.md")
NAMES = re.compile(r"[A-Za-z_]\w*(?:(?:::| )\w+)*")
# A path of the repository, from its root, and a document named alone.
PATH = re.compile(r"(?<![\w./-])(?:\./)?((?:docs|packaging|service|tools|crates|examples|tests|\.ci)/[\w./*-]*[\w*])")
DOCUMENT = re.compile(r"(?<![\w./-])([A-Z][A-Z-]*\.md)\b")


@dataclass(frozen=True)
class Finding:
    """One thing that is wrong in a document."""
    line: int
    kind: str
    message: str


def findings_of(root, path):
    """Returns what is wrong in a document, in the order of its lines."""
    document = split_document(path.read_text())
    name = str(path.relative_to(root)) if path.is_relative_to(root) else ""
    most_words = MOST_WORDS_OF.get(name, MOST_WORDS)
    found = [
        *line_findings(document), *cell_findings(document), *link_findings(document, path), *file_findings(document, root, path),
        *(name_findings(document, root) if name in NAMING else ()),
    ]  # fmt: skip
    if not name.startswith(GENERATED):
        found += [*word_findings(document), *sentence_findings(document, most_words)]
    return sorted(found, key=lambda finding: finding.line)


def texts(document):
    """Returns all texts that are prose: headings, paragraphs and cells."""
    return document.headings + document.paragraphs + document.cells


def shown(text):
    """Returns a text in which code spans can be seen."""
    return re.sub(f"[{CODE}{COMMAND}]", "`..`", text)


def word_findings(document):
    for line, text in texts(document):
        for word, instead in crossed_out(plain(text)):
            yield Finding(line, "word", f"'{shown(word)}': write {instead}")


def count_words(text):
    return sum(1 for word in text.split() if re.search(rf"[\w{CODE}{COMMAND}]", word))


def sentence_findings(document, most_words):
    for line, text in document.paragraphs:
        for sentence in END_OF_SENTENCE.split(plain(text)):
            count = count_words(sentence)
            if count > most_words:
                yield Finding(line, "sentence", f"{count} words, at most {most_words}: {shown(sentence[:60])} ..")


def line_findings(document):
    for number, line in document.prose_lines:
        if len(line) > MOST_COLUMNS and not CODE_LINE.fullmatch(line):
            yield Finding(number, "line", f"{len(line)} columns, at most {MOST_COLUMNS}")


def cell_findings(document):
    for line, text in document.cells:
        count = count_words(plain(text))
        if count > MOST_WORDS_OF_CELL:
            yield Finding(line, "cell", f"{count} words, at most {MOST_WORDS_OF_CELL}: {text[:60]} ..")


def link_findings(document, path):
    for line, text in texts(document):
        for target in links_of(text):
            if not re.match("[a-z]+:", target) and not is_link(path, target):
                yield Finding(line, "link", f"{target} leads nowhere")


def is_link(path, target):
    """Tests whether a relative link leads to a file, and to one of its headings if it names one."""
    name, _, anchor = target.partition("#")
    file = path.parent / name if name else path
    if not file.exists():
        return False
    return not anchor or anchor in anchors_in(file.read_text())


@functools.cache
def anchors_in(text):
    """Returns the anchors of a document's headings."""
    return {anchor_of(heading) for _, heading in split_document(text).headings}


def file_findings(document, root, path):
    for line, text in texts(document) + document.code_lines:
        text = re.sub(r"\]\([^)]*\)", "]", text)
        for name in PATH.findall(text):
            if "/out/" not in name and not any(root.glob(name)):
                yield Finding(line, "file", f"there is no {name}")
        for name in DOCUMENT.findall(text):
            if not any((folder / name).exists() for folder in (root, root / "docs", path.parent)):
                yield Finding(line, "file", f"there is no {name}")


def names_of_crates(root):
    """Returns all words of the crates' sources and definitions, and the names of crates and of their files."""
    names = {path.name for path in root.iterdir()}
    for path in [*root.glob("crates/*"), *root.glob("crates/*/*"), *root.glob("crates/*/specs/**/*"), *root.glob("crates/*/src/**/*")]:
        names |= {path.name, path.stem}
        if path.suffix in (".rt", ".antt"):
            names.update(re.findall(r"\w+", path.read_text()))
    return names


def name_findings(document, root):
    known = names_of_crates(root)
    for line, text in texts(document):
        for span in re.findall("`([^`]*)`", text):
            if NAMES.fullmatch(span):
                for name in re.findall(r"\w+", span):
                    if name not in known:
                        yield Finding(line, "name", f"no crate has {name}")
