"""Splits a Markdown document into prose, table cells and code."""

import re
from dataclasses import dataclass, field

# The characters that replace a code span in a text: one that names a command of the program, and any other.
COMMAND, CODE = "\N{SYMBOL FOR START OF TEXT}", "\N{SYMBOL FOR NULL}"
COMMANDS = ("one", "check", "run", "threads", "capture", "serve", "trace", "history")
ITEM = re.compile(r"\s*(?:[-*]|\d+\.) ")


@dataclass
class Document:
    """The parts of a document, each with the number of its first line."""
    prose_lines: list = field(default_factory=list)
    paragraphs: list = field(default_factory=list)
    headings: list = field(default_factory=list)
    cells: list = field(default_factory=list)
    code_lines: list = field(default_factory=list)


class Splitter:
    """Reads a document line by line."""

    def __init__(self):
        self.document = Document()
        self.paragraph = []
        self.start = 0
        self.fenced = False
        self.after_code_or_blank = True

    def end_paragraph(self):
        """Stores the paragraph that was being read."""
        if self.paragraph:
            self.document.paragraphs.append((self.start, " ".join(self.paragraph)))
        self.paragraph = []

    def read_line(self, number, line):
        """Adds one line to the part that it belongs to."""
        if line.startswith("```"):
            self.end_paragraph()
            self.fenced = not self.fenced
        elif self.fenced or (line.startswith("    ") and self.after_code_or_blank):
            self.end_paragraph()
            self.document.code_lines.append((number, line))
            self.after_code_or_blank = True
            return
        elif not line.strip():
            self.end_paragraph()
        else:
            self.read_prose(number, line)
            self.after_code_or_blank = False
            return
        self.after_code_or_blank = True

    def read_prose(self, number, line):
        """Adds a line that is neither blank nor code."""
        if line.startswith("|"):
            self.end_paragraph()
            self.document.cells += [(number, cell.strip()) for cell in cells_of(line)]
            return
        self.document.prose_lines.append((number, line))
        if line.startswith("#"):
            self.end_paragraph()
            self.document.headings.append((number, line.lstrip("#").strip()))
            return
        item = ITEM.match(line)
        if item:
            self.end_paragraph()
            line = line[item.end():]
        if not self.paragraph:
            self.start = number
        self.paragraph.append(line.strip())


def split_document(text):
    """Returns the parts of a document."""
    splitter = Splitter()
    for number, line in enumerate(text.splitlines(), 1):
        splitter.read_line(number, line)
    splitter.end_paragraph()
    return splitter.document


def cells_of(line):
    """Returns the cells of a table row, or none for the line below its head."""
    if re.fullmatch(r"\|(?:\s*:?-+:?\s*\|)+\s*", line):
        return []
    spans = re.findall("`[^`]*`", line)
    cells = re.sub("`[^`]*`", CODE, line).strip().strip("|").split("|")
    rest = iter(spans)
    return [re.sub(CODE, lambda _: next(rest), cell) for cell in cells]


def plain(text):
    """Returns the words of a text: a code span becomes COMMAND or CODE, a link or an image its text."""
    text = re.sub("`([^`]*)`", lambda span: COMMAND if span.group(1).split(" ")[-1] in COMMANDS else CODE, text)
    return re.sub(r"!?\[([^\]]*)\]\([^)]*\)", r"\1", text)


def links_of(text):
    """Returns the targets of the links and images of a text."""
    return re.findall(r"\[[^\]]*\]\(([^)\s]*)\)", re.sub("`[^`]*`", CODE, text))


def anchor_of(heading):
    """Returns the anchor that a heading gets."""
    heading = re.sub(r"[^\w\- ]", "", re.sub(r"\[([^\]]*)\]\([^)]*\)", r"\1", heading).lower())
    return heading.replace(" ", "-")
