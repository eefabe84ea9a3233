"""Reads the files of definitions in a crate's specs/: each definition with its comment, below the comment of its section."""

import re
from dataclasses import dataclass, field

DEFINITION = re.compile(r"(?:\w+ )?pub (?:(?:record|data) )?(?P<name>[^\s:({]+)")
NO_DEFINITION = re.compile(r"pub (?:use|mod)\b")
OPENER = re.compile(r"infix[lr]? ")
MODULE = re.compile(r"module .*\bwhere$")
SECTION = re.compile(r"-- -{2,} *")
# A definition is shown whole if it has at most so many lines.
MOST_LINES = 2


@dataclass
class Definition:
    """A definition: its name, its comment, its lines without comments, and its parts that have a comment, as pairs."""

    name: str
    comment: str
    lines: list
    parts: list

    @property
    def is_short(self):
        return len(self.lines) <= MOST_LINES


@dataclass
class Section:
    """A section of a file: its title, or "" for what is before the first one, and its definitions."""

    title: str
    definitions: list = field(default_factory=list)


@dataclass
class SpecsFile:
    """A file of definitions: its path below specs/, its first comment, and its sections."""

    name: str
    comment: str
    sections: list


def read_file(folder, path):
    """Returns what a file defines. Its name is its path below the folder of definitions."""
    comment, sections = "", [Section("")]
    for number, chunk in enumerate(chunks_of(flat(path.read_text().splitlines()))):
        comments = [line for line in chunk if line.startswith("--")]
        definition = definition_of(chunk, len(comments))
        if definition:
            sections[-1].definitions.append(definition)
        elif number == 0:
            comment = comment_of(comments)
        elif len(comments) == len(chunk):
            sections.append(Section(comment_of(comments)))
    return SpecsFile(path.relative_to(folder).as_posix(), comment, [it for it in sections if it.definitions])


def flat(lines):
    """Returns the lines of a file with those in a `module .. where` as if they were outside of it."""
    found, is_inside = [], False
    for line in lines:
        if MODULE.match(line):
            is_inside = True
            found.append("")
            continue
        is_inside = is_inside and (not line.strip() or line.startswith("  "))
        found.append(line.removeprefix("  ") if is_inside else line)
    return found


def chunks_of(lines):
    """Returns the lines in groups: a definition or an import with the comment above it, or a comment alone."""
    found, chunk, has_code = [], [], False
    for line in lines:
        is_new = starts_chunk(line) and has_code
        if not line.strip() or is_new:
            found += [chunk] if chunk else []
            chunk, has_code = [], False
        if line.strip():
            chunk.append(line)
            has_code = has_code or not line.startswith("--") and not OPENER.match(line)
    return found + ([chunk] if chunk else [])


def starts_chunk(line):
    """Returns whether a line begins a definition, an import or a comment above one."""
    return line.startswith(("--", "use ")) or bool(OPENER.match(line) or DEFINITION.match(line))


def definition_of(chunk, count):
    """Returns the definition of a chunk whose first lines are so many lines of comment, or None if it has no public one."""
    lines = [line for line in chunk if not line.strip().startswith("--")]
    heads = [found for line in lines if (found := DEFINITION.match(line)) and not NO_DEFINITION.match(line)]
    if not heads:
        return None
    return Definition(heads[0]["name"], comment_of(chunk[:count]), lines, commented_parts(chunk[count:]))


def commented_parts(lines):
    """Returns the fields or cases of a definition that have a comment above them, each as its name and its comment."""
    parts, comment = [], []
    for line in lines:
        text = line.strip()
        if text.startswith("--") and line.startswith(" "):
            comment.append(text)
        elif comment:
            parts.append((text.removeprefix("pub ").split()[0], comment_of(comment)))
            comment = []
    return parts


def comment_of(lines):
    """Returns the text of a comment, with its paragraphs, without the marks."""
    return "\n".join(SECTION.sub("", line).removeprefix("--").removeprefix(" ") for line in lines)
