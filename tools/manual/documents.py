"""Translates parts of the documents to the Markdown of a manual page."""

import re
from itertools import groupby

from tools.prose.markdown import anchor_of, cells_of

from .faults import NoPage

# What a link whose text is the name of a document becomes, and the documents whose sections the pages have.
PAGES = {"FORMATS.md": "**plant_script**(1)", "OPERATING.md": "**plant_script-serve**(1)"}
ON_PAGES = ("docs/FORMATS.md", "docs/OPERATING.md")
SPECIAL = re.compile(r"([\\`*_{}\[\]<>()#+.!|~^$@\"'-])")


def section(root, place):
    """Returns the lines below a heading, with the headings below it one level below a heading of a page. A place is `file#anchor`."""
    name, _, anchor = place.partition("#")
    lines, level = [], 0
    for line in lines_with_fences((root / name).read_text()):
        marks = heading_level(line)
        if level and marks and marks <= level:
            break
        if level:
            lines.append("#" * (marks - level + 1) + line[marks:] if marks else line)
        elif marks and anchor_of(line.lstrip("#").strip()) == anchor:
            level = marks
    if not level:
        raise NoPage(f"{name} has no heading {anchor}")
    return lines


def lines_with_fences(text):
    """Yields the lines of a document. Those of a fenced block are indented, so that no line of it looks like a heading."""
    is_fenced = False
    for line in text.splitlines():
        if line.startswith("```"):
            is_fenced = not is_fenced
            yield ""
        else:
            yield "    " + line if is_fenced else line


def heading_level(line):
    found = re.match("(#+) ", line)
    return len(found[1]) if found else 0


def without_subsections(lines):
    """Returns the lines before the first heading."""
    return lines[:next((place for place, line in enumerate(lines) if heading_level(line)), len(lines))]


def for_page(lines):
    """Returns lines as a page has them: links become texts, code spans bold, and tables lists of definitions."""
    done = []
    for kind, group in groupby(lines, kind_of):
        group = list(group)
        if kind == "table":
            rows = [cells_of(line) for line in group]
            done += definitions([[inline(cell.strip()) for cell in row] for row in rows if row])
        else:
            done += group if kind == "code" else inline("\n".join(group)).split("\n")
    return done


def kind_of(line):
    if line.startswith("|"):
        return "table"
    return "code" if line.startswith("    ") else "blank" if not line else "prose"


def inline(text):
    """Returns a line without links, and with bold text in the place of code spans."""
    text = re.sub(r"\[([^\]]*)\]\(([^)]*)\)", linked, text)
    return re.sub("`([^`]+)`", lambda found: bold(found[1]), text)


def linked(found):
    """Returns what is printed of a link: its text, with the document that it leads to unless the pages have that."""
    text, target = found.groups()
    name = "docs/" + target.partition("#")[0].removeprefix("docs/")
    if re.fullmatch(r"[A-Z]+\.md", text):
        return PAGES.get(text, bold(name))
    return text if not name.endswith(".md") or name in ON_PAGES or ".." in name else f"{text} ({bold(name)})"


def bold(text):
    return "**" + SPECIAL.sub(r"\\\1", text.strip()) + "**"


def definitions(rows):
    """Returns a table as a list of definitions, since a page is narrow. The first row is the head, the first column has the terms."""
    head, *rows = rows
    if not head[0]:
        head, rows = head[1:], [[f"{first} {second}", *rest] for first, second, *rest in rows]
    main = max(range(1, len(head)), key=lambda column: max(len(row[column]) for row in rows))
    return [line for row in rows for line in (row[0], f":   {definition(head, row, main)}", "")]


def definition(head, row, main):
    """Returns what a row says of its term: its cells with their heads if there are many, or else the main one and what else there is."""
    others = "; ".join(f"{name}: {cell}" for column, (name, cell) in enumerate(zip(head, row)) if cell and column and (column != main or len(row) > 3))
    return others if len(row) > 3 else row[main] + (f" ({others})" if others else "")
