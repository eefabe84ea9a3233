"""Writes the page of a crate in Markdown."""

import re
import textwrap

from tools.prose.markdown import anchor_of

from .crate_items import TYPES

WIDTH = 100
# A clause without a comment is shown by its text if that has at most so many columns.
WIDEST_CLAUSE = 100
MARK = "<!-- Written by tools/run reference_pages from the sources. Do not edit. -->"
ITEM = re.compile(r"[-*] |\d+\. ")
SPAN = re.compile("`[^`]*`")
# Of each folder of edits, when they are tried.
FOLDERS = (("edits", "Tried at each run of CI"), ("must-fail", "Tried by `rt ci` and at each run of CI"),
           ("edits/more", "Tried in turn, one eighth at each run of CI"))


def wrapped(text, first="", rest=""):
    """Returns a text as lines of at most 100 columns. A code span stays on one line."""
    text = SPAN.sub(lambda span: span[0].replace(" ", "\0"), " ".join(text.split()))
    lines = textwrap.wrap(text, WIDTH, initial_indent=first, subsequent_indent=rest, break_long_words=False, break_on_hyphens=False)
    return [line.replace("\0", " ") for line in lines]


def prose(text):
    """Returns the lines of a comment: paragraphs and lists are wrapped, and code stays as it is."""
    lines, block = [], []

    def end_block():
        if block:
            mark = ITEM.match(block[0])
            first = mark[0] if mark else ""
            lines.extend(wrapped(" ".join(block)[len(first):], first, " " * len(first)))
            block.clear()

    is_fenced = False
    for line in text.splitlines():
        is_fence = line.startswith("```")
        if is_fence or is_fenced or line.startswith("    "):
            end_block()
            lines.append(line)
            is_fenced = is_fenced != is_fence
        elif not line.strip():
            end_block()
            lines.append("")
        else:
            if ITEM.match(line):
                end_block()
            block.append(line.strip())
    end_block()
    return lines


def code(*lines):
    return ["", *("    " + line for line in lines), ""]


def heading(level, name, crate, file):
    return f"{'#' * level} [`{name}`](../../crates/{crate}/{file})"


def clause_lines(clause):
    """Returns a clause: its kind, its name, and its comment, or its text if that is short. One that has none of these is in the source."""
    head = f"- {clause.kind}" + (f" `{clause.name}`" if clause.name else "")
    said = clause.comment or (f"`{clause.text}`" if len(clause.text) <= WIDEST_CLAUSE else "" if clause.name else "in the source")
    return wrapped(f"{head}: {said}" if said else head, rest="  ")


def call_lines(level, name, crate, item):
    """Returns a function or a constant: its heading, its signature, its doc comment and its clauses. A long value of a constant is left out."""
    is_long = item.kind in ("const", "static") and len(item.signature) > WIDTH
    signature = item.signature.partition(" = ")[0] if is_long else item.signature
    lines = ["", heading(level, name, crate, item.file), *code(signature), *prose(item.doc)]
    clauses = [line for clause in item.clauses for line in clause_lines(clause)]
    return [*lines, *([""] if clauses and item.doc else []), *clauses]


def member_lines(item):
    """Returns a field or a variant of a type, or a constant or a method of its trait."""
    return wrapped(f"- `{item.signature}`" + (f": {item.doc}" if item.doc else ""), rest="  ")


def type_lines(crate, public):
    """Returns a type: its signature, its doc comment, its fields or variants, what contracts see of it, its traits and its methods."""
    item = public.item
    lines = ["", heading(3, public.path, crate, item.file), *code(item.signature), *prose(item.doc)]
    parts = [line for member in item.members if member.kind in ("field", "variant") for line in member_lines(member)]
    parts += [line for clause in [*public.model, *item.clauses] for line in clause_lines(clause)]
    if public.traits:
        parts += wrapped("- implements " + ", ".join(f"`{name}`" for name in sorted(set(public.traits))), rest="  ")
    lines += [*([""] if parts and item.doc else []), *parts]
    for method in sorted(public.methods, key=lambda it: (it.kind == "fn", it.name)):
        lines += call_lines(4, f"{public.path}::{method.name}", crate, method)
    return lines


def trait_lines(crate, public):
    """Returns a trait: its signature, its doc comment, its ghosts and its methods."""
    lines = type_lines(crate, public)
    for method in sorted((it for it in public.item.members if it.kind == "fn"), key=lambda it: it.name):
        lines += call_lines(4, f"{public.path}::{method.name}", crate, method)
    return lines


def definition_lines(definition):
    """Returns a definition: its name, its comment, and its text if that is short, else its parts that have a comment."""
    lines = wrapped(f"- `{definition.name}`" + (f": {definition.comment}" if definition.comment else ""), rest="  ")
    if definition.is_short:
        return [*lines, "", *("      " + line for line in definition.lines), ""]
    for name, comment in definition.parts:
        lines += wrapped(f"- `{name}`: {comment}", "  ", "    ")
    return lines


def specs_lines(crate, file):
    """Returns the definitions of a file, section by section."""
    lines = ["", heading(3, file.name, crate, f"specs/{file.name}"), "", *prose(file.comment)]
    for section in file.sections:
        lines += ["", *([f"**{section.title}**", ""] if section.title else [])]
        for definition in section.definitions:
            lines += definition_lines(definition)
    return lines


def edit_lines(edits):
    """Returns the edits of a crate by their folders, each as words after the files that it changes."""
    lines = []
    for folder, when in FOLDERS:
        by_file = {}
        for name, files in edits.get(folder, ()):
            by_file.setdefault(files, []).append(name.replace("_", " "))
        if by_file:
            lines += ["", f"{when} (`{folder}/`):", ""]
        for files, names in sorted(by_file.items()):
            lines += wrapped(f"- {', '.join(f'`{file}`' for file in files)}: {'; '.join(sorted(names))}", rest="  ")
    return lines


def chapter(title, parts):
    """Returns a chapter with these parts, or nothing if there are none."""
    return ["", f"## {title}", *(line for part in parts for line in part)] if parts else []


def needs_lines(crate, crates):
    """Returns what a crate depends on: links to crates, and the names of libraries."""
    links = [f"[{name}]({name}.md)" if name in crates else f"`{name}`" for name in crate.dependencies]
    return wrapped("Depends on " + ", ".join(links) + "." if links else "Depends on no other crate.")


def other_lines(other, path, crates):
    """Returns what a crate re-exports from another one, with a link to its page."""
    if other not in crates:
        return wrapped(f"- `{path}` of `{other}`", rest="  ")
    is_there = any(it.path == path for it in crates[other].public.items)
    return wrapped(f"- `{path}` of [{other}]({other}.md{'#' + anchor_of(path) if is_there else ''})", rest="  ")


def page(crate, crates):
    """Returns the page of a crate."""
    items = sorted(crate.public.items, key=lambda it: (it.path.lower(), it.path))
    laws = [it for it in items if it.item.is_empty and it.item.clauses]

    def of_kinds(*kinds):
        return [it for it in items if it.item.kind in kinds and it not in laws]

    def calls(title, items):
        return chapter(title, [call_lines(3, it.path, crate.name, it.item) for it in items])

    others = [line for it in crate.public.from_others for line in other_lines(*it, crates)]
    chapters = [
        *chapter("Types", [type_lines(crate.name, it) for it in of_kinds(*TYPES)]),
        *chapter("Traits", [trait_lines(crate.name, it) for it in of_kinds("trait")]),
        *calls("Functions", of_kinds("fn")),
        *calls("Constants", of_kinds("const", "static")),
        *calls("Laws", laws),
        *chapter("From other crates", [["", *others]] if others else []),
        *chapter("Definitions", [specs_lines(crate.name, file) for file in crate.specs]),
        *chapter("Edits that must fail", [edit_lines(crate.edits)] if crate.edits else []),
    ]
    head = [f"# {crate.name}", "", MARK, "", *prose(crate.public.doc), "", *needs_lines(crate, crates)]
    return squeezed([*head, *(chapters or ["", "It makes nothing public."])])


def squeezed(lines):
    """Returns the lines as a text, with one blank line where there are several."""
    return re.sub(r"\n{3,}", "\n\n", "\n".join(lines).strip() + "\n")
