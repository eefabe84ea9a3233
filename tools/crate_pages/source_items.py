"""Reads the items of a source file, each with its doc comment, its signature on one line, and its clauses."""

import re
from dataclasses import dataclass, field

from tools.proving.functions import HIDDEN, end_of_block, plain

HEAD = re.compile(
    r"(?P<public>pub(?P<limit>\s*\([^)]*\))?\s+)?(?:(?:const|unsafe|extern)\s+(?=(?:unsafe\s+|extern\s+)*fn\b))*"
    r"(?P<kind>fn|struct|enum|union|trait|impl|mod|use|type|const|static|ghost|macro_rules)\b!?\s*(?P<name>\w+)?"
)  # fmt: skip
CLAUSE = re.compile(r"\s*(?P<kind>requires|ensures|ghost)\b\s*(?P<name>\w+)?\s*[:=]?\s*(?=\{)")
FIELD = re.compile(r"(?P<public>pub(?P<limit>\s*\([^)]*\))?\s+)?(?P<ghost>ghost\s+)?(?P<name>\w+)\s*:")
# A parameter that only the body sees as mutable.
MUTABLE = re.compile(r"(\(|, )mut (?=\w+:|self\b)")
PARTS = re.compile(r"[-=]>|[()\[\]{<>,]")
SPACE = re.compile(r"\s*")
# Kinds of items that end with a block, or with `;` if they have none.
WITH_BLOCK = ("struct", "enum", "union", "trait", "impl", "mod", "macro_rules")
# Kinds of items whose block has items.
SCOPES = ("trait", "impl")
BRACKETS = {"(": 1, "[": 1, "{": 1, ")": -1, "]": -1, "}": -1}


class WrongSource(Exception):
    """A source that cannot be read."""


@dataclass
class Clause:
    """A clause: its kind (`requires`, `ensures` or `ghost`), its name or "", the comment above it, and its text on one line."""

    kind: str
    name: str
    comment: str
    text: str


@dataclass
class Item:
    """An item: its kind and name, its doc comment, its signature on one line, its clauses, and what it has inside.

    An item of the kind `field` or `variant` is a member of a type. An `impl` has its header as signature. `is_empty` says of a function that
    its body does nothing.
    """

    kind: str
    name: str
    file: str
    is_public: bool
    doc: str
    signature: str
    clauses: list = field(default_factory=list)
    members: list = field(default_factory=list)
    derives: list = field(default_factory=list)
    is_empty: bool = False


@dataclass
class Source:
    """A source file: its path in the crate, its text, and the text of the same length with comments and strings blanked."""

    file: str
    text: str
    code: str


def read_items(file, text):
    """Returns the items of a source file."""
    source = Source(file, text, plain(text))
    return items_in(source, 0, len(text))


def doc_of_file(text):
    """Returns the doc comment `//!` with which a source file begins."""
    lines = []
    for line in text.splitlines():
        if not line.startswith("//!"):
            break
        lines.append(line[3:].removeprefix(" "))
    return "\n".join(lines)


def items_in(source, start, end):
    """Returns the items between two places of a source."""
    found, gap, at, attributes = [], start, start, []
    while (at := SPACE.match(source.code, at).end()) < end:
        if source.code[at] == "#":
            stop = end_of_brackets(source.code, source.code.index("[", at))
            attributes.append(source.code[at:stop])
            at = stop
            continue
        head = HEAD.match(source.code, at, end)
        if head:
            item, stop = read_item(source, head, gap)
            item.derives = derives_of(attributes)
            found.append(item)
        else:
            stop = end_of_item(source.code, at, end)
        gap, at, attributes = stop, stop, []
    return found


def read_item(source, head, gap):
    """Returns the item with this head, and where it ends. What describes it is after the place `gap`."""
    kind, start = head["kind"], head.start()
    item = Item(kind, head["name"] or "", source.file, bool(head["public"]) and not head["limit"], doc_in(source.text[gap:start]), "")
    if kind == "fn":
        return item, read_function(source, item, start)
    if kind == "ghost":
        stop = first_of(source.code, head.end(), ";")[1] + 1
        item.clauses = [ghost_of(source, gap, start, stop)]
        return item, stop
    if kind not in WITH_BLOCK:
        stop = first_of(source.code, head.end(), ";")[1] + 1
        item.signature = one_line(source.text[start:stop - 1])
        return item, stop
    mark, brace = first_of(source.code, head.end(), "{;")
    item.signature = one_line(source.text[start:brace])
    if mark == ";":
        item.signature = without_private_fields(item.signature)
        return item, brace + 1
    stop = end_of_block(source.code, brace)
    read_block(source, item, brace + 1, stop - 1)
    return item, stop


def read_block(source, item, start, end):
    """Gives an item its members, and a type its clauses."""
    if item.kind in SCOPES:
        item.members = items_in(source, start, end)
        item.clauses = [clause for member in item.members for clause in member.clauses if member.kind == "ghost" and clause]
    elif item.kind in ("struct", "union"):
        read_fields(source, item, start, end)
    elif item.kind == "enum":
        item.members = [variant_of(source, *part) for part in parts_of(source.code, start, end)]


def read_function(source, item, start):
    """Gives a function its signature and its clauses, and returns where it ends."""
    code, at = source.code, first_clause(source.code, start)
    item.signature = MUTABLE.sub(r"\1", one_line(source.text[start:at]))
    while clause := CLAUSE.match(code, at):
        stop = end_of_block(code, clause.end())
        comment = comment_in(source.text[at:SPACE.match(code, at).end()])
        item.clauses.append(Clause(clause["kind"], clause["name"] or "", comment, one_line(source.text[clause.end() + 1:stop - 1])))
        at = stop
    mark, at = first_of(code, at, "{;")
    if mark == ";":
        return at + 1
    stop = end_of_block(code, at)
    item.is_empty = not code[at + 1:stop - 1].strip()
    return stop


def first_clause(code, start):
    """Returns the place after a function's signature: of its first clause, its body or its end."""
    depth = 0
    for found in re.compile(r"[()\[\]{};]|\b(?:requires|ensures|ghost)\b").finditer(code, start):
        if depth == 0 and (found[0] in "{;" or found[0].isalpha()):
            return len(code[:found.start()].rstrip())
        depth += BRACKETS.get(found[0], 0)
    raise WrongSource("a function has no end")


def ghost_of(source, gap, start, stop):
    """Returns the clause of an item `ghost NAME = { TEXT };`, or None if it imports names."""
    clause = CLAUSE.match(source.code, start)
    if not clause:
        return None
    inner = source.text[clause.end() + 1:end_of_block(source.code, clause.end()) - 1]
    above = source.text[gap:start]
    return Clause("ghost", clause["name"] or "", unwrapped(doc_in(above)) or comment_in(above), one_line(inner))


def read_fields(source, item, start, end):
    """Gives a type its public fields as members, and its ghost fields as clauses."""
    for gap, at, stop in parts_of(source.code, start, end):
        found = FIELD.match(source.code, at)
        above = source.text[gap:at]
        if not found:
            raise WrongSource(f"a field of {item.name} cannot be read")
        if found["ghost"]:
            brace = source.code.index("{", found.end())
            inner = one_line(source.text[brace + 1:end_of_block(source.code, brace) - 1])
            item.clauses.append(Clause("ghost", found["name"], unwrapped(doc_in(above)) or comment_in(above), inner))
        elif found["public"] and not found["limit"]:
            item.members.append(Item("field", found["name"], source.file, True, doc_in(above), one_line(source.text[found.start("name"):stop])))


def without_private_fields(signature):
    """Returns the signature of a struct whose fields have no names, with `_` for each field that is not public."""
    head, mark, fields = signature.partition("(")
    if not mark:
        return signature
    fields = fields.rpartition(")")[0]
    shown = [fields[at:stop] if fields.startswith("pub ", at) else "_" for _, at, stop in parts_of(fields, 0, len(fields))]
    return f"{head}({', '.join(shown)})"


def variant_of(source, gap, at, stop):
    """Returns a variant of an enum."""
    name = re.compile(r"\w+").match(source.code, at)
    return Item("variant", name[0], source.file, True, doc_in(source.text[gap:at]), one_line(source.text[at:stop]))


def parts_of(code, start, end):
    """Returns what is between commas: of each part where it begins, where its first word is after attributes, and where it ends."""
    commas, depth, at = [], 0, start
    while found := PARTS.search(code, at, end):
        # What is in braces is left out: there `<` may be an operator.
        at = end_of_block(code, found.start()) if found[0] == "{" else found.end()
        if found[0] == "," and depth == 0:
            commas.append(found.start())
        depth += {"(": 1, "[": 1, "<": 1, ")": -1, "]": -1, ">": -1}.get(found[0], 0)
    parts = []
    for begin, stop in zip([start, *(comma + 1 for comma in commas)], [*commas, end]):
        at = SPACE.match(code, begin).end()
        while at < stop and code[at] == "#":
            at = SPACE.match(code, end_of_brackets(code, at + 1)).end()
        if at < stop:
            parts.append((begin, at, len(code[:stop].rstrip())))
    return parts


def first_of(code, at, marks):
    """Returns the first of some marks that is in no brackets, and its place."""
    depth = 0
    for found in re.compile(r"[()\[\]{};]").finditer(code, at):
        if depth == 0 and found[0] in marks:
            return found[0], found.start()
        depth += BRACKETS.get(found[0], 0)
    raise WrongSource(f"none of {' '.join(marks)} after {code[at:at + 40].strip()!r}")


def end_of_item(code, at, end):
    """Returns the place after an item of another kind, such as a call of a macro."""
    mark, place = first_of(code + ";", at, "{;")
    return min(end, end_of_block(code, place) if mark == "{" else place + 1)


def end_of_brackets(code, at):
    """Returns the place after the square bracket that closes the one at a place."""
    depth = 0
    for found in re.compile(r"[\[\]]").finditer(code, at):
        depth += BRACKETS[found[0]]
        if depth == 0:
            return found.end()
    raise WrongSource("a square bracket has no end")


def derives_of(attributes):
    """Returns the traits that attributes derive."""
    return [name for it in attributes for found in re.findall(r"derive\(([^)]*)\)", it) for name in re.findall(r"\w+", found)]


def doc_in(text):
    """Returns the doc comment `///` in a text between two items."""
    lines = (line.strip() for line in text.splitlines())
    return "\n".join(line[3:].removeprefix(" ") for line in lines if line.startswith("///"))


def comment_in(text):
    """Returns the comment `//` in a text between two clauses, on one line."""
    lines = (line.strip() for line in text.splitlines())
    return " ".join(line[2:].strip() for line in lines if line.startswith("//") and not line.startswith(("///", "//!")))


def unwrapped(text):
    return " ".join(text.split())


def one_line(text):
    """Returns a piece of source on one line, without its comments and without a comma before a closing bracket."""
    text = HIDDEN.sub(lambda found: "" if found[0].startswith(("//", "/*")) else found[0], text)
    text = re.sub(r"([(\[]) ", r"\1", unwrapped(text))
    return re.sub(r" ?,? ([)\]])|,([)\]>])", lambda found: found[1] or found[2], re.sub(r",( [})\]])", r"\1", text))
