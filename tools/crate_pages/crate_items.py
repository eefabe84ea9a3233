"""Finds what a crate makes public: what its root declares or re-exports, and the methods of its types."""

import re
from collections import Counter
from dataclasses import dataclass, field

from tools.proving.functions import TESTS, in_angles, last_name, module_of, without_angles

from .source_items import WrongSource, doc_of_file, read_items

TYPES = ("struct", "enum", "union", "type")
CALLS = ("fn", "const", "static")
# What the trait `Model` says of a type: what contracts see of it, and what it keeps.
SHOWN_OF_MODEL = ("Value", "view", "invariant")


@dataclass
class PublicItem:
    """What a crate makes public: its path below the crate, the item, and of a type its methods and the traits that it has."""

    path: str
    item: object
    methods: list = field(default_factory=list)
    traits: list = field(default_factory=list)
    model: list = field(default_factory=list)


@dataclass
class CrateItems:
    """The doc comment of a crate, its public items, and what it re-exports from other crates: pairs of a crate and a path."""

    doc: str
    items: list
    from_others: list


def read_crate(folder):
    """Returns what the crate in a folder makes public."""
    modules, doc = {}, ""
    for path in sorted((folder / "src").rglob("*.rt")):
        file = path.relative_to(folder).as_posix()
        if TESTS.search(file):
            continue
        text = path.read_text()
        try:
            modules[module_of(file)] = read_items(file, text)
        except (WrongSource, ValueError) as error:
            raise WrongSource(f"crates/{folder.name}/{file}: {error}") from error
        doc = doc_of_file(text) if module_of(file) == () else doc
    items, from_others = exported(folder.name, modules, ())
    add_methods(folder.name, modules, items)
    return CrateItems(doc, items, sorted(set(from_others)))


def exported(crate, modules, module):
    """Returns the public items of a module, and what it re-exports from other crates."""
    items, from_others = [], []
    for item in modules.get(module, []):
        if not item.is_public:
            continue
        if item.kind == "mod":
            inner, others = exported(crate, modules, (*module, item.name))
            items += [PublicItem(f"{item.name}::{it.path}", it.item) for it in inner]
            from_others += others
        elif item.kind == "use":
            for path in leaves(item.signature.removeprefix("pub use ")):
                found, others = re_exported(crate, modules, module, path)
                items += found
                from_others += others
        elif item.kind in (*TYPES, *CALLS, "trait"):
            items.append(PublicItem(item.name, item))
    return items, from_others


def re_exported(crate, modules, module, path):
    """Returns what a path of a `pub use` stands for: items of this crate, or a pair of another crate and a path in it."""
    if path[0] == "crate":
        base, path = (), path[1:]
    elif path[0] == "self":
        base, path = module, path[1:]
    elif (*module, path[0]) in modules:
        base = module
    else:
        return [], [(path[0], "::".join(path[1:]))]
    found, others = exported(crate, modules, (*base, *path[:-1]))
    if path[-1] != "*":
        found = [it for it in found if it.path == path[-1]]
        others = [it for it in others if it[1].split("::")[-1] == path[-1]]
    if not found and not others:
        raise WrongSource(f"crates/{crate}: `pub use {'::'.join(path)}` names nothing that is public")
    return found, others


def leaves(text):
    """Returns the paths that a `use` imports, each as its names. A name after `as` is left out."""
    text = text.strip()
    head, brace, rest = text.partition("{")
    if not brace:
        return [tuple(re.sub(r"\s+as\s+\w+", "", text).split("::"))] if text else []
    front = tuple(name for name in head.strip().split("::") if name)
    parts, depth, begin = [], 0, 0
    inner = rest.rsplit("}", 1)[0] + ","
    for at, sign in enumerate(inner):
        depth += {"{": 1, "}": -1}.get(sign, 0)
        if sign == "," and depth == 0:
            parts.append(inner[begin:at])
            begin = at + 1
    return [(*front, *path) for part in parts for path in leaves(part)]


def add_methods(crate, modules, items):
    """Gives each public type its public methods and constants, the traits that it has, and what contracts see of it."""
    types = {it.item.name: it for it in items if it.item.kind in TYPES}
    counts = Counter(item.name for members in modules.values() for item in members if item.kind in TYPES)
    for name, it in types.items():
        if counts[name] > 1:
            raise WrongSource(f"crates/{crate}: several types have the name {name}, so it is not clear which one an `impl` is of")
        it.traits = list(it.item.derives)
    for impl in (item for members in modules.values() for item in members if item.kind == "impl"):
        trait, name = trait_and_type(impl.signature)
        if name not in types:
            continue
        if not trait:
            types[name].methods += [item for item in impl.members if item.is_public and item.kind in CALLS]
        elif trait == "Model":
            types[name].model = [clause for clause in impl.clauses if clause.name in SHOWN_OF_MODEL]
        else:
            types[name].traits.append(trait)


def trait_and_type(header):
    """Returns the trait of an `impl`, or "" if it has none, and the name of its type."""
    header = re.split(r"\bwhere\b", header.removeprefix("impl").strip())[0].strip()
    header = in_angles(header)[1].strip() if header.startswith("<") else header
    trait, is_trait, typed = header.partition(" for ")
    return (trait.strip(), last_name(without_angles(typed))) if is_trait else ("", last_name(without_angles(header)))
