"""The functions of a crate's source, as the prover names them, and the crate with bodies and proofs of some of them left out."""

import dataclasses
import pathlib
import re

PARTS = ("src", "specs", "proofs")
PROOFS = ("Answers", "Invariants", "Proof")
CLAUSE = re.compile(r"\b(?:requires|ensures|ghost)\b")
# Comments, strings and characters: braces in them do not count.
HIDDEN = re.compile(r'//[^\n]*|/\*.*?\*/|b?r?"(?:\\.|[^"\\])*"|b?\'(?:\\.[^\']*|[^\\\'\n])\'', re.DOTALL)
BLOCK = re.compile(r"(?P<brace>[{}])|\b(?P<kind>fn|impl|mod|trait)\b")
TYPE = re.compile(r"\b(?:struct|enum|union|trait)\s+(\w+)")
TESTS = re.compile(r"(^|/)tests(\.rt$|/)")
CONST = re.compile(r"\bconst\s+(?:unsafe\s+)?$")
NO_BODY = "{ unreachable!() }"


@dataclasses.dataclass(frozen=True)
class Function:
    """A function: its path below the crate, whether it is of a trait's impl, whether constants can be made by it, and places in its file.

    They are where its text begins, where its body begins, and where both end.
    """

    path: str
    of_trait: bool
    is_const: bool
    start: int
    body: int
    end: int


def plain(text):
    """Returns a text of the same length with comments, strings and characters blanked."""
    return HIDDEN.sub(lambda found: re.sub(r"[^\n]", " ", found[0]), text)


def end_of_block(text, at):
    """Returns the place after the block that opens at a place."""
    depth = 0
    for brace in re.compile(r"[{}]").finditer(text, at):
        depth += 1 if brace[0] == "{" else -1
        if depth == 0:
            return brace.end()
    raise ValueError("a block has no end")


def body_of_function(text, at):
    """Returns where the body of a function begins and ends, which stands after its clauses, or nothing if it has no body."""
    while (brace := text.find("{", at)) >= 0:
        before = text[at:brace]
        is_clause = CLAUSE.search(before)
        if not is_clause and re.search(r";(?![^\[]*\])", before):
            return None
        at = end_of_block(text, brace)
        if not is_clause:
            return brace, at
    return None


def without_angles(text):
    """Returns a text without what stands in angle brackets."""
    text = re.sub(r"[-=]>", "", text)
    while (shorter := re.sub(r"<[^<>]*>", "", text)) != text:
        text = shorter
    return text


def last_name(text):
    """Returns the last name of a path."""
    return re.findall(r"\w+", text.split("::")[-1])[0]


def in_angles(text):
    """Returns the parts between the angle brackets with which a text begins, and what stands after these."""
    parts, depth, begin = [], 0, 1
    for at, sign in enumerate(text):
        depth += (sign == "<") - (sign == ">" and text[at - 1] not in "-=")
        if depth == 0 or depth == 1 and sign == ",":
            parts.append(text[begin:at].strip())
            begin = at + 1
        if depth == 0:
            return parts, text[begin:]
    raise ValueError("an angle bracket has no end")


def name_of_impl(header):
    """Returns the name that the prover gives an `impl`: its type, then its trait unless that is `Drop`, and the types that it gives the trait."""
    header = re.split(r"\b(?:where|requires|ensures)\b|\{", header)[0].strip()
    own, header = in_angles(header) if header.startswith("<") else ([], header)
    trait, is_trait, typed = header.partition(" for ")
    if not is_trait:
        return last_name(without_angles(header))
    if trait.strip() == "Drop":
        return last_name(without_angles(typed))
    parameters = {re.match(r"(?:const\s+)?'?(\w+)", part)[1] for part in own}
    given = in_angles(trait[trait.index("<") :])[0] if "<" in trait else []
    types = [last_name(without_angles(part)) for part in given if not part.startswith("'")]
    return "".join([last_name(without_angles(typed)), last_name(without_angles(trait)), *(name for name in types if name not in parameters)])


def module_of(file):
    """Returns the path of a source file's module below the crate."""
    module = list(pathlib.PurePath(file).with_suffix("").parts[1:])
    return tuple(module[:-1] if module[-1] in ("lib", "main", "mod") else module)


def modules_of_types(texts):
    """Returns the module that declares each type of a crate, by the type's name."""
    return {name: module_of(file) for file in source_files(texts) for name in TYPE.findall(plain(texts[file]))}


def functions_of(text, file, types):
    """Returns the functions of a source file, in order. The prover names a method by the module of its type."""
    text = plain(text)
    found, scopes, at = [], [], 0
    while block := BLOCK.search(text, at):
        at = block.end()
        if block["brace"] == "}":
            scopes.pop()
        elif block["brace"] == "{":
            at = end_of_block(text, block.start())
        elif block["kind"] == "fn":
            name = re.match(r"\s+(\w+)", text[at:])
            body = body_of_function(text, at) if name else None
            if body:
                names = [scope for scope, _ in scopes]
                module = types.get(names[0], module_of(file)) if names else module_of(file)
                path = "::".join([*module, *names, name[1]])
                is_const = bool(CONST.search(text[: block.start()]))
                found.append(Function(path, any(of_trait for _, of_trait in scopes), is_const, block.start(), *body))
                at = body[1]
        elif opened := re.compile(r"[^{;]*\{").match(text, at):
            of_trait = block["kind"] == "trait" or " for " in without_angles(opened[0])
            scopes.append((name_of_impl(opened[0]), of_trait))
            at = opened.end()
    return found


def functions_of_crate(texts):
    """Returns the functions of all source files of a crate."""
    types = modules_of_types(texts)
    return [function for file in source_files(texts) for function in functions_of(texts[file], file, types)]


def texts_of(folder):
    """Returns the texts of a crate's sources, definitions and proofs, by their paths in its folder."""
    paths = [path for part in PARTS for path in sorted((folder / part).rglob("*")) if path.is_file()]
    return {path.relative_to(folder).as_posix(): path.read_text() for path in paths}


def source_files(texts):
    """Returns the files of a crate's source, without those of its tests."""
    return [file for file in texts if file.startswith("src/") and not TESTS.search(file)]


def with_holes(crate, texts, kept):
    """Returns the texts of a crate in which the bodies and the proofs of all functions but those that are kept are left out.

    A function is proved over the contracts of what it calls. So the other bodies show nothing, but the prover would look at each of them,
    and at what they call. What constants can be made by keeps its body, and a function of a trait that has no proof file stays as it is.
    """
    types = modules_of_types(texts)
    changed = dict(texts)
    for file in source_files(texts):
        # From the last one on, so that the places of those before it stay.
        for function in reversed(functions_of(texts[file], file, types)):
            folder = f"proofs/{function.path.replace('::', '/')}"
            proofs = [f"{folder}/{name}.antt" for name in PROOFS if f"{folder}/{name}.antt" in texts]
            if function.path in kept or function.of_trait and not proofs:
                continue
            for proof in proofs:
                changed.pop(proof, None)
            changed[f"{folder}/Proof.antt"] = hole(crate, function.path)
            if not function.is_const:
                changed[file] = changed[file][: function.body] + NO_BODY + changed[file][function.end :]
    return changed


def hole(crate, path):
    """Returns the text of a proof that is left out."""
    name = path.split("::")[-1]
    statement = f"Rattle.{crate}.proofs.{path.replace('::', '.')}.Statement"
    return f"use {statement}.{{statement}}\n\npub {name}_spec : {{M : Type 1}} → statement M\n{name}_spec = ?\n"
