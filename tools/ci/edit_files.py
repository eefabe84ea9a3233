"""The files of must-fail edits: where they are, how they are read, how many each crate has, and which CI tries.

An edit is a file of a crate: `must-fail/NAME.edit`, which `rt ci` tries too, `edits/NAME.edit`, which CI tries at each run, or
`edits/more/NAME.edit`, of which it tries one eighth. It has these lines, and comments that begin with `#`:

    file: PATH         the file that the next pairs change
    old: TEXT          one line that is in this file once
    new: TEXT          the wrong line in its place
    twin: TEXT         a harmless line in its place, of the same form as the wrong one
    function: PATH     the function that must be refused, if the edit changes no function, such as one of a constant

Each pair is applied to the result of the pairs before it. An edit that adds a loop or a call has a twin, the text with the lines `twin:` in
the place of the lines `new:`. It leaves out pairs without such a line.
"""

import dataclasses
import os
import pathlib
import re
import subprocess
import time

from tools.proving.functions import functions_of, modules_of_types, plain, texts_of

EIGHTHS = 8
KINDS = ("file", "old", "new", "twin", "function")
FOLDERS = ("must-fail", "edits", "edits/more")
MORE = FOLDERS[-1]
LOOP = re.compile(r"\b(?:for|while|loop)\b(?=\s*[\w({&])")
# A name in lower case before a parenthesis, and not a word of the language.
CALL = re.compile(r"\b(?!(?:if|while|for|match|return|in|let|mut|move|else|fn|pub)\b)[a-z_]\w*(?:::<[^<>]*>)?!?\(")
HEAD = "# Number of edits of each crate: in must-fail/, in edits/ and in edits/more/. `tools/ci/edits --counts` writes this file.\n"


class WrongEdit(Exception):
    """An edit that cannot be applied."""


@dataclasses.dataclass(frozen=True)
class Edit:
    """What is tried: its crate and name, its pairs of texts with their files, and the functions of which it changes the text.

    It is local if it changes nothing outside of functions. One of the functions must be refused. If `is_harmless`, each must be proved.
    """

    crate: str
    name: str
    pairs: tuple
    functions: tuple
    is_local: bool
    is_harmless: bool = False

    def __str__(self):
        return f"{self.crate}/{self.name}"


def lines_of(path):
    """Returns the lines of an edit that are no comments, each as its kind and its text."""
    found = []
    for line in path.read_text().splitlines():
        kind, colon, text = line.partition(":")
        if line.startswith("#") or not line:
            continue
        if not colon or kind not in KINDS:
            raise WrongEdit(f"a line is none of {', '.join(f'`{kind}:`' for kind in KINDS)}, nor a comment: {line[:60]}")
        found.append((kind, text.removeprefix(" ")))
    return found


def pairs_of(lines):
    """Returns the pairs of an edit and those of its twin, each with its file, and the functions that the edit names."""
    pairs, twins, named = [], [], []
    file, old, pair = None, None, None
    for kind, text in lines:
        if kind == "function":
            named.append(text)
        elif kind == "file":
            file = text
        elif kind == "old":
            old = text
        elif kind == "twin":
            if not pair:
                raise WrongEdit("a line `twin:` does not follow a line `new:`")
            twins.append((*pair, text))
        elif not file or not old:
            raise WrongEdit("a line `new:` stands before any `file:` or `old:`")
        else:
            pairs.append((file, old, text))
        pair, old = ((file, old), None) if kind == "new" else (None, old)
    return pairs, twins, named


def applied(texts, file, old, new):
    """Returns the texts with one of them changed at the one place where it has the old text."""
    if file not in texts:
        raise WrongEdit(f"there is no file {file}")
    count = texts[file].count(old)
    if count != 1:
        raise WrongEdit(f"a text after `old:` is in {file} {count} times, and not once")
    return texts | {file: texts[file].replace(old, new)}


def changed_functions(texts, file, old):
    """Returns the paths of the functions that contain a text, or are contained in it."""
    start = texts[file].find(old)
    end = start + len(old.rstrip())
    functions = functions_of(texts[file], file, modules_of_types(texts))
    return [it.path for it in functions if it.start <= start and end <= it.end or start <= it.start and it.end <= end]


def edit_of(crate, name, pairs, named, texts, is_harmless=False):
    """Returns the edit of some pairs, or raises an error if they cannot be applied."""
    functions, is_local = [], True
    for pair in pairs:
        changed = applied(texts, *pair)
        inside = changed_functions(texts, *pair[:2])
        functions += inside
        is_local = is_local and bool(inside)
        texts = changed
    functions = tuple(dict.fromkeys(named or functions))
    if not functions:
        raise WrongEdit("it changes no function: add a line `function: PATH`, with the function that must be refused")
    return Edit(crate, name, tuple(pairs), functions, is_local, is_harmless)


def read_edit(crate, path, texts):
    """Returns the edit of a file and its twin, if it has one, or raises an error if they cannot be applied."""
    pairs, twins, named = pairs_of(lines_of(path))
    if not pairs:
        raise WrongEdit("it has no lines `old:` and `new:`")
    edits = [edit_of(crate, path.stem, pairs, named, texts)]
    if twins:
        try:
            edits.append(edit_of(crate, f"{path.stem}, twin", twins, named, texts, is_harmless=True))
        except WrongEdit as error:
            raise WrongEdit(f"its twin: {error}") from error
    return edits


def edit_paths(root, crate):
    """Returns the files of all edits of a crate, in order of their names."""
    folder = root / "crates" / crate
    return sorted((path for name in FOLDERS for path in (folder / name).glob("*.edit")), key=lambda path: (path.stem, path))


def is_more(path):
    """Returns whether a file is an edit of which CI tries one eighth."""
    return path.parent.name == "more"


def eighth_of_commits(root):
    """Returns which eighth CI tries, from 0, by the number of commits, or by the day where git does not count all of them."""
    words = (["rev-parse", "--is-shallow-repository"], ["rev-list", "--count", "HEAD"])
    done = [subprocess.run(["git", *it], cwd=root, capture_output=True, text=True) for it in words]
    if any(it.returncode for it in done) or done[0].stdout.strip() != "false":
        return int(time.time() // 86_400) % EIGHTHS
    return int(done[1].stdout) % EIGHTHS


def of_eighth(paths, eighth):
    """Returns the files of one eighth of a sorted list: every eighth one."""
    return set(paths[eighth::EIGHTHS])


def read_edits(root, crates, is_wanted):
    """Returns the edits that are wanted, of each crate in order, and what is wrong with those that cannot be applied.

    All edits are read, so that one that cannot be applied is found at each run.
    """
    found, wrong = {}, []
    for crate in crates:
        paths = edit_paths(root, crate)
        texts = texts_of(root / "crates" / crate) if paths else {}
        for path in paths:
            try:
                edits = read_edit(crate, path, texts)
            except WrongEdit as error:
                wrong.append((path, f"{crate}/{path.stem}: CANNOT BE APPLIED: {error}"))
            else:
                if is_wanted(path):
                    found.setdefault(crate, []).extend(edits)
    return found, wrong


def counts(root, crates):
    """Returns how many edits each crate has in each of the folders, as lines of the file that pins them."""
    lines = []
    for crate in crates:
        numbers = [len(list((root / "crates" / crate / name).glob("*.edit"))) for name in FOLDERS]
        if any(numbers):
            lines.append(" ".join(map(str, [crate, *numbers])))
    return lines


def pinned_counts(path):
    """Returns the lines of the file that pins the number of edits of each crate."""
    if not path.is_file():
        return []
    return [line for line in path.read_text().splitlines() if line and not line.startswith("#")]


def count_faults(root, crates, path):
    """Returns what is wrong with the number of edits, and with files that are not where edits are."""
    pinned, found = pinned_counts(path), counts(root, crates)
    faults = [] if pinned else [f"{path.name} lists no edits"]
    faults += [f"{path.name} says `{line}`, which is not so" for line in pinned if line not in found]
    faults += [f"{path.name} does not say `{line}`" for line in found if line not in pinned]
    return faults + [f"{file} is no edit of its own name in {', '.join(f'{name}/NAME.edit' for name in FOLDERS)}" for file in strays(root, crates)]


def adds_form(pairs):
    """Returns whether some pairs add a loop or a call."""
    return any(
        sum(len(form.findall(plain(new))) for _, _, new in pairs) > sum(len(form.findall(plain(old))) for _, old, _ in pairs) for form in (LOOP, CALL)
    )


def twin_faults(root, crates):
    """Returns which edits add a loop or a call and have no twin."""
    faults = []
    for crate in crates:
        for file in edit_paths(root, crate):
            try:
                pairs, twins, _ = pairs_of(lines_of(file))
            except WrongEdit:
                continue
            if not twins and adds_form(pairs):
                faults.append(f"{crate}/{file.stem} adds a loop or a call and has no line `twin:`")
    return faults


def strays(root, crates):
    """Returns the files that are where no edit is, or have the name of another edit of the crate."""
    homes = {root / "crates" / crate / name for crate in crates for name in FOLDERS}
    found, known = [], set()
    for folder, folders, names in os.walk(root / "crates"):
        folders[:] = sorted(name for name in folders if name != "out")
        path = pathlib.Path(folder)
        is_of_edits = not {"must-fail", "edits"}.isdisjoint(path.relative_to(root).parts)
        for name in sorted(names):
            edit = (path.relative_to(root).parts[1], name)
            if name.endswith(".edit") and path in homes and edit not in known:
                known.add(edit)
            elif is_of_edits or name.endswith(".edit"):
                found.append((path / name).relative_to(root))
    return found
