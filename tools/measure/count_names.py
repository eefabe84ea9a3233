"""Counts names in the crates that a reader has to read twice.

    tools/run measure/count_names [--list]

Prints a line for each count; --list prints what is counted, too. It is a measure, not a test: it exits with 0.

    participles   functions and definitions whose name is one participle, such as `told`; names that the public
                  interface is specified with are left out (`PUBLIC`)
    types         names that two or more types of the workspace have
    definitions   names that are defined in the specs of two or more crates
    flags         `bool` parameters of functions
"""

import argparse
import pathlib
import re
from collections import defaultdict

ROOT = pathlib.Path(__file__).resolve().parents[2]
FUNCTION = re.compile(r"^\s*(?:pub(?:\([a-z]+\))? )?(?:const )?(?:unsafe )?fn (\w+)", re.MULTILINE)
TYPE = re.compile(r"^(?:pub(?:\([a-z]+\))? )?(?:struct|enum|trait|type) (\w+)", re.MULTILINE)
FLAG = re.compile(r"\b(\w+): bool\s*[,)]")
DEFINITION = re.compile(r"^(?:abbrev |record |data |enum )*(?:pub )?(?:abbrev |record |data |enum )?(?:pub )?(\S+) .*?:\s", re.MULTILINE)
IRREGULAR = frozenset("""
begun bound built come cut dealt done drawn fed found given gone got heard held hidden kept known laid led left lent lost made meant met paid put said seen
sent set shown shut spelled spent split stood taken taught thrown told understood woken won written
""".split())
# Names that are nouns or adjectives of the field, though they end like a participle.
NOUNS = frozenset("seed need feed speed red".split())
# Names with which the public interface is specified, so that they stay, with the crate that has each and why.
PUBLIC = {
    ("tlv24", "split"): "`Tlvs::split`, which is a verb",
    ("tlv24", "spelled"): "the definition of a list of TLVs",
    ("param_sets", "provisioned"): "`Sets::provisioned`",
    ("transactions", "acked"): "`Kept::acked`",
    ("map_assembly", "put"): "`Gather::put`, which is a verb",
    ("flow_table", "committed"): "the committed need of a flow",
    ("run_model", "Ordered"): "the order of a run's outputs",
}


def is_participle(name):
    """Says whether a name is one participle. A sentence such as `IsSettled` or `ItemIsRefused` is none."""
    return not re.search(r"(^|[a-z])(Is|Are|Has|Have|All|Finds|States|Ends|Not)[A-Z]", name) and "_" not in name and name not in NOUNS and (name in IRREGULAR or (name.endswith("ed") and len(name) > 4))


def is_counted(crate, name):
    """Says whether a name is a participle, and is not one of the specified interface."""
    return is_participle(name) and (crate, name) not in PUBLIC


def code_of(path):
    """Returns the text of a file without its comments."""
    mark = "--" if path.suffix == ".antt" else "//"
    return "\n".join("" if line.lstrip().startswith(mark) else line for line in path.read_text().splitlines())


def parameters_of(text):
    """Yields the text of the parameters of each function."""
    for found in FUNCTION.finditer(text):
        begin = text.find("(", found.end())
        depth, end = 1, begin + 1
        while depth and end < len(text):
            depth += {"(": 1, ")": -1}.get(text[end], 0)
            end += 1
        yield found[1], text[begin:end]


def definitions_of(text):
    """Returns the names that a file of specs defines."""
    names = re.findall(r"^(?:pub |abbrev pub |abbrev |unfoldable pub |unfoldable |record pub |pub record |pub enum |pub data )(?:record |enum |data )?([^\s:({]+)", text, re.MULTILINE)
    return {name for name in names if name not in ("mod", "use", "module", "syntax")}


def main():
    parser = argparse.ArgumentParser(description=__doc__, formatter_class=argparse.RawDescriptionHelpFormatter)
    parser.add_argument("--list", action="store_true", help="print what is counted")
    arguments = parser.parse_args()
    participles, flags, types, definitions = [], [], defaultdict(set), defaultdict(set)
    for crate in sorted((ROOT / "crates").iterdir()):
        for path in sorted((crate / "src").glob("**/*.rt")):
            text = code_of(path)
            name = path.relative_to(ROOT / "crates")
            participles += [f"{name}: {function}" for function in FUNCTION.findall(text) if is_counted(crate.name, function)]
            flags += [f"{name}: {function}({flag})" for function, text in parameters_of(text) for flag in FLAG.findall(text)]
            for item in TYPE.findall(code_of(path)):
                types[item].add(str(name))
        for path in sorted((crate / "specs").glob("*.antt")):
            for item in definitions_of(code_of(path)):
                definitions[item].add(crate.name)
                if is_counted(crate.name, item):
                    participles.append(f"{path.relative_to(ROOT / 'crates')}: {item}")
    twice = [f"{name}: {', '.join(sorted(places))}" for name, places in sorted(types.items()) if len(places) > 1]
    shared = [f"{name}: {', '.join(sorted(places))}" for name, places in sorted(definitions.items()) if len(places) > 1]
    for kind, found in (("participles", participles), ("types", twice), ("definitions", shared), ("flags", flags)):
        print(f"{kind}: {len(found)}")
        if arguments.list:
            print("".join(f"    {line}\n" for line in found), end="")


if __name__ == "__main__":
    main()
