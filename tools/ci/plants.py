"""Lists the wrong bodies that a crate's contracts let through, as `rt plant` does: with holes in place of the crate's proofs.

    tools/run ci/plants [--libraries FOLDER] CRATE [--only WORD] [--max N] [--minutes N] [--all]

All crates below have to be built: run `rt ci` first, or name a folder of crates where it was run. `rt plant` itself proves a crate and all
crates below from their sources before it begins, which does not end on large crates. Here the real functions are left unproved: a wrong
body sees only their contracts anyway. The wrong bodies, the options and what is printed are those of `rt plant`, whose code this loads.
Proofs of the methods of traits are left out only if they have files.
"""

import argparse
import contextlib
import importlib.machinery
import pathlib
import re
import shutil
import subprocess
import sys
import time
import types

from tools.proving.functions import functions_of_crate, texts_of, with_holes
from tools.proving.prover import kit_folder

ROOT = pathlib.Path(__file__).resolve().parents[2]
# The most seconds of one check of several wrong bodies.
SECONDS = 900


def load(path):
    """Returns a module of the kit that is a command, and so has no ending."""
    module = types.ModuleType(path.name)
    module.__file__ = str(path)
    importlib.machinery.SourceFileLoader(path.name, str(path)).exec_module(module)
    return module


def names_of(crate, folder):
    """Returns the functions of a crate as the lines of a check name them, each as proved."""
    return "".join(f"fn {crate}::{function.path}: proved\n" for function in functions_of_crate(texts_of(folder)))


def replace(folder, old, new):
    """Replaces the texts of a crate in a folder."""
    for file in old.keys() - new.keys():
        (folder / file).unlink()
    for file, text in new.items():
        if old.get(file) != text:
            (folder / file).parent.mkdir(parents=True, exist_ok=True)
            (folder / file).write_text(text)


def with_holes_class(plant):
    """Returns the class of `rt plant` that checks a copy of a crate, changed so that the copy has holes in place of proofs."""

    class Copy(plant.Copy):
        def __init__(self, crate, source, folder, flags, seconds):
            super().__init__(crate, source, folder, flags, seconds)
            shutil.rmtree(f"{folder}/out/incremental", ignore_errors=True)
            texts = texts_of(pathlib.Path(folder))
            replace(pathlib.Path(folder), texts, with_holes(crate.name, texts, set()))

        def check(self, names):
            only = [word for name in names for word in ("--only", name)]
            words = [plant.rt.RATTLE, "check", *self.crate.words(["--jobs", "1", *only]), "--allow-holes"]
            left = max(min(SECONDS, self.end - time.monotonic()), 0)
            try:
                ran = subprocess.run(words, timeout=left, cwd=self.folder, stdout=subprocess.PIPE, stderr=subprocess.STDOUT, text=True, errors="replace")
            except subprocess.TimeoutExpired:
                return None
            # A body that rests on a hole meets its contract if the real functions meet theirs.
            return re.sub(r"(?m)^(fn \S+: )(?:depends on a hole|no holes)", r"\1proved", ran.stdout) if ran.returncode >= 0 else None

    return Copy


def main():
    parser = argparse.ArgumentParser(prog="plants", description=__doc__, formatter_class=argparse.RawDescriptionHelpFormatter, allow_abbrev=False)
    parser.add_argument("--libraries", type=pathlib.Path, default=ROOT / "crates", help="the crates as they were built (default: crates)")
    parser.add_argument("crate", metavar="CRATE")
    given, options = parser.parse_known_args()
    folder = given.libraries.resolve() / given.crate
    if not folder.is_dir():
        parser.error(f"there is no crate {given.crate} in {given.libraries}")
    sys.dont_write_bytecode = True
    plant = load(kit_folder() / "bin" / "rt-plant")
    plant.Copy = with_holes_class(plant)

    def check(*_words):
        print(f"\ncrate {given.crate}: its functions\n{names_of(given.crate, folder)}")
        return 0

    plant.rt.main = check
    with contextlib.chdir(folder):
        return plant.main(given.crate, *options)


if __name__ == "__main__":
    sys.exit(main())
