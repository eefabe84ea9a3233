"""Fuzzes the library for C by libFuzzer: texts that are opened, and what modems send.

    tools/run ci/fuzz_library [--seconds N] [--target open|arrive] [--output FOLDER]

    open      a text is opened as a plant file, or as a snapshot if it begins as one. A channel that opens makes three frames, is saved,
              and opened again: then it is saved as the same text
    arrive    modems of examples/plant_p2.toml send bytes and requests, between ticks. A second channel gets what operator A's modems send
              alone, and operator A gets the same replies and frames in both

Each target runs N seconds, 60 by default, from the inputs of examples/ and tests/. Inputs that met something new are kept in FOLDER, out/fuzz
at the top by default, for the next time, and so is one that fails. The program of the target is built with AddressSanitizer and
UndefinedBehaviorSanitizer. The library is not instrumented: they see its allocations, and what it gives to functions of the C library. Nor
does libFuzzer see which code of it runs: it is led by the numbers that calls return, by confirmation codes and by drop reasons.

Prints how many inputs were tried, and exits with 1 if one fails. Needs clang with libFuzzer (Debian's clang-14, libclang-rt-14-dev or
clang), and the library that tools/ci/build_channel_c builds.
"""

import argparse
import os
import pathlib
import re
import shutil
import subprocess
import sys
import tempfile

from service.reference.answers import reference_answer
from service.reference.program import split_input
from service.reference.resuming import SNAPSHOT
from tools import EXAMPLES, ROOT
from tools.ci.cases import cases_of
from tools.compare import c_library

SOURCE = ROOT / "tools/fuzzing/fuzz_library.c"
PLANT = EXAMPLES / "plant_p2.toml"
COMPILERS = ("clang-14", "clang")
FLAGS = ("-std=c11", "-Wall", "-Wextra", "-Werror", "-O1", "-g", "-fsanitize=fuzzer,address,undefined", "-fno-sanitize-recover=undefined")
LIMITS = ("-timeout=60", "-rss_limit_mb=4096", "-print_final_stats=1")
MOST_LENGTH = {"open": 65_536, "arrive": 4_096}
MODEMS = {"020000000001": 1, "020000000002": 2, "020000000003": 3}
UNKNOWN_MODEM, TICK, REQUEST = 4, 0, 0xFF
LAST_LINES = 40


# The inputs to begin with

def inputs():
    """Returns the inputs of the examples and of the cases of tests/, as bytes."""
    found = [path.read_bytes() for path in sorted([PLANT, *EXAMPLES.glob("*/*.txt"), *EXAMPLES.glob("*/*.toml")])]
    for path in sorted((ROOT / "tests").glob("*.txt")):
        found += [made.data for made in cases_of(path)]
    return found


def text_and_lines(data):
    """Returns the plant file of an input, or its snapshot, and the lines after it."""
    text, lines = split_input(data.decode("utf-8", "replace"))
    return text.encode(), lines


def opened_texts(found):
    """Returns the texts that inputs open, and a snapshot after each script."""
    texts = {text_and_lines(data)[0] for data in found} | {data for data in found if data.startswith(SNAPSHOT)}
    for path in sorted(EXAMPLES.glob("*/run*.txt")):
        status, saved = reference_answer(["snapshot"], path.read_bytes())
        texts |= {saved} if status == 0 else set()
    return sorted(text for text in texts if len(text) <= MOST_LENGTH["open"])


def octets_of_line(line):
    """Returns what a line of a script is for the target, or nothing if the target cannot do it."""
    word, *fields = line.split(" ") if line else [""]
    modem = MODEMS.get(fields[0].upper() if fields else "", UNKNOWN_MODEM)
    try:
        if word == "M" and len(fields) == 2:
            message = bytes.fromhex(fields[1].replace("-", ""))
            return bytes([modem, len(message)]) + message
        if word == "Q" and len(fields) == 3:
            return bytes([modem, 5, REQUEST]) + b"".join(int(field).to_bytes(2, "big") for field in fields[1:])
    except (ValueError, OverflowError):
        return b""
    return bytes([TICK]) if word == "T" else b""


def sent_octets(found):
    """Returns what the scripts of inputs send."""
    sent = {b"".join(map(octets_of_line, text_and_lines(data)[1])) for data in found}
    return sorted(octets for octets in sent if 0 < len(octets) <= MOST_LENGTH["arrive"])


def write_corpus(folder, target):
    """Writes the inputs to begin with, and returns how many there are."""
    folder.mkdir()
    found = (opened_texts if target == "open" else sent_octets)(inputs())
    for number, data in enumerate(found):
        (folder / f"{number:05}").write_bytes(data)
    return len(found)


def write_words(path):
    """Writes the keys of a plant file as a dictionary of libFuzzer."""
    keys = sorted(set(re.findall(r"^(\w+) = ", (EXAMPLES / "every_key/check.txt").read_text(), re.MULTILINE)))
    path.write_text("".join(f'"{key} = "\n' for key in keys) + '"[[operator]]\\x0a"\n"[[operator.flow]]\\x0a"\n"[[class]]\\x0a"\n')


# The runs

def compiler():
    """Returns the compiler, or None if there is none."""
    return next((name for name in COMPILERS if shutil.which(name)), None)


def build(folder, target, libraries):
    """Builds the program of a target in a folder, and returns its path."""
    (folder / "plant_p2.inc").write_text(",".join(map(str, PLANT.read_bytes())))
    path = folder / target
    words = [compiler(), *FLAGS, f"-DTARGET=fuzz_{target}", f"-I{c_library.HEADER}", f"-I{folder}", "-o", path, SOURCE, *libraries]
    subprocess.run(words, check=True)
    return path


def fuzz(target, seconds, output, libraries):
    """Fuzzes a target, and prints how many inputs were tried. Returns whether none failed."""
    kept = output / target
    kept.mkdir(parents=True, exist_ok=True)
    with tempfile.TemporaryDirectory(prefix="fuzz-library-") as name:
        folder = pathlib.Path(name)
        count = write_corpus(folder / "corpus", target)
        write_words(folder / "words")
        words = [build(folder, target, libraries), kept, folder / "corpus", f"-max_total_time={seconds}", f"-max_len={MOST_LENGTH[target]}",
                 f"-artifact_prefix={output}/", f"-dict={folder}/words", *LIMITS]
        environment = {**os.environ, "ASAN_OPTIONS": "allocator_may_return_null=1"}
        done = subprocess.run(words, env=environment, stdout=subprocess.PIPE, stderr=subprocess.STDOUT, text=True, errors="replace", check=False)
    tried = re.search(r"^stat::number_of_executed_units: (\d+)$", done.stdout, re.MULTILINE)
    if done.returncode or tried is None:
        print("\n".join(done.stdout.splitlines()[-LAST_LINES:]))
        print(f"{target}: failed with status {done.returncode}; the input is in {output}")
        return False
    print(f"{target}: {int(tried[1]):,} inputs in {seconds} seconds from {count} of examples and tests, {len(list(kept.iterdir()))} kept, 0 findings")
    return True


def main():
    parser = argparse.ArgumentParser("fuzz_library", description=__doc__, formatter_class=argparse.RawDescriptionHelpFormatter)
    parser.add_argument("--seconds", type=int, default=60, metavar="N", help="how long each target runs")
    parser.add_argument("--target", choices=MOST_LENGTH, help="only this target")
    parser.add_argument("--output", type=pathlib.Path, default=ROOT / "out/fuzz", metavar="FOLDER", help="where inputs are kept")
    options = parser.parse_args()
    if not c_library.is_built():
        sys.exit("the library for C is not built (tools/ci/build_channel_c)")
    if compiler() is None:
        sys.exit(f"none of {', '.join(COMPILERS)} is installed")
    targets = [options.target] if options.target else [*MOST_LENGTH]
    # (all targets run, also after one that fails)
    sys.exit(0 if all([fuzz(target, options.seconds, options.output.absolute(), c_library.libraries()) for target in targets]) else 1)


if __name__ == "__main__":
    main()
