"""Makes calls of the library for C under valgrind, under AddressSanitizer, and with each allocation failed in turn.

    tools/run compare/checked_library_calls [COUNT] [--failed N]

The calls are those of COUNT generated cases, 200 by default, as bindings/c/perform_calls.c makes them. These are all calls of the header.
Each run has to print what an ordinary one does, and end with status 0:

    valgrind    finds no invalid access and no block that is not freed, in the library as well
    sanitizers  gcc's AddressSanitizer and UndefinedBehaviorSanitizer find nothing. The library itself is not instrumented: they see its
                allocations, and what it gives to functions of the C library, but not its own reads and writes
    allocation  in the first run the first allocation of the library fails, in the second run the second, and so on. A call that returns
                that memory ran out is made again. This is for N of the cases, 10 by default, and those that open a channel alone count

Prints what was tried, and exits with 1 at the first run that differs. Needs gcc and the library that tools/ci/build_channel_c builds;
without valgrind a line says that it was not tried.
"""

import argparse
import itertools
import os
import pathlib
import shutil
import subprocess
import sys
import tempfile

from tools import ROOT
from tools.compare import c_library
from tools.compare.library_cases import cases_of, text_of_case

PROGRAM = ROOT / "bindings/c/perform_calls.c"
VALGRIND = ("valgrind", "-q", "--leak-check=full", "--show-leak-kinds=all", "--error-exitcode=9")
SANITIZERS = ("-fsanitize=address,undefined", "-fno-sanitize-recover=all")


class Differs(Exception):
    """A run prints something else than an ordinary one, or does not end well."""


def cases_with_changes(count):
    """Returns the cases of the first seeds. Where one saves its channel, it changes the plant to the same, too."""
    cases = [made for _seed, made in cases_of(range(count))]
    for made in cases:
        made.calls = [pair for line, call in made.calls for pair in [(line, call)] + [(line, "change")] * (call == "reopen")]
    return cases


def printed(words, given, **more):
    """Returns what a program prints for cases, if it ends well and says nothing on standard error."""
    done = subprocess.run(words, input=given, capture_output=True, env={**os.environ, **more}, check=False)
    if done.returncode or done.stderr:
        raise Differs(f"{words[0]} ended with status {done.returncode}:\n{done.stderr.decode(errors='replace')}")
    return done.stdout


def compare(name, found, expected):
    """Raises Differs with the first line that differs, or None if there is no such line."""
    for place, (line, other) in enumerate(itertools.zip_longest(found.splitlines(), expected.splitlines()), 1):
        if line != other:
            raise Differs(f"{name}: line {place} is\n{line!r}\nwhere an ordinary run has\n{other!r}")


def failed_allocations(program, folder, made, expected):
    """Fails each allocation of a case in turn, and returns how many there are."""
    library, spare = folder / "fail_allocation.so", folder / "spare"
    spare.unlink(missing_ok=True)
    number = 0
    while not spare.exists():
        number += 1
        found = printed([program], text_of_case(made), LD_PRELOAD=str(library), FAIL_ALLOCATION=str(number), FAIL_MARK=f"touch {spare}")
        compare(f"allocation {number}", found, expected)
    return number - 1


def fail_allocations(program, folder, cases):
    """Fails each allocation of some cases, and returns how many there are."""
    words = ["gcc", "-shared", "-fPIC", "-O1", "-o", folder / "fail_allocation.so", ROOT / "tools/compare/fail_allocation.c"]
    subprocess.run(words, check=True)
    total = sum(failed_allocations(program, folder, made, printed([program], text_of_case(made))) for made in cases)
    if not total:
        raise Differs("no allocation failed: the cases make none")
    return total


def try_all(folder, cases, failed):
    """Yields a line for each way in which the calls of cases were made."""
    program = c_library.build_program(PROGRAM, folder)
    given = b"".join(map(text_of_case, cases))
    expected = printed([program], given)
    yield f"{len(cases)} cases with {sum(len(made.calls) for made in cases)} calls, {expected.count(b'refused')} of them refused"
    if shutil.which("valgrind"):
        compare("valgrind", printed([*VALGRIND, program], given), expected)
        yield "valgrind: no finding"
    else:
        yield "valgrind is not installed: it was not tried"
    (folder / "sanitized").mkdir()
    compare("sanitizers", printed([c_library.build_program(PROGRAM, folder / "sanitized", *SANITIZERS)], given), expected)
    yield "AddressSanitizer and UndefinedBehaviorSanitizer: no finding"
    some = [made for made in cases if made.calls][:failed]
    yield f"{fail_allocations(program, folder, some)} allocations of {len(some)} cases failed in turn: the output is the same"


def main():
    parser = argparse.ArgumentParser("checked_library_calls", description=__doc__, formatter_class=argparse.RawDescriptionHelpFormatter)
    parser.add_argument("count", type=int, nargs="?", default=200, metavar="COUNT", help="how many cases")
    parser.add_argument("--failed", type=int, default=10, metavar="N", help="of how many cases the allocations fail")
    options = parser.parse_args()
    if not c_library.is_built():
        sys.exit("the library for C is not built (tools/ci/build_channel_c)")
    with tempfile.TemporaryDirectory(prefix="checked-calls-") as folder:
        try:
            for line in try_all(pathlib.Path(folder), cases_with_changes(options.count), options.failed):
                print(line, flush=True)
        except Differs as fault:
            sys.exit(str(fault))


if __name__ == "__main__":
    main()
