"""Runs the second implementation with the arguments of the program: python3 service/reference COMMAND .. < INPUT

Python that is started with a folder does not find the package around it. So it is started again, as the commands are.
"""

import os
import pathlib
import sys

TOP = pathlib.Path(__file__).resolve().parents[2]


def main():
    from .answers import reference_answer
    from .program import MOST_INPUT
    from .state_folders import has_state_option, run

    words = sys.argv[1:]
    if has_state_option(words):
        sys.exit(run(words))
    # The lines of a service have no limit. `run` may begin one, with a snapshot.
    has_limit = words[:1] not in (["serve"], ["resume"], ["restore"], ["snapshot"], ["run"])
    status, text = reference_answer(words, sys.stdin.buffer.read(MOST_INPUT + 1 if has_limit else -1))
    sys.stdout.buffer.write(text)
    sys.exit(status)


if __package__:
    main()
else:
    os.execve(sys.executable, [sys.executable, "-P", "-m", "service.reference", *sys.argv[1:]], {**os.environ, "PYTHONPATH": str(TOP)})
