"""Compares `threads` with `run` on each example that has a plant and a script.

    tools/run compare/threads_as_run [PROGRAM]

`threads` has to print the same lines of each operator in the same order, and the same MAPs. If `run` ends with an error line, `threads`
has to print that line alone. One script of 2,000 lines on 8 operators is run a hundred times. Prints a line for each input; exits with 1
if one differs.
"""

import sys

from service.reference.plant import read_plant
from service.reference.program import is_of, split_input
from tools import EXAMPLES, show_help
from tools.compare.program import PROGRAM, program_answer
from tools.measure.large_script import of_operators



def expected_of(text, status, out):
    """Returns what `threads` has to print, by what `run` printed."""
    printed = out.decode().splitlines()
    if status != 0:
        return printed[-1:]
    plant = read_plant(split_input(text)[0])
    lines = [line for row in plant.rows for line in printed if is_of(row, *line.split(" ")[:2])]
    return lines + [line for line in printed if line.startswith("MAP ")]


def large_text(count):
    """Returns a plant of 8 operators, and so many lines of a script."""
    plant, script = split_input(of_operators())
    return plant + "---\n" + "".join(line + "\n" for line in script[:count])


def is_same(program, text, times):
    """Tests whether `threads` prints what `run` does, so many times."""
    status, out = program_answer(program, ["run"], text.encode())
    expected = (status, expected_of(text, status, out))
    for _ in range(times):
        got, threads = program_answer(program, ["threads"], text.encode())
        if (got, threads.decode().splitlines()) != expected:
            return False
    return True


def inputs():
    """Yields each input with its name, and how often it is run."""
    for example in sorted(EXAMPLES.rglob("*.txt")):
        text = example.read_text()
        if "---" in text.split("\n"):
            yield str(example.relative_to(EXAMPLES)), text, 1
    yield "2,000 lines on 8 operators, a hundred times", large_text(2_000), 100


def main():
    show_help(__doc__)
    program = sys.argv[1] if len(sys.argv) == 2 else PROGRAM
    differing = 0
    for name, text, times in inputs():
        same = is_same(program, text, times)
        differing += not same
        print(f"{'right' if same else 'WRONG'}  {name}")
    sys.exit(differing > 0)


if __name__ == "__main__":
    main()
