"""Runs the command `serve`: executes the lines of a script, and continues after an invalid one."""

from .program import Core, Fault, judged_plant, judged_script, text_of

MOST_LINE = 4_096


def served(data):
    """Returns the exit status of `serve`, and what it prints: for each line what its steps output, and its number if it is invalid."""
    file, lines = split_service(data)
    try:
        plant, _none = judged_plant(text_of(file))
    except Fault as fault:
        return fault.status, fault.last_line + "\n"
    return 0, served_lines(Core(plant), lines)


def split_service(data):
    """Returns the plant file up to the first line `---`, and the lines after it. Without that line all is the plant file."""
    lines = data.split(b"\n")
    if b"---" not in lines:
        return data, []
    bar = lines.index(b"---")
    return b"".join(line + b"\n" for line in lines[:bar]), lines[bar + 1:]


def served_lines(core, lines):
    """Returns what a service prints for its lines."""
    return "".join(answer_of_line(core, number, line) for number, line in enumerate(lines, 1))


def answer_of_line(core, number, line):
    """Returns what the steps of a line output, and its number if it is invalid or a step is refused."""
    out = []
    try:
        core.run(judged_script(core.plant, [line_of(line)]), lambda text: out.append(text + "\n"))
    except Fault:
        out.append(invalid_line(number))
    return "".join(out)


def invalid_line(number):
    return f"fault: line {number}\n"


def line_of(line):
    """Returns the text of a line. One that is too long or not UTF-8 is as invalid as one of another form."""
    try:
        return line.decode() if len(line) <= MOST_LINE else "too long"
    except UnicodeDecodeError:
        return "not UTF-8"
