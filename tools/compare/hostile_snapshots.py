"""Gives spoiled snapshots to the built program, and judges each answer: by rules of docs/FORMATS.md and by the second implementation.

    tools/run compare/hostile_snapshots FIRST COUNT --program PATH     the texts FIRST to FIRST + COUNT - 1
    tools/run compare/hostile_snapshots FIRST COUNT                    the same by the second implementation alone
    tools/run compare/hostile_snapshots .. --workers N                 in N processes, in place of 2
    tools/run compare/hostile_snapshots .. --compared N                compares each N-th text with the second implementation, in place of all
    tools/run compare/hostile_snapshots --show N                       prints text N

A hundred texts are made of one snapshot, which is that of a small generated plant after a generated script. Messages and requests are put
into its inboxes. Bits, bytes, numbers and fields are changed, and lines and operators are cut, swapped and repeated
(tools/generator/spoiling.py). Half of the texts get a right last line again. Each is given to `resume`, with a line `---` and a line `K` after it. Then:

  - The process ends by itself, with one of the statuses 0, 3 and 6.
  - With status 3, it prints one line: a fault of the snapshot, of its plant file or of the states. The line of a fault of the snapshot is not
    before the first one that differs from the whole snapshot, and not after the line that follows the text. A plant file that is cut is a
    fault of its first line.
  - With status 6, it prints `fault: io`, and the plant file is not UTF-8.
  - With status 0, the last line is right, and the answer to `K` is the text, byte for byte. Only leading zeros, the case of hexadecimal
    digits, an empty field of bytes and the order of the operators may be others, and operators that begin anew may be added.
  - A text that is as it was is resumed.

Prints how many texts there were, how many of what the snapshots had, and what the texts gave. Prints the first texts that are answered
wrong, and exits with 1 if there are any. The figures so far are on standard error.
"""

import argparse
import random
import re
import sys
import zlib
from collections import Counter
from functools import lru_cache, partial

from service.reference.answers import reference_answer
from service.reference.plant import read_plant
from service.reference.program import Core, steps_of
from service.reference.saving import snapshot_of
from tools import show_help
from tools.compare import trials
from tools.compare.program import Started
from tools.compare.script_changes import ticks_to_rest
from tools.generator.plants import plant, written
from tools.generator.scripts import ScriptMaker
from tools.generator.spoiling import spoiled, with_other_operators

OF_EACH, MOST_OPERATORS, MOST_PLANT_FILE, MOST_ARRIVALS, SECONDS = 100, 3, 1_200, 3, 20
REPORT_EACH = 1_000
BEGINNING = b"melfjits-snapshot "
# The places of fields that are no numbers: an address, the bytes of a message or a reply, a name.
ADDRESS, BYTES, NAME = {b"flow": 2, b"response": 1, b"message": 1, b"request": 1}, {b"message": 2, b"response": 8}, {b"operator": 1}
NAMES = rb"[A-Za-z0-9]{1,16}"
PLANT_FAULTS = (rb"1", rb"[23] [a-z_]+(\[[0-9]+\])?(\.[a-z_]+(\[[0-9]+\])?)*", rb"[456] %s %s" % (NAMES, NAMES), rb"7 [0-9A-F]{12}", rb"8 [0-9]+",
                rb"(9|10) " + NAMES)
REFUSAL = re.compile(rb"fault: (?:state|snapshot ([1-9][0-9]*)|plant (?:%s))\n" % b"|".join(PLANT_FAULTS))


class Wrong(Exception):
    """Reports what is wrong with an answer."""


# Making texts

@lru_cache(maxsize=1)
def snapshot(number):
    """Returns a snapshot of a small plant, of which the number gives the plant and the script."""
    rng = random.Random(f"hostile snapshot {number}")
    made = None
    while made is None:
        made = some_snapshot(rng)
    return made.encode()


def some_snapshot(rng):
    """Returns a snapshot, or None if the plant is too big or does not rest."""
    made = plant(rng)
    text = written(rng, made)
    if len(made.operators) > MOST_OPERATORS or len(text) > MOST_PLANT_FILE or made.operators[0].name == "Slow":
        return None
    core = Core(read_plant(text))
    script = ScriptMaker(rng, made, core)
    script.lines(rng.randrange(4, 50))
    for line in ticks_to_rest(core):
        script.is_done(line)
    for book in core.books:
        add_arrivals(rng, book)
    return snapshot_of(core, text)


def add_arrivals(rng, book):
    """Puts messages and requests into an inbox. A script leaves none there, since a modem's line is handled at once."""
    for _ in range(rng.randrange(min(MOST_ARRIVALS, book.row.inbox) + 1)):
        request = rng.choice(book.row.sids), rng.randrange(65_536)
        book.inbox.append((rng.choice(book.row.modems), rng.choice((b"", b"\x0f\x00\x01", rng.randbytes(rng.randrange(12)), request, request))))


def text_of(number):
    """Returns the snapshot of which a text is made, and the text."""
    whole, rng = snapshot(number // OF_EACH), random.Random(f"hostile text {number}")
    if rng.random() < 0.03:
        text = with_other_operators(rng, whole)
        return whole, text if rng.random() < 0.5 else spoiled(rng, text)
    return whole, spoiled(rng, whole)


def input_of(text):
    return text + b"---\nK\n"


# Judging answers

def snapshot_in(data):
    """Returns the snapshot that an input begins with, and the lines of the script.

    The lines of the snapshot are those before the second line `---`. If there is none at all, one is added.
    """
    lines = data.split(b"\n")
    bars = [place for place, line in enumerate(lines) if line == b"---"]
    if len(bars) < 2:
        return data if bars else data + b"---\n", []
    return b"\n".join(lines[:bars[1]]) + b"\n", lines[bars[1] + 1:]


def judged(whole, data, answer):
    """Returns what an answer is counted as. Raises Wrong if it is none that an input made of a snapshot may have."""
    status, output = answer
    text, script = snapshot_in(data)
    if status == 3:
        return judged_refusal(whole, text, output)
    if status == 6:
        return judged_io(text, output)
    if status != 0:
        raise Wrong(f"status {status}")
    if not data.startswith(BEGINNING):
        return "status 0: no snapshot, but a plant file"
    if not is_ended(text):
        raise Wrong("the last line is wrong, and the text is accepted")
    return judged_resumption(text, script, output)


def judged_refusal(whole, text, output):
    found = REFUSAL.fullmatch(output)
    if found is None:
        raise Wrong("no line of a fault")
    if text == whole:
        raise Wrong("a whole snapshot is refused")
    if found[1] is not None and not least_line(whole, text) <= int(found[1]) <= text.count(b"\n") + 1:
        raise Wrong("the line of the fault is another one")
    return "status 3: " + " ".join(output.decode().split(" ")[:2]).strip()


def judged_io(text, output):
    if output != b"fault: io\n":
        raise Wrong("no line of a fault")
    try:
        text.decode()
    except UnicodeDecodeError:
        return "status 6: fault: io"
    raise Wrong("the text is UTF-8")


def judged_resumption(text, script, output):
    """Judges the answer to a snapshot that is accepted."""
    if script != [b"K", b""]:
        return "status 0: resumed, with a script in the text"
    expected = written_back(text)
    if output == expected:
        return "status 0: resumed and written back" + ("" if output == text else " in another spelling")
    if not has_other_operators(expected, output):
        raise Wrong("it is not written back as it was")
    return "status 0: resumed, with operators in another order or anew"


def has_other_operators(expected, output):
    """Tests whether an answer is a snapshot, except that its operators may have another order, and some may begin anew."""
    (front, *operators), (other_front, *others) = parts_of(expected), parts_of(output)
    front = re.sub(rb"[0-9]+\n\Z", b"%d\n" % len(others), front)
    before = front + b"".join(others)
    return others != operators and set(operators) <= set(others) and other_front == front and output == before + last_line(before)


def least_line(whole, text):
    """Returns the first line that may be invalid: the first in which a text differs from the whole snapshot, or the first of the plant file."""
    lines, others = whole.split(b"\n"), text.split(b"\n")
    pairs = enumerate(zip(lines, others), 1)
    first = next((number for number, (line, other) in pairs if line != other), min(len(lines), len(others)))
    return min(first, 2) if first <= lines.index(b"---") else first


def is_ended(text):
    """Tests whether the last line of a snapshot has the number of the lines before it and their checksum."""
    before, bar, last = text.rpartition(b"\nend ")
    before += b"\n"
    found = re.fullmatch(rb"0*([0-9]{1,10}) 0*([0-9]{1,10})\n", last)
    return bool(bar) and found is not None and (int(found[1]), int(found[2])) == (before.count(b"\n"), zlib.adler32(before))


def written_back(text):
    """Returns a snapshot in the spelling in which the program writes it."""
    first, _, rest = text.partition(b"\n")
    length = int(first.split(b" ")[2])
    front = b"%s1 %d\n" % (BEGINNING, length) + rest[:length]
    records = rest[length:].split(b"\n")[:-2]
    before = front + b"".join(respelled(record.split(b" ")) + b"\n" for record in records)
    return before + last_line(before)


def respelled(fields):
    word = fields[0]
    for place, field in enumerate(fields):
        if place in (ADDRESS.get(word), BYTES.get(word)):
            fields[place] = field.upper() or b"-"
        elif place != NAME.get(word):
            fields[place] = re.sub(rb"(?<![0-9])0+(?=[0-9])", b"", field)
    return b" ".join(fields)


def last_line(before):
    return b"end %d %d\n" % (before.count(b"\n"), zlib.adler32(before))


def parts_of(text):
    """Returns a snapshot up to its operators, and the records of each operator. The last line is left out."""
    return re.split(rb"(?m)^(?=operator )", text[:text.rfind(b"\nend ") + 1])


# Counting

def try_some(program, compared, numbers):
    """Returns what some texts gave, and a report for each answer that is wrong."""
    started, counts, found = None if program is None else Started(program, SECONDS), Counter(), []
    for number in numbers:
        whole, text = text_of(number)
        if number % OF_EACH == 0:
            counts += records_of(whole)
        data = input_of(text)
        answer = reference_answer(["resume"], data) if started is None else started.answer(["resume"], data)
        try:
            counts[judged(whole, data, answer)] += 1
            if started is not None and number % compared == 0:
                counts["answers compared with the second implementation"] += 1
                judge_same(answer, reference_answer(["resume"], data))
        except Wrong as wrong:
            found.append(f"text {number}: {wrong}\n{shown(data)}answer: status {answer[0]}\n{shown(answer[1])}")
    if started is not None:
        started.close()
    return counts, found


def judge_same(answer, expected):
    if answer != expected:
        raise Wrong(f"the second implementation answers otherwise: status {expected[0]}\n{shown(expected[1])}")


def shown(data):
    return data.decode(errors="backslashreplace")


def records_of(text):
    """Counts what a snapshot has that is spoiled."""
    counts = Counter(["snapshots"])
    for line in text[text.rfind(b"\n---\n"):].decode().splitlines():
        fields = line.split(" ")
        what = {"flow": "flows", "response": "cached responses", "message": "messages", "request": "requests"}.get(fields[0])
        if what is not None:
            counts[f"snapshots: {what}"] += 1
        counts["snapshots: responses that wait"] += fields[0] == "response" and fields[5] == "waiting"
        counts["snapshots: flows with pending sets"] += fields[0] == "flow" and fields[7] != "-"
        counts["snapshots: flows with a backlog"] += fields[0] == "flow" and fields[-2] != "0"
        counts["snapshots: operators with a slice change that waits"] += fields[0] == "next" and fields[1] != "-"
    return counts


def main():
    show_help(__doc__)
    ask = argparse.ArgumentParser("hostile_snapshots", add_help=False)
    ask.add_argument("first", type=int, nargs="?")
    ask.add_argument("count", type=int, nargs="?")
    ask.add_argument("--program")
    ask.add_argument("--workers", type=int, default=2)
    ask.add_argument("--compared", type=int, default=1)
    ask.add_argument("--show", type=int)
    asked = ask.parse_args()
    if asked.show is not None:
        sys.stdout.buffer.write(input_of(text_of(asked.show)[1]))
        return
    if asked.count is None:
        ask.error("FIRST and COUNT are required")
    tasks = trials.tasks_of(asked.first, asked.count, OF_EACH)
    sys.exit(trials.run(partial(try_some, asked.program, asked.compared), tasks, asked.workers, REPORT_EACH))


if __name__ == "__main__":
    main()
