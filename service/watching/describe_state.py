"""Prints the state of a channel in words: its frame, for each operator slice, budget, flows, what is committed, responses and inbox, and
for each modem its flows, with their sets and what is known of their requests.

    describe_state [--json] --channel NAME    says it of the channel NAME of this machine
    describe_state [--json] --folder FOLDER   reads the folder of a channel, such as /var/lib/plant_script/NAME/folder
    describe_state [--json] FILE              reads a snapshot; - is standard input
    describe_state --release ADDRESS ..       prints the lines that delete all flows of a modem; .. is one of the three above

--json prints an object in place of the words. Of a channel with a folder the state is computed from a copy of the journal there, also while
the channel is stopped. Only root and the user _plant_script may read the folder. A program does the lines of the copy again: the one that
PLANT_SCRIPT names, or /usr/bin/plant_script, or the one that ./prove has built.

If /etc/plant_script/NAME.env has an empty FOLDER=, --channel asks the channel for a snapshot by the line K. This needs the rights of a
client: a member of the group of the pipe has them. The channel must run with a STATE, and its answers must be in a file. The snapshot is
one more answer there. Its readers skip it.

--release is for a modem that is gone. It prints a DSD-REQ in the modem's name for each flow, as a line of `serve`, and deletes nothing by
itself. Each line is written at once, so the output may go into the pipe of the channel. A flow whose sets await an acknowledgement has no
line, nor has one for whose response there is no room: standard error says after how many ticks to give the command once more.

Exit status: 0 success, also if the modem has no flows; 1 there is no state, or no program that computes it; 2 wrong arguments, a malformed
address, or one that no operator lists; 3 the text is not a snapshot; 4 --release leaves flows for later; 6 a file cannot be read or written.
"""

import argparse
import dataclasses
import json
import os
import pathlib
import re
import stat
import sys
import time

from service.reference.resuming import SNAPSHOT

from .folder_states import NoState, program_of, snapshot_of_folder
from .modem_flows import counted, modem_words
from .operator_state import Unreadable, read_books, read_state
from .outputs import Outputs
from .release import NotListed, judged_address, release_of
from .snapshot_requests import write_request

PIPE, ANSWERS = "/run/plant_script/{}/in", "/var/lib/plant_script/{}/answers"
SETTINGS, FOLDER = "/etc/plant_script/{}.env", "/var/lib/plant_script/{}/folder"
LEFT_FOR_LATER = 4
SECONDS = 5
PAUSE_SECONDS = 0.05


class NoAnswer(Exception):
    """A channel gave no snapshot."""


class Missing(Exception):
    """A file or a folder is missing, or may not be read."""


def listed(counts, words):
    """Returns what is counted, in parentheses and without what does not occur. Some names have other words."""
    text = ", ".join(f"{count} {words.get(name, name)}" for name, count in counts.items() if count)
    return f" ({text})" if text else ""


def share_words(share):
    return f"{counted(share.length, 'minislot')} from minislot {share.start} on, budget {share.budget}"


def operator_words(one):
    """Returns the paragraph of an operator."""
    change = "none waits" if one.next_slice is None else f"from frame {one.next_frame} on, {share_words(one.next_slice)}"
    flows = listed(one.flows, {"null": "without a set"})
    responses = listed(one.responses, {"awaiting": "awaiting an acknowledgement"})
    return "\n".join((
        f"Operator {one.name}",
        f"  slice: {share_words(one.slice)}",
        f"  slice change: {change}",
        f"  flows: {sum(one.flows.values())} of at most {one.flows_limit}{flows}",
        f"  committed: {one.committed_minislots} of {one.slice.budget} minislots of the budget, {one.committed_elements} of {one.elements_limit} elements of a MAP",
        f"  cached responses: {sum(one.responses.values())} of at most {one.responses_limit}{responses}",
        f"  inbox: {one.inbox} of at most {one.inbox_limit}",
        f"  backlog: {counted(one.backlog_minislots, 'minislot')}",
    ))


def words_of(state):
    """Returns the state of a channel in words: an operator in each paragraph, then a modem that has flows in each."""
    head = f"The channel is before frame {state.frame}. It has {counted(len(state.operators), 'operator')}."
    return "\n\n".join((head, *map(operator_words, state.operators), *map(modem_words, state.modems))) + "\n"


def object_of(state):
    """Returns the state of a channel as an object of JSON."""
    members = {name: [dataclasses.asdict(one) for one in getattr(state, name)] for name in ("operators", "modems")}
    return json.dumps({"frame": state.frame, **members}, indent=2) + "\n"


def why_not_written(pipe):
    """Returns why a line cannot be written into the pipe of a channel."""
    try:
        if not stat.S_ISFIFO(os.stat(pipe).st_mode):
            return "it is not a pipe. Remove the file and restart the unit plant@NAME.socket"
        os.close(os.open(pipe, os.O_WRONLY | os.O_NONBLOCK))
    except FileNotFoundError:
        return "it is missing. The channel is not started, or has another name"
    except PermissionError:
        return "you may not write there. Root may, and members of its group"
    except OSError:
        return "nobody reads it: the channel does not run"
    return "it is full: the channel does not read it"


def ask_channel(pipe, answers, seconds=SECONDS):
    """Returns the next snapshot in the answers of a channel, which gets a line K."""
    with open(answers, "rb") as file:
        file.seek(0, 2)
        if not write_request(pipe):
            raise NoAnswer(f"the line K cannot be written into {pipe}: {why_not_written(pipe)}")
        outputs, last, end = Outputs(), b"", time.monotonic() + seconds
        while time.monotonic() < end:
            for output in outputs.take(file.read()):
                if output.startswith(SNAPSHOT):
                    return output
                last = output if output.startswith(b"fault: ") else last
            time.sleep(PAUSE_SECONDS)
    if not last:
        raise NoAnswer(f"no snapshot in {seconds} seconds, and no fault: nobody answers the pipe, or the answers are not in {answers}")
    raise NoAnswer(f"no snapshot in {seconds} seconds. The answers have {last.decode(errors='replace')}, of this request or of another client's "
                   "line. The channel refuses the request if some operators have ticked and others not, or if its settings have an empty STATE=")


def read_arguments():
    ask = argparse.ArgumentParser("describe_state", description=__doc__, formatter_class=argparse.RawDescriptionHelpFormatter)
    ask.add_argument("--json", action="store_true", help="print an object")
    ask.add_argument("--release", metavar="ADDRESS", help="print the lines that delete all flows of a modem")
    ask.add_argument("--channel", metavar="NAME", help="a channel of the machine")
    ask.add_argument("--folder", metavar="FOLDER", help="the folder of a channel")
    ask.add_argument("file", metavar="FILE", nargs="?", help="a snapshot")
    asked = ask.parse_args()
    if (asked.channel, asked.folder, asked.file).count(None) != 2:
        ask.error("give --channel NAME, --folder FOLDER or a FILE")
    if asked.json and asked.release is not None:
        ask.error("--release prints lines: give it without --json")
    return asked


def folder_of(channel):
    """Returns the folder of a channel, or an empty text if its settings say that it has none."""
    path = pathlib.Path(SETTINGS.format(channel))
    found = re.findall(r"(?m)^FOLDER=(.*)$", path.read_text()) if path.exists() else []
    return found[-1].strip("\"' ") if found else FOLDER.format(channel)


def judge_folder(folder):
    """Raises Missing if a folder has no journal that can be read, and says what is missing."""
    try:
        path = pathlib.Path(folder)
        if not path.is_dir():
            raise Missing(f"there is no folder {folder}: no channel has run with it on this machine, or its name is another")
        with open(path / "journal", "rb"):
            pass
    except FileNotFoundError as fault:
        raise Missing(f"the folder {folder} has no file journal: no channel has run with it") from fault
    except PermissionError as fault:
        raise Missing(f"you may not read {folder}/journal: only root and the user _plant_script may") from fault


def judge_answers(path):
    """Raises Missing if the answers of a channel cannot be read, and says why."""
    try:
        with open(path, "rb"):
            pass
    except FileNotFoundError as fault:
        raise Missing(f"there are no answers {path}: the channel has not run, or its settings have another ANSWERS=") from fault
    except PermissionError as fault:
        raise Missing(f"you may not read {path}: root may, and members of its group") from fault


def state_in_folder(folder):
    judge_folder(folder)
    try:
        return snapshot_of_folder(folder, program_of(os.environ.get("PLANT_SCRIPT")))
    except NoState as fault:
        raise NoAnswer(f"the journal in {folder} gives no state: {fault}") from fault


def snapshot_of(asked):
    folder = asked.folder if asked.channel is None else folder_of(asked.channel)
    if folder:
        return state_in_folder(folder)
    if asked.channel is None:
        return sys.stdin.buffer.read() if asked.file == "-" else pathlib.Path(asked.file).read_bytes()
    answers = ANSWERS.format(asked.channel)
    judge_answers(answers)
    return ask_channel(PIPE.format(asked.channel), answers)


def print_release(address, data):
    """Prints the lines that delete the flows of a modem, each by one write, and returns the exit status."""
    release = release_of(read_books(data), address)
    for line in release.lines:
        # (print may write the LF by itself)
        sys.stdout.write(f"{line}\n")
        sys.stdout.flush()
    for remark in release.remarks:
        print(f"describe_state: {remark}", file=sys.stderr)
    return 0 if release.is_complete else LEFT_FOR_LATER


def describe(asked):
    """Prints what is asked, and returns the exit status."""
    if asked.release is not None:
        address = judged_address(asked.release)
        return print_release(address, snapshot_of(asked))
    state = read_state(snapshot_of(asked))
    print(object_of(state) if asked.json else words_of(state), end="", flush=True)
    return 0


def leave_output():
    """Drops what standard output has not accepted, so that nobody tries to write it at the end."""
    os.dup2(os.open(os.devnull, os.O_WRONLY), sys.stdout.fileno())


def main():
    asked = read_arguments()
    try:
        status = describe(asked)
    except BrokenPipeError:
        leave_output()
        status = 6
    except (NoAnswer, NotListed, Unreadable, Missing, OSError) as fault:
        print(f"describe_state: {fault}", file=sys.stderr)
        status = next(status for kind, status in ((NoAnswer, 1), (NotListed, 2), (Unreadable, 3), (Missing, 6), (OSError, 6)) if isinstance(fault, kind))
        if isinstance(fault, OSError):
            leave_output()
    sys.exit(status)


if __name__ == "__main__":
    main()
