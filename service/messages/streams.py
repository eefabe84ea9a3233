"""Reads standard input line by line, and ends a command whose input or output fails with a message and a status."""

import os
import sys

from .words import WordsFault

# What the program takes as an input, and so as a line of it.
MOST_BYTES = 1_048_576
IO_STATUS = 6


class InputFault(Exception):
    """Reports an input that cannot be read."""


class OutputFault(Exception):
    """Reports an output that cannot be written."""


class InputLines:
    """The lines of standard input, one at a time, without their ends. Other bytes than UTF-8 are kept as they are."""

    def __init__(self):
        self.number = 0
        if sys.stdin is None:
            raise InputFault("standard input is closed: give it a file or a pipe")
        sys.stdin.reconfigure(encoding="utf-8", errors="surrogateescape", newline="\n")

    def __iter__(self):
        return self

    def __next__(self):
        self.number += 1
        try:
            line = sys.stdin.readline(MOST_BYTES + 1)
        except OSError as fault:
            raise InputFault(f"standard input cannot be read: {fault.strerror}") from fault
        if not line:
            raise StopIteration
        if len(line) > MOST_BYTES:
            raise InputFault(f"line {self.number} has more than {MOST_BYTES} characters, which no input of the program has")
        return line.removesuffix("\n")


def write_lines(lines):
    """Prints lines. The first that cannot be written ends the command."""
    if sys.stdout is None:
        raise OutputFault("standard output is closed: all output is lost")
    sys.stdout.reconfigure(encoding="utf-8", errors="surrogateescape", write_through=False)
    try:
        write_and_flush(lines)
    except BrokenPipeError as fault:
        raise OutputFault("the reader of standard output has left: the rest of the output is lost") from fault
    except OSError as fault:
        raise OutputFault(f"standard output cannot be written: {fault.strerror}; the rest of the output is lost") from fault


def write_and_flush(lines):
    try:
        sys.stdout.writelines(line + "\n" for line in lines)
    finally:
        sys.stdout.flush()


def copied(lines_of):
    """Yields the lines that are made of those of standard input. Each is written when it is there. A fault gets the number of its line."""
    texts = InputLines()
    if sys.stdout is not None:
        sys.stdout.reconfigure(line_buffering=True)
    try:
        yield from lines_of(texts)
    except WordsFault as fault:
        raise WordsFault(f"line {texts.number}: {fault}") from fault


def leave_output():
    """Makes Python's last flush of standard output write to nowhere, once a write has failed."""
    if sys.stdout is not None:
        os.dup2(os.open(os.devnull, os.O_WRONLY), sys.stdout.fileno())


def report(text):
    """Writes a line to standard error, if there is one that takes it."""
    try:
        if sys.stderr is not None:
            print(text, file=sys.stderr, flush=True)
    except OSError:
        os.dup2(os.open(os.devnull, os.O_WRONLY), sys.stderr.fileno())
