#!/usr/bin/env python3
"""Appends the whole lines of one client to the record, each as soon as its end has come. serve_plant.sh has socat start one for each
client, whose socket is its standard input.

    whole_lines.py RECORD < LINES

What the client leaves behind its last LF is dropped. A line of more than 4,096 bytes, its LF not counted, is not kept: a line at fault is
written in its place, so that it has its number and changes nothing. Lines of several clients do not mix, whatever their length: each is
appended under a lock of the record. Where an earlier writer was killed in the middle of a line, that line is ended as one at fault first.
"""

import contextlib
import fcntl
import os
import sys
import time

LONGEST = 4_096
TOO_LONG = b"(a line of more than 4,096 bytes)"
# No line with this byte is UTF-8, so each is at fault.
UNFINISHED = b"\xff\n"
SECONDS_WHERE_FULL = 0.5


def whole_lines(source):
    """The whole lines that come, and in place of each that is too long the line at fault. Keeps no more than one line."""
    rest, too_long = b"", False
    while chunk := os.read(source, 65_536):
        *ended, rest = (rest + chunk).split(b"\n")
        for line in ended:
            yield TOO_LONG if too_long or len(line) > LONGEST else line
            too_long = False
        if len(rest) > LONGEST:
            rest, too_long = b"", True


def ends_in_a_line(record):
    size = os.fstat(record).st_size
    return size > 0 and os.pread(record, 1, size - 1) != b"\n"


def append(record, data):
    """Writes it all. Where the disk is full it waits: a part of a line must not become another line."""
    while data:
        try:
            data = data[os.write(record, data):]
        except OSError as fault:
            with contextlib.suppress(OSError):  # (standard error may be on the same disk)
                print(f"whole_lines: {fault}; tried again", file=sys.stderr, flush=True)
            time.sleep(SECONDS_WHERE_FULL)


def keep(record, line):
    """One line into the record, alone."""
    fcntl.flock(record, fcntl.LOCK_EX)
    try:
        append(record, (UNFINISHED if ends_in_a_line(record) else b"") + line + b"\n")
    finally:
        fcntl.flock(record, fcntl.LOCK_UN)


def main():
    if len(sys.argv) != 2:
        sys.exit(__doc__)
    record = os.open(sys.argv[1], os.O_RDWR | os.O_APPEND | os.O_CREAT, 0o640)
    try:
        for line in whole_lines(sys.stdin.fileno()):
            keep(record, line)
    except ConnectionResetError:
        pass  # (the client has gone; what it left of a line is dropped)


if __name__ == "__main__":
    main()
