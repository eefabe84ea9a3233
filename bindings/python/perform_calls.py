"""Performs calls through the package melfjits, and prints their outputs: tools/compare/library_cases says how both look.

It is a test of the package, and an example of its use.
"""

import contextlib
import sys

from melfjits import Channel, Drop, Error, Frame, Reply


def line_of(output):
    """Returns an output as a line."""
    if isinstance(output, Reply):
        return f"R {output.modem} {output.message.hex().upper()}"
    if isinstance(output, Drop):
        return f"S {output.modem or '-'} {output.cause}"
    if isinstance(output, Frame):
        spans = [f"{span.sid}/{span.iuc}/{span.start}/{span.length}" for span in output.spans]
        return " ".join(["F", str(output.operator_at), str(output.number), *spans, *(f"{sid}/P" for sid in output.pending)])
    return f"MAP {output.number} {output.message.hex().upper()}"


def perform(channel, name, *fields):
    """Makes a call."""
    if name == "arrive":
        channel.arrive(fields[0], bytes.fromhex("".join(fields[1:])))
    elif name == "request":
        channel.request(fields[0], int(fields[1]), int(fields[2]))
    elif name == "reslice":
        channel.reslice(int(fields[0]), [[int(part) for part in field.split("/")] for field in fields[1:]])
    elif name == "tick":
        channel.tick(int(fields[0]))
    else:
        channel.collect(int(fields[0]))


def perform_case(plant, lines):
    """Performs the calls of a case until one is refused."""
    place = 0
    try:
        with contextlib.ExitStack() as opened:
            channel = opened.enter_context(Channel(plant))
            for place, line in enumerate(lines):
                if line == "reopen":
                    saved = channel.save()
                    channel.close()
                    channel = opened.enter_context(Channel.open_saved(saved))
                else:
                    perform(channel, *line.split(" "))
                for output in channel.outputs():
                    print(line_of(output))
    except Error as error:
        print(f"refused {place} {int(error.code)}")
    print("end")


def main():
    while head := sys.stdin.buffer.readline():
        plant = sys.stdin.buffer.read(int(head.split()[1]))
        perform_case(plant, list(iter(lambda: sys.stdin.buffer.readline().decode().rstrip("\n"), "end")))


if __name__ == "__main__":
    main()
