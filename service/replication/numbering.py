"""Numbers the lines of a stream: a message holds whole lines, and the number of a line counts from the beginning of the stream."""

from dataclasses import dataclass


def lines_of(body):
    """Returns the lines of a message. Each ends with LF, which the last may lack."""
    lines = body.split(b"\n")
    return lines if lines[-1] else lines[:-1]


@dataclass(frozen=True)
class Position:
    """A place in a stream of lines: the offset of the last message before it, -1 if there is none, and the number of the last line."""
    offset: int = -1
    lines: int = 0

    def after(self, offset, lines):
        """Returns the place after a message."""
        return Position(offset, self.lines + len(lines))
