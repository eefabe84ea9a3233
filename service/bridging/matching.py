"""Finds the line that an answer belongs to. The channel answers its lines in their order, and says of no answer which line it is for.

Some lines always have an answer, such as a DSA-REQ or a tick. An answer belongs to no line after the first of these that has none yet: the
barrier. Where several lines can have an answer, no number is known. This is right if nobody else writes lines for the same modems into the
pipe, and nobody else ticks.

When the program starts, lines before may have lost their answers. So none of them is a barrier any more, and no tick has a number before all
ticks that were without an answer have one, or a later reply shows that they have none.
"""

from collections import deque

from .lines import MOST_FRAME, SILENT, Kind

# Lines that can have a drop reason. InboxFull comes from no line of a service.
OF_CAUSE = {"UnknownAck": Kind.ACKNOWLEDGEMENT, "NoSuchSid": Kind.BANDWIDTH, "NotRequesting": Kind.BANDWIDTH, "TidInUse": Kind.REQUEST,
            "Empty": Kind.DROPPED, "Short": Kind.DROPPED, "NotOurs": Kind.DROPPED}
# Lines of the owner that can be refused. A tick is refused after the last frame number only.
REFUSED_KINDS = (Kind.SLICES, Kind.SNAPSHOT, Kind.RENUMBERING)


class Entry:
    """A line that was passed on. If it stands for several ones, from `first` to `sequence`, it has no number. It is counted if its sender waits
    for its answer."""
    __slots__ = ("first", "sequence", "sender", "number", "step", "is_done", "is_counted")

    def __init__(self, sequence, sender, number, step):
        self.first, self.sequence, self.sender, self.number, self.step = sequence, sequence, sender, number, step
        self.is_done, self.is_counted = False, step.kind not in SILENT
        sender.unanswered += self.is_counted

    def discount(self):
        self.sender.unanswered -= self.is_counted
        self.is_counted = False


def drop_done(entries):
    """Removes the lines that are over from the beginning of a queue, and returns the queue."""
    while entries and entries[0].is_done:
        entries.popleft()
    return entries


class Pending:
    """The lines that were passed on and may have an answer yet: all, those of each modem, the barriers, and the ticks."""

    def __init__(self):
        self.sequence = 0
        self.entries, self.barriers, self.ticks, self.of_modem = deque(), deque(), deque(), {}
        self.ticks_are_sure, self.last_tick, self.last_frame = True, None, 0

    def add(self, sender, number, step):
        """Adds a line that a sender has numbered. `sender.unanswered` counts those of its lines that always have an answer."""
        self.sequence += 1
        if step.kind in SILENT and self.joins(step):
            return
        entry = Entry(self.sequence, sender, number, step)
        self.entries.append(entry)
        self.of_modem.setdefault(step.modem, deque()).append(entry)
        if step.kind is Kind.TICK:
            self.ticks.append(entry)
        if step.kind not in SILENT and (step.kind is not Kind.TICK or self.ticks_are_sure):
            self.barriers.append(entry)

    def joins(self, step):
        """Adds a line to the last one of its kind and modem, if no barrier is between them: no answer could tell them apart."""
        for entry in reversed(self.of_modem.get(step.modem, ())):
            if self.barriers and entry.sequence < self.barriers[-1].sequence:
                return False
            if entry.step.kind is step.kind and not entry.is_done:
                entry.sequence, entry.number = self.sequence, None
                return True
        return False

    def barrier(self):
        """Returns the place of the first barrier, or of the last line."""
        return self.barriers[0].sequence if drop_done(self.barriers) else self.sequence

    def only(self, modem, holds):
        """Returns the only line of a modem that an answer can belong to, or None."""
        return self.single(self.of_modem.get(modem, ()), holds)

    def single(self, entries, holds):
        """Returns the only one of some lines, up to the barrier, that an answer can belong to, or None. If it is one of several, and the barrier
        is among these, that may have its answer: it is no barrier any more."""
        barrier, found = self.barrier(), []
        for entry in entries:
            if entry.first > barrier:
                break
            if not entry.is_done and entry.sequence <= barrier and holds(entry.step):
                found.append(entry)
        if len(found) > 1 and self.barriers and self.barriers[0] in found:
            self.barriers.popleft()
        return found[0] if len(found) == 1 else None

    def settle(self, entry, is_over=True):
        """Notes that a line has an answer, so that the lines before it are over. Others that it stands for may have theirs yet."""
        if entry is not None:
            while self.entries and self.entries[0].sequence < entry.first:
                self.end(self.entries.popleft())
            if is_over and entry.number is not None:
                self.end(entry)
        return entry

    def end(self, entry):
        """Notes that a line is over."""
        if not entry.is_done:
            entry.is_done = True
            entry.discount()
            if not drop_done(self.of_modem[entry.step.modem]):
                del self.of_modem[entry.step.modem]
        self.ticks_are_sure = self.ticks_are_sure or not drop_done(self.ticks)

    # What answers the channel gives

    def reply(self, modem, text):
        """Returns the line of a reply, given in hexadecimal. Without one it is a retransmission, or for another client of the pipe."""
        return self.settle(self.only(modem, lambda step: step.kind is Kind.REQUEST and text.startswith(step.detail)))

    def drop(self, modem, cause):
        """Returns the line of a drop reason."""
        kind = OF_CAUSE.get(cause)
        return self.settle(self.only(modem, lambda step: step.kind is kind and (kind is not Kind.DROPPED or step.detail == cause)))

    def frame(self, operator, number, is_last):
        """Returns the tick of a frame. The frame of the last operator ends a tick of all operators."""
        entry = drop_done(self.ticks)[0] if self.ticks else None
        self.last_tick, self.last_frame = None, number
        if entry is not None and entry.sequence <= self.barrier() and entry.step.detail in ("", operator):
            is_sure = self.ticks_are_sure
            self.settle(entry, is_over=is_last or entry.step.detail == operator)
            self.last_tick = entry if is_sure else None
        return self.last_tick

    def of_kind(self, kind):
        """Returns the line of an answer that only lines of this kind have: a snapshot, or another frame number."""
        return self.settle(self.only("", lambda step: step.kind is kind))

    def fault(self):
        """Returns the line of `fault: line n`: the only line of the owner that can be refused, or else the only line that there is."""
        is_end = self.last_frame >= MOST_FRAME
        entry = self.only("", lambda step: step.kind in REFUSED_KINDS or is_end and step.kind is Kind.TICK)
        return self.settle(entry or self.single(self.entries, lambda step: True))

    # What is no answer

    def restart(self):
        """Notes that the program has started."""
        for entry in self.entries:
            entry.discount()
        self.barriers.clear()
        self.last_tick = None
        self.ticks_are_sure = not drop_done(self.ticks)

    def forget(self):
        """Notes that no line has an answer any more."""
        while self.entries:
            self.end(self.entries.popleft())
        self.last_tick = None
