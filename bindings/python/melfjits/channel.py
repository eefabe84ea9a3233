"""A channel that is open."""

import ctypes
import os
import threading
from collections.abc import Iterable, Iterator

from .c_types import Grant, Handle, Modem, Output, Slice, load_library
from .codes import Code, check
from .outputs import AnyOutput, output_of

FIRST_BYTES, FIRST_GRANTS = 2048, 256


class Channel:
    """One upstream channel that is open, with its operators, modems and flows.

        with Channel(plant_text) as channel:
            channel.arrive("020000000001", message)
            for output in channel.outputs():
                ...

    Each call does all its work before it returns. Its outputs wait in the order in which they were made, until `next_output` fetches them.
    A refused call raises an `Error` and changes nothing, except for `NotHandled`. A channel is used on the thread that opened it.
    Operators are named by their places in the plant file, counted from 0. A modem is named by its address: 12 hexadecimal digits, with
    colons or hyphens between them or not, or 6 bytes.
    """

    def __init__(self, plant: str | bytes, library: str | os.PathLike | None = None):
        """Opens the channel of a plant file.

        `plant` is the text of the file, or its bytes in UTF-8. `library` is the path of the shared library, or None for the one that
        `load_library` finds. Raises `PlantError` if the file is refused, and `OutOfMemory`.
        """
        self._open("open", plant, library)

    @classmethod
    def open_saved(cls, snapshot: str | bytes, library: str | os.PathLike | None = None) -> "Channel":
        """Opens a channel that was saved. It goes on before the frame of its snapshot, and no output waits.

        `snapshot` is what `save` returned. `library` is as in `Channel(plant, library)`. Raises `StateError` if the text is not a snapshot
        or its plant does not start in its states, `PlantError` if the plant file in it is refused, and `OutOfMemory`.
        """
        channel = cls.__new__(cls)
        channel._open("open_saved", snapshot, library)
        return channel

    def _open(self, name, text, library):
        """Opens the channel of a text by a call of the library."""
        self._library, self._handle, self._thread = load_library(library), Handle(), threading.get_ident()
        self._bytes, self._grants = (ctypes.c_uint8 * FIRST_BYTES)(), (Grant * FIRST_GRANTS)()
        self._call_with_text(name, text)
        self._is_open = True

    def __enter__(self):
        return self

    def __exit__(self, *_):
        if self.is_open:
            self.close()

    @property
    def is_open(self) -> bool:
        """Whether the channel was not closed yet."""
        return self._is_open

    def close(self) -> None:
        """Closes the channel and frees its memory. Outputs that wait are lost. Raises `ClosedError` if it was closed already."""
        check(self._call("close"))
        self._is_open = False

    def save(self) -> bytes:
        """Returns a snapshot of the channel, with its plant file, for `open_saved`. Nothing changes.

        The channel has to rest before a frame: each operator ticked as often, and each frame is collected. Outputs that wait are not saved,
        and go on waiting. Raises `StateError` if the channel does not rest, `OutOfMemory` and `ClosedError`.
        """
        length = ctypes.c_size_t()
        code = self._call("save", self._bytes, len(self._bytes), length)
        if code == Code.SHORT:
            self._bytes = (ctypes.c_uint8 * length.value)()
            code = self._call("save", self._bytes, len(self._bytes), length)
        check(code)
        return ctypes.string_at(self._bytes, length.value)

    def change(self, plant: str | bytes) -> None:
        """Puts another plant file in force between two frames. Each operator goes on in its state, by its name.

        `plant` is as in `Channel(plant)`. The channel has to rest as for `save`. Outputs that wait go on waiting. Raises `PlantError` if
        the file is refused, `StateError` if the channel does not rest, or the file changes what all operators share or does not fit their
        states, `OutOfMemory` and `ClosedError`.
        """
        self._call_with_text("change", plant)

    def arrive(self, modem: str | bytes, message: bytes) -> None:
        """Receives a message of a modem, and handles the first of the inbox of its operator.

        `message` is a byte of message type and the payload, or no byte. Raises `StepError` if no operator has the modem, `NotHandled`,
        `OutOfMemory` and `ClosedError`.
        """
        message = bytes(message)
        check(self._call("arrive", _address_of(modem), message, len(message)))

    def request(self, modem: str | bytes, sid: int, minislots: int) -> None:
        """Receives a bandwidth request of a modem, and handles the first of the inbox of its operator.

        The minislots, 0 to 65,535, become the backlog of the flow with this SID. Raises what `arrive` raises.
        """
        check(self._call("request", _address_of(modem), _within(sid, 16), _within(minislots, 16)))

    def work(self, operator_at: int) -> None:
        """Handles the first message of an operator's inbox, after `NotHandled`. Raises `StepError`, `OutOfMemory` and `ClosedError`."""
        check(self._call("work", _place(operator_at)))

    def tick(self, operator_at: int) -> None:
        """Advances an operator's timers by a tick, and schedules its next frame.

        Raises `StepError` if there is no such operator or the frame numbers are spent, `OutOfMemory` and `ClosedError`.
        """
        check(self._call("tick", _place(operator_at)))

    def collect(self, operator_at: int) -> None:
        """Puts an operator's oldest frame into the assembly. The last part of a frame completes its MAP.

        Raises `StepError` if there is no such operator or no such frame, `OutOfMemory` and `ClosedError`.
        """
        check(self._call("collect", _place(operator_at)))

    def reslice(self, from_frame: int, rows: Iterable[tuple[int, int, int]]) -> None:
        """Gives each operator another slice and budget from a frame on.

        `rows` has `(start, length, budget)` in minislots for each operator, in the order of the plant file. Raises `SliceChangeError`,
        `OutOfMemory` and `ClosedError`.
        """
        made = [Slice(_within(start, 16), _within(length, 16), _within(budget, 16)) for start, length, budget in rows]
        check(self._call("reslice", _within(from_frame, 32), (Slice * len(made))(*made), len(made)))

    def next_output(self) -> AnyOutput | None:
        """Fetches the output that waits first: a `Reply`, `Drop`, `Frame` or `Map`, or None if none waits. Raises `ClosedError`."""
        code, head = self._fetch()
        if code == Code.NONE_WAITS:
            return None
        if code == Code.SHORT:
            self._bytes = (ctypes.c_uint8 * max(head.length, len(self._bytes)))()
            self._grants = (Grant * max(head.granted + head.pending, len(self._grants)))()
            code, head = self._fetch()
        check(code)
        return output_of(head, self._bytes, self._grants)

    def outputs(self) -> Iterator[AnyOutput]:
        """Yields the outputs that wait, and fetches them."""
        while (output := self.next_output()) is not None:
            yield output

    def _fetch(self):
        head = Output()
        return self._call("next_output", head, self._bytes, len(self._bytes), self._grants, len(self._grants)), head

    def _call_with_text(self, name, text):
        """Makes a call of the library with a text, or its bytes in UTF-8."""
        octets = text.encode() if isinstance(text, str) else bytes(text)
        check(self._call(name, octets, len(octets)))

    def _call(self, name, *arguments):
        """Makes a call of the library, and returns its number."""
        if threading.get_ident() != self._thread:
            raise RuntimeError("a channel is used on the thread that opened it")
        return getattr(self._library, f"melfjits_{name}")(self._handle, *arguments)


def _address_of(modem):
    """Returns the address of a modem as the library takes it."""
    octets = bytes.fromhex(modem.replace(":", "").replace("-", "")) if isinstance(modem, str) else bytes(modem)
    if len(octets) != 6:
        raise ValueError(f"the address of a modem has 6 bytes, not {len(octets)}")
    return Modem((ctypes.c_uint8 * 6)(*octets))


def _within(number, bits):
    """Returns a number if it has at most so many bits. ctypes would cut it."""
    if not 0 <= number < 1 << bits:
        raise ValueError(f"{number} is not a number from 0 to {(1 << bits) - 1}")
    return number


def _place(operator_at):
    return _within(operator_at, 8 * ctypes.sizeof(ctypes.c_size_t))
