"""The numbers of the header, and the exception for each number that a call returns."""

import enum


class Code(enum.IntEnum):
    """What a call of the library returns: `melfjits_code` of the header."""

    DONE = 0
    NO_MEMORY = 1
    CLOSED = 2
    SHORT = 3
    NONE_WAITS = 4
    RECEIVED = 5
    NOT_TOML = 10
    MISSING_KEY = 11
    BAD_VALUE = 12
    SLICES_OVERLAP = 13
    SIDS_OVERLAP = 14
    SFIDS_OVERLAP = 15
    MODEM_TWICE = 16
    TOO_MANY_ELEMENTS = 17
    PLANT_BUDGET_OVER_SLICE = 18
    PROVISIONED_OVER = 19
    UNKNOWN_MODEM = 20
    UNKNOWN_OPERATOR = 21
    FRAMES_SPENT = 22
    NOTHING_TO_COLLECT = 23
    ROW_COUNT = 30
    NOT_PAST = 31
    UNFINISHED = 32
    OFF_FRAME = 33
    NEW_SLICES_OVERLAP = 34
    BUDGET_OVER_SLICE = 35
    UNFIT = 36
    FRAME_WAITS = 40
    NOT_AT_FRAME = 41
    CONSTANTS_DIFFER = 42
    STATE_REFUSED = 43
    NOT_TOGETHER = 44
    NOT_A_SNAPSHOT = 45
    UNKNOWN_NAME = 46


class Kind(enum.IntEnum):
    """What an output is: `melfjits_kind` of the header."""

    REPLY = 1
    SILENT = 2
    FRAME = 3
    MAP = 4


class Cause(enum.IntEnum):
    """Why a message has no reply, or a bandwidth request no effect. The names are those of docs/FORMATS.md, such as `InboxFull`."""

    INBOX_FULL = 1
    IDLE = 2
    EMPTY = 3
    NOT_OURS = 4
    SHORT = 5
    TID_IN_USE = 6
    UNKNOWN_ACK = 7
    NO_SUCH_SID = 8
    NOT_REQUESTING = 9

    def __str__(self):
        return self.name.title().replace("_", "")


TEXTS = {
    Code.NO_MEMORY: "out of memory, nothing has changed",
    Code.CLOSED: "the channel is closed",
    Code.RECEIVED: "out of memory before the message was handled: it is in the inbox, call work()",
    Code.NOT_TOML: "the plant file is not TOML",
    Code.MISSING_KEY: "a required key of the plant file is missing",
    Code.BAD_VALUE: "a value of the plant file has another type or is out of range",
    Code.SLICES_OVERLAP: "slices of two operators overlap",
    Code.SIDS_OVERLAP: "SID ranges of two operators overlap",
    Code.SFIDS_OVERLAP: "SFID ranges of two operators overlap",
    Code.MODEM_TWICE: "the address of a modem is listed twice",
    Code.TOO_MANY_ELEMENTS: "the operators have more elements than a MAP can hold",
    Code.PLANT_BUDGET_OVER_SLICE: "the budget of an operator is more than its slice",
    Code.PROVISIONED_OVER: "the provisioned flows of an operator do not fit",
    Code.UNKNOWN_MODEM: "no operator has this modem",
    Code.UNKNOWN_OPERATOR: "there is no operator at this place",
    Code.FRAMES_SPENT: "the last frame number is used",
    Code.NOTHING_TO_COLLECT: "the operator has no frame that was not collected",
    Code.ROW_COUNT: "a slice change needs one row for each operator",
    Code.NOT_PAST: "a slice change has to start at a later frame",
    Code.UNFINISHED: "an earlier slice change is still pending",
    Code.OFF_FRAME: "a new slice is empty, or not after the head and within the frame",
    Code.NEW_SLICES_OVERLAP: "new slices of two operators overlap",
    Code.BUDGET_OVER_SLICE: "a new budget is more than its slice",
    Code.UNFIT: "more minislots are committed than a new budget",
    Code.FRAME_WAITS: "a frame of an operator is not collected yet",
    Code.NOT_AT_FRAME: "an operator is before another frame than the first one",
    Code.CONSTANTS_DIFFER: "what all operators share would change",
    Code.STATE_REFUSED: "an operator's state does not fit its row of the plant file",
    Code.NOT_TOGETHER: "the operators' frames or slices do not go together",
    Code.NOT_A_SNAPSHOT: "the text is not a snapshot",
    Code.UNKNOWN_NAME: "the plant file has no operator of a saved name",
}


class Error(Exception):
    """A call was refused. `code` is what it returned: a `Code`, or a number that the header does not name."""

    def __init__(self, code):
        self.code = Code(code) if code in TEXTS else code
        super().__init__(TEXTS.get(code, f"the library returned {code}"))


class OutOfMemory(Error, MemoryError):
    """Memory ran out before any effect. The same call can be made again."""


class NotHandled(Error, MemoryError):
    """The message is in the inbox of its operator, and memory ran out before it was handled. `Channel.work` handles it."""


class ClosedError(Error, ValueError):
    """The channel is closed already."""


class PlantError(Error, ValueError):
    """The plant file is refused."""


class StepError(Error, ValueError):
    """A step is refused, and nothing has changed."""


class SliceChangeError(Error, ValueError):
    """A slice change is refused, and nothing has changed."""


class StateError(Error, ValueError):
    """A channel is not saved, or its plant is not changed or does not start in saved states. Nothing has changed."""


def check(code):
    """Raises the exception of a code, unless it is DONE."""
    if code == Code.DONE:
        return
    single = {Code.NO_MEMORY: OutOfMemory, Code.CLOSED: ClosedError, Code.RECEIVED: NotHandled}
    of_tens = {1: PlantError, 2: StepError, 3: SliceChangeError, 4: StateError}
    raise single.get(code, of_tens.get(code // 10, Error))(code)
