"""Melfjits in Python: one DOCSIS upstream channel in this process, over the library for C.

`Channel` opens the channel of a plant file, performs its steps, returns their outputs, and saves it. The package needs no other one, and
the shared library: `load_library` says where it is looked for.
"""

from .c_types import load_library
from .channel import Channel
from .codes import Cause, ClosedError, Code, Error, NotHandled, OutOfMemory, PlantError, SliceChangeError, StateError, StepError
from .outputs import Drop, Frame, Map, Reply, Span

__all__ = (
    "Cause",
    "Channel",
    "ClosedError",
    "Code",
    "Drop",
    "Error",
    "Frame",
    "Map",
    "NotHandled",
    "OutOfMemory",
    "PlantError",
    "Reply",
    "SliceChangeError",
    "Span",
    "StateError",
    "StepError",
    "load_library",
)
