"""The types and the calls of the header bindings/c/melfjits.h, for ctypes."""

import ctypes
import functools
import os

SHARED_LIBRARY = "libmelfjits.so.0"  # with the number of the ABI that this package is for


class Handle(ctypes.Structure):
    """A handle: closed while all its bytes are 0. Only the calls of the library read or write its members."""

    _fields_ = (("ptr", ctypes.c_void_p), ("is_open", ctypes.c_bool))


class Modem(ctypes.Structure):
    """The hardware address of a cable modem."""

    _fields_ = (("bytes", ctypes.c_uint8 * 6),)


class Slice(ctypes.Structure):
    """A slice and a budget of an operator, in minislots of a frame."""

    _fields_ = (("start", ctypes.c_uint16), ("length", ctypes.c_uint16), ("budget", ctypes.c_uint16))


class Output(ctypes.Structure):
    """What an output is, and how long its bytes and its grants are."""

    _fields_ = (
        ("kind", ctypes.c_uint32),
        ("cause", ctypes.c_uint32),
        ("operator_at", ctypes.c_size_t),
        ("frame", ctypes.c_uint32),
        ("modem", ctypes.c_uint8 * 6),
        ("length", ctypes.c_size_t),
        ("granted", ctypes.c_size_t),
        ("pending", ctypes.c_size_t),
    )


class Grant(ctypes.Structure):
    """Minislots granted to a SID. IUC 0 and no minislots are a grant pending."""

    _fields_ = (("sid", ctypes.c_uint16), ("iuc", ctypes.c_uint16), ("start", ctypes.c_uint16), ("length", ctypes.c_uint16))


TYPES = {"channel": Handle, "modem": Modem, "slice": Slice, "output": Output, "grant": Grant}
BYTES = ctypes.POINTER(ctypes.c_uint8)
CALLS = {
    "open": (ctypes.c_char_p, ctypes.c_size_t),
    "open_saved": (ctypes.c_char_p, ctypes.c_size_t),
    "save": (BYTES, ctypes.c_size_t, ctypes.POINTER(ctypes.c_size_t)),
    "change": (ctypes.c_char_p, ctypes.c_size_t),
    "close": (),
    "arrive": (ctypes.POINTER(Modem), ctypes.c_char_p, ctypes.c_size_t),
    "request": (ctypes.POINTER(Modem), ctypes.c_uint16, ctypes.c_uint16),
    "work": (ctypes.c_size_t,),
    "tick": (ctypes.c_size_t,),
    "collect": (ctypes.c_size_t,),
    "reslice": (ctypes.c_uint32, ctypes.POINTER(Slice), ctypes.c_size_t),
    "next_output": (ctypes.POINTER(Output), BYTES, ctypes.c_size_t, ctypes.POINTER(Grant), ctypes.c_size_t),
}


@functools.cache
def load_library(path=None):
    """Returns the shared library at a path, with the types of its calls.

    Without a path it is that of the environment variable MELFJITS_LIBRARY, or else `libmelfjits.so.0` where the system looks for libraries,
    as Debian's package libmelfjits0 has it. Raises OSError if there is none.
    """
    library = ctypes.CDLL(os.fspath(path or os.environ.get("MELFJITS_LIBRARY") or SHARED_LIBRARY))
    for name, arguments in CALLS.items():
        call = getattr(library, f"melfjits_{name}")
        call.argtypes, call.restype = (ctypes.POINTER(Handle), *arguments), ctypes.c_uint32
    return library
