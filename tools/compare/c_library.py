"""Drives the library for C through ctypes, and writes its outputs as the lines of a run."""

import ctypes
import pathlib
import re
import shutil
import subprocess

from bindings.python.melfjits.c_types import Grant, Handle, Modem, Output, Slice
from bindings.python.melfjits.codes import Cause
from tools import ROOT
from tools.packaging.build_library import ARCHIVE, archives, link_shared

HEADER = ROOT / "bindings/c"
DONE, SHORT, NONE_WAITS = 0, 3, 4


def names_of_codes():
    """Returns the names that the header gives to the numbers that a call returns."""
    numbers = re.search(r"enum melfjits_code \{(.*?)\};", (HEADER / "melfjits.h").read_text(), re.DOTALL)[1]
    return {int(number): name for name, number in re.findall(r"MELFJITS_(\w+) = (\d+)", numbers)}


def libraries():
    """Returns the archives that a C program is linked with, in their order."""
    return archives(ARCHIVE)


def is_built():
    """Returns whether the library is built, and there is a compiler to link it."""
    return ARCHIVE.is_file() and shutil.which("gcc") is not None and shutil.which("rt") is not None


def build_shared(folder):
    """Links the library as a shared one in a folder, as tools/run build_library does, and returns it."""
    return ctypes.CDLL(str(link_shared(libraries(), folder)))


def build_counting(folder):
    """Links it with the calls begin_counting and allocations, which count its allocations, and returns it."""
    path, (archive, heap) = pathlib.Path(folder, "counting.so"), libraries()
    words = ["-fPIC", "-Wl,--wrap=malloc,--wrap=realloc", ROOT / "tools/compare/counted_allocations.c"]
    subprocess.run(["gcc", "-shared", "-o", path, *words, "-Wl,--whole-archive", archive, "-Wl,--no-whole-archive", heap], check=True)
    return ctypes.CDLL(str(path))


def build_program(source, folder, *words):
    """Compiles and links a C program in a folder, and returns its path."""
    path = pathlib.Path(folder, pathlib.Path(source).stem)
    subprocess.run(["gcc", "-std=c11", "-Wall", "-Wextra", "-Werror", "-O1", "-g", f"-I{HEADER}", "-o", path, source, *libraries(), *words], check=True)
    return path


class Channel:
    """A channel of the library, driven by the lines of a script."""

    def __init__(self, library, size=4096, grants=512):
        self.library, self.handle, self.names = library, Handle(), []
        self.bytes, self.grants = (ctypes.c_uint8 * size)(), (Grant * grants)()

    def call(self, name, *arguments):
        """Makes a call, and returns its number."""
        return getattr(self.library, f"melfjits_{name}")(ctypes.byref(self.handle), *arguments)

    def open(self, text):
        """Opens the channel of a plant file's bytes."""
        return self.call("open", text, ctypes.c_size_t(len(text)))

    def open_saved(self, text):
        """Opens the channel of a snapshot's bytes."""
        return self.call("open_saved", text, ctypes.c_size_t(len(text)))

    def save(self, size=65_536):
        """Saves the channel into a buffer of this size. Returns the number of the call, and what was written or how long it is."""
        buffer, length = (ctypes.c_uint8 * size)(), ctypes.c_size_t()
        code = self.call("save", buffer, ctypes.c_size_t(size), ctypes.byref(length))
        return code, bytes(buffer[: length.value]) if code == DONE else length.value

    def change(self, text):
        """Puts the plant file of these bytes in force."""
        return self.call("change", text, ctypes.c_size_t(len(text)))

    def close(self):
        """Closes the channel."""
        return self.call("close")

    def arrive(self, modem, message):
        """Receives a message of a modem."""
        return self.call("arrive", ctypes.byref(modem_of(modem)), message, ctypes.c_size_t(len(message)))

    def request(self, modem, sid, minislots):
        """Receives a bandwidth request of a modem."""
        return self.call("request", ctypes.byref(modem_of(modem)), ctypes.c_uint16(sid), ctypes.c_uint16(minislots))

    def at(self, name, place):
        """Makes the call tick, collect or work for the operator at a place."""
        return self.call(name, ctypes.c_size_t(place))

    def reslice(self, start, rows):
        """Gives each operator another slice and budget from a frame on."""
        return self.call("reslice", ctypes.c_uint32(start), (Slice * len(rows))(*(Slice(*row) for row in rows)), ctypes.c_size_t(len(rows)))

    def fetch(self, size=None, grants=None):
        """Fetches the output that waits first into buffers of these sizes. Returns the number of the call, and the output's head."""
        head = Output()
        sizes = [len(self.bytes) if size is None else size, len(self.grants) if grants is None else grants]
        code = self.call("next_output", ctypes.byref(head), self.bytes, ctypes.c_size_t(sizes[0]), self.grants, ctypes.c_size_t(sizes[1]))
        return code, head

    def lines(self):
        """Returns the lines of all outputs that wait."""
        found = []
        while True:
            code, head = self.fetch()
            if code == NONE_WAITS:
                return found
            if code != DONE:
                raise AssertionError(f"melfjits_next_output: {code}")
            found.append(self.line_of(head))

    def line_of(self, head):
        """Returns the line of the output that was fetched last."""
        text = bytes(self.bytes[: head.length]).hex().upper()
        modem = bytes(head.modem).hex().upper()
        if head.kind == 1:
            return f"R {modem} {text}"
        if head.kind == 2:
            return f"S {modem if any(head.modem) else '-'} {Cause(head.cause)}"
        if head.kind == 4:
            return f"MAP {head.frame} {text}"
        granted = [f"{grant.sid}/{grant.iuc}/{grant.start}/{grant.length}" for grant in self.grants[: head.granted]]
        pending = [f"{grant.sid}/P" for grant in self.grants[head.granted : head.granted + head.pending]]
        return " ".join(["F", self.names[head.operator_at], str(head.frame), *granted, *pending])

    def perform(self, line):
        """Makes the calls that a line of a script says. Returns the first number that is not 0, or 0."""
        word, *fields = line.split(" ")
        if word == "M":
            return self.arrive(fields[0], bytes.fromhex(fields[1].replace("-", "")))
        if word == "Q":
            return self.request(fields[0], int(fields[1]), int(fields[2]))
        if word == "Z":
            return self.reslice(int(fields[0]), [tuple(int(part) for part in field.split("/")) for field in fields[1:]])
        for place in [self.names.index(fields[0])] if fields else range(len(self.names)):
            for name in ("tick", "collect"):
                code = self.at(name, place)
                if code != DONE:
                    return code
        return DONE


def modem_of(address):
    return Modem((ctypes.c_uint8 * 6)(*bytes.fromhex(address)))
