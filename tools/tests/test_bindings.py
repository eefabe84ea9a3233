"""Tests the bindings of the library for C: their types, numbers and texts against the header, the Python package, and all on cases."""

import ctypes
import os
import re
import shutil
import subprocess
import sys
import tempfile
import threading
import unittest
from unittest import mock

from bindings.python.melfjits import Channel, ClosedError, Frame, OutOfMemory, PlantError, SliceChangeError, StateError, StepError, channel
from bindings.python.melfjits.c_types import CALLS, TYPES
from bindings.python.melfjits.codes import TEXTS, Code, Kind, check
from tools import EXAMPLES, ROOT
from tools.compare import c_library
from tools.compare.library_cases import Case, in_terms_of_calls, is_same

BINDINGS = ROOT / "bindings"
HEADER = (BINDINGS / "c/melfjits.h").read_text()
P2 = (EXAMPLES / "plant_p2.toml").read_bytes()
A1 = "020000000001"
FIRST = bytes.fromhex("0F0001180A010200010601060F0102")
NUMBERS = {"size_t": ("usize", ctypes.c_size_t), **{f"uint{bits}_t": (f"u{bits}", getattr(ctypes, f"c_uint{bits}")) for bits in (8, 16, 32)}}

RUST_HEAD = """use melfjits_sys::*;
use std::mem::{offset_of, size_of};
fn size<T, M>(_: impl Fn(&T) -> *const M) -> usize {
    size_of::<M>()
}
"""


def constants():
    """Returns the names of the header's numbers, without their prefix."""
    return re.findall(r"MELFJITS_(\w+) = \d+", HEADER)


def fields_of(name):
    """Returns the members that the header gives to a type."""
    return re.findall(r"\**(\w+)(?:\[\d+\])?;", re.sub(r"/\*.*?\*/", "", re.search(rf"struct melfjits_{name} \{{(.*?)\}}", HEADER, re.DOTALL)[1]))


def prototypes():
    """Returns the calls of the header: of each the types of its parameters, which are words, and their names."""
    calls = re.findall(r"^uint32_t melfjits_(\w+)\((.*?)\);", HEADER, re.MULTILINE | re.DOTALL)
    return {name: re.findall(r"\s*(.*?)(\w+)(?:,|$)", text) for name, text in calls}


def python_type(words):
    """Returns the type of a parameter of the header for ctypes. A text that is only read is bytes of Python."""
    name = words.removeprefix("const ").rstrip(" *")
    if words == "const uint8_t *":
        return ctypes.c_char_p
    made = NUMBERS[name][1] if name in NUMBERS else TYPES[name.removeprefix("melfjits_")]
    return ctypes.POINTER(made) if "*" in words else made


def rust_type(words):
    """Returns the type of a parameter of the header in Rust."""
    name = words.removeprefix("const ").rstrip(" *")
    made = NUMBERS[name][0] if name in NUMBERS else name
    return f"*{'const' if words.startswith('const ') else 'mut'} {made}" if "*" in words else made


def facts():
    """Returns what the header fixes, as expressions of C: sizes, offsets and sizes of members, and numbers."""
    found = [f"sizeof(melfjits_{name})" for name in TYPES]
    for name in TYPES:
        found += [f"offsetof(melfjits_{name}, {field})" for field in fields_of(name)]
        found += [f"sizeof(((melfjits_{name} *)0)->{field})" for field in fields_of(name)]
    return found + [f"MELFJITS_{name}" for name in constants()]


def python_facts():
    """Returns the same of the Python types, in the same order."""
    found = [ctypes.sizeof(made) for made in TYPES.values()]
    for made in TYPES.values():
        members = [getattr(made, field[0]) for field in made._fields_]
        found += [member.offset for member in members] + [member.size for member in members]
    return found + [*map(int, Code), *map(int, Kind)]


def rust_facts(values):
    """Returns a program of Rust that fails if a type or a number of the header has another value there."""
    lines, values = [], iter(values)
    for name in TYPES:
        lines.append(f"size_of::<melfjits_{name}>() == {next(values)}")
    for name in TYPES:
        lines += [f"offset_of!(melfjits_{name}, {field}) == {next(values)}" for field in fields_of(name)]
        lines += [f"size(|it: &melfjits_{name}| &it.{field} as *const _) == {next(values)}" for field in fields_of(name)]
    lines += [f"MELFJITS_{name} == {next(values)}" for name in constants()]
    body = "\n".join(f'    assert!({line}, "{line}");' for line in lines)
    return f"{RUST_HEAD}fn main() {{\n{body}\n}}\n"


@unittest.skipUnless(shutil.which("gcc"), "gcc is not installed: no type was compared with the header")
class Types(unittest.TestCase):
    @classmethod
    def setUpClass(cls):
        folder = tempfile.TemporaryDirectory()
        cls.addClassCleanup(folder.cleanup)
        cls.folder = folder.name
        source = "".join(f'    printf("%zu\\n", (size_t)({fact}));\n' for fact in facts())
        cls.write("facts.c", f'#include "melfjits.h"\n#include <stdio.h>\nint main(void)\n{{\n{source}}}\n')
        subprocess.run(["gcc", "-Wall", "-Werror", f"-I{BINDINGS / 'c'}", "-o", f"{cls.folder}/facts", f"{cls.folder}/facts.c"], check=True)
        printed = subprocess.run([f"{cls.folder}/facts"], stdout=subprocess.PIPE, text=True, check=True).stdout
        cls.values = [int(line) for line in printed.split()]

    @classmethod
    def write(cls, name, text):
        with open(f"{cls.folder}/{name}", "w", encoding="utf-8") as file:
            file.write(text)

    def test_python(self):
        self.assertEqual(constants(), [*Code.__members__, *Kind.__members__])
        self.assertEqual([fields_of(name) for name in TYPES], [[field[0] for field in made._fields_] for made in TYPES.values()])
        self.assertEqual(dict(zip(facts(), python_facts(), strict=True)), dict(zip(facts(), self.values)))

    @unittest.skipUnless(shutil.which("rustc"), "rustc is not installed: the types of Rust were not compared with the header")
    def test_rust(self):
        self.write("facts.rs", rust_facts(self.values))
        crate, program = f"{self.folder}/libmelfjits_sys.rlib", f"{self.folder}/rust_facts"
        source = BINDINGS / "rust/melfjits-sys/src/lib.rs"
        subprocess.run(["rustc", "--crate-name", "melfjits_sys", "--crate-type", "rlib", "-o", crate, source], check=True)
        subprocess.run(["rustc", "--edition", "2021", "--extern", f"melfjits_sys={crate}", "-o", program, f"{self.folder}/facts.rs"], check=True)
        subprocess.run([program], check=True)


class Prototypes(unittest.TestCase):
    def test_the_header_is_read(self):
        found = prototypes()
        self.assertEqual(len(found), HEADER.count("(melfjits_channel *channel"))
        self.assertEqual(found["save"], [("melfjits_channel *", "channel"), ("uint8_t *", "bytes"), ("size_t ", "size"), ("size_t *", "length")])

    def test_python(self):
        expected = {name: tuple(python_type(words) for words, _ in row) for name, row in prototypes().items()}
        self.assertEqual({name: (ctypes.POINTER(TYPES["channel"]), *row) for name, row in CALLS.items()}, expected)
        self.used_in("python/melfjits/channel.py", '("{}"')

    def test_rust(self):
        source = (BINDINGS / "rust/melfjits-sys/src/lib.rs").read_text()
        found = re.findall(r"pub fn melfjits_(\w+)\((.*?),?\s*\) -> u32;", source, re.DOTALL)
        self.assertEqual(source.count("fn "), len(found))
        expected = {name: [f"{parameter}: {rust_type(words)}" for words, parameter in row] for name, row in prototypes().items()}
        self.assertEqual({name: re.split(r",\s*", text.strip()) for name, text in found}, expected)
        self.used_in("rust/melfjits/src/channel.rs", "sys::melfjits_{}(")

    def test_c(self):
        self.used_in("c/perform_calls.c", "melfjits_{}(")

    @unittest.skipUnless(shutil.which("g++"), "g++ is not installed: no call of C++ was compared with the header")
    def test_cpp(self):
        self.used_in("cpp/melfjits.hpp", "melfjits_{}(")
        flags = ["-std=c++17", "-Wall", "-Wextra", "-Wpedantic", "-Werror", "-fsyntax-only", f"-I{BINDINGS / 'c'}"]
        subprocess.run(["g++", *flags, BINDINGS / "cpp/perform_calls.cpp"], check=True)

    def used_in(self, file, form):
        """Checks that a file makes each call of the header."""
        text = (BINDINGS / file).read_text()
        self.assertEqual([name for name in prototypes() if form.format(name) not in text], [])


class Texts(unittest.TestCase):
    def test_all_languages_have_the_same(self):
        rust = (BINDINGS / "rust/melfjits/src/error.rs").read_text()
        self.assertEqual(set(Code) - {Code.DONE, Code.SHORT, Code.NONE_WAITS}, set(TEXTS))
        self.assertEqual(re.findall(r"case MELFJITS_(\w+): return", HEADER), [*Code.__members__])
        for code, text in TEXTS.items():
            self.assertIn(f'case MELFJITS_{code.name}: return "{text}";', HEADER)
            self.assertIn(f"MELFJITS_{code.name} = {int(code)}", HEADER)
            if code != Code.CLOSED:  # a channel of Rust is open
                self.assertIn(f'sys::MELFJITS_{code.name}, "{text}")', rust)

    def test_exceptions_have_them(self):
        for code, kind in ((Code.NO_MEMORY, OutOfMemory), (Code.NOT_TOML, PlantError), (Code.UNFIT, SliceChangeError), (Code.FRAME_WAITS, StateError),
                           (Code.UNKNOWN_NAME, StateError)):
            with self.assertRaises(kind) as caught:
                check(int(code))
            self.assertEqual((caught.exception.code, str(caught.exception)), (code, TEXTS[code]))

    def test_versions(self):
        version = re.search(r"^## ([0-9.]+) ", (ROOT / "CHANGELOG.md").read_text(), re.MULTILINE)[1]
        self.assertIn(f'\nversion = "{version}"\n', (BINDINGS / "python/pyproject.toml").read_text())
        self.assertIn(f'\nversion = "{version}.0"\n', (BINDINGS / "rust/Cargo.toml").read_text())


class Comparison(unittest.TestCase):
    def test_another_output_or_refusal_is_found(self):
        made = Case(P2 + b"---\nT A\nZ 1 8/32/32 40/32/33\n")
        self.assertEqual(made.calls, [(1, "tick 0"), (1, "collect 0"), (2, "reslice 1 8/32/32 40/32/33")])
        expected, fault = in_terms_of_calls((4, b"F A 0 0/6/8/32\nfault: line 2\n"), made.names)
        right = "F 0 0 0/6/8/32\nrefused 2 35\n"
        self.assertTrue(is_same(right, made.calls, expected, fault))
        for old, new in (("F 0", "F 1"), ("F 0 0 0/6/8/32\n", ""), ("refused 2 35\n", ""), ("refused 2", "refused 1"), (" 35", " 1")):
            self.assertFalse(is_same(right.replace(old, new), made.calls, expected, fault), new)

    def test_a_refused_plant_file_has_the_number_of_the_fault(self):
        expected, fault = in_terms_of_calls((3, b"fault: plant 7 020000000001\n"), [])
        self.assertEqual([is_same(f"refused 0 {code}\n", [], expected, fault) for code in (15, 16, 17)], [False, True, False])


@unittest.skipUnless(c_library.is_built(), "the library for C is not built (tools/ci/build_channel_c): its bindings made no call")
class OnTheLibrary(unittest.TestCase):
    @classmethod
    def setUpClass(cls):
        folder = tempfile.TemporaryDirectory()
        cls.addClassCleanup(folder.cleanup)
        c_library.build_shared(folder.name)
        cls.library = f"{folder.name}/libmelfjits.so"

    def test_a_closed_channel_raises(self):
        opened = Channel(P2, self.library)
        opened.close()
        for call in (opened.close, opened.next_output, lambda: opened.arrive(A1, FIRST), lambda: opened.request(A1, 257, 1),
                     lambda: opened.work(0), lambda: opened.tick(0), lambda: opened.collect(0), lambda: opened.reslice(1, []), opened.save,
                     lambda: opened.change(P2)):
            self.assertRaises(ClosedError, call)
        with Channel(P2, self.library) as inner:
            inner.close()

    def test_errors_have_texts(self):
        with self.assertRaisesRegex(PlantError, "^the plant file is not TOML$"):
            Channel(b"\xff", self.library)
        with Channel(P2, self.library) as opened:
            with self.assertRaisesRegex(StepError, "^there is no operator at this place$") as caught:
                opened.tick(2)
            self.assertEqual(caught.exception.code, Code.UNKNOWN_OPERATOR)
            for call in (lambda: opened.request(A1, 65_536, 1), lambda: opened.tick(-1), lambda: opened.arrive("02", FIRST)):
                self.assertRaises(ValueError, call)

    def test_a_saved_channel_answers_as_the_one_that_went_on(self):
        def answers(opened):
            for minislots in (5, 3):
                opened.request(A1, 257, minislots)
                self.tick_all(opened)
            return list(opened.outputs())

        with Channel(P2, self.library) as going_on:
            going_on.arrive(A1, FIRST)
            going_on.arrive(A1, bytes.fromhex("11000100"))
            self.tick_all(going_on)
            saved = going_on.save()
            self.assertIn(P2, saved)
            with Channel.open_saved(saved, self.library) as opened, Channel.open_saved(saved.decode(), self.library) as again:
                self.assertEqual((opened.next_output(), again.save()), (None, saved))
                first, second = list(going_on.outputs()), answers(going_on)
                self.assertEqual((type(first[-1]).__name__, len(second)), ("Map", 6))
                self.assertEqual(answers(opened), second)
                self.assertEqual(opened.save(), going_on.save())

    def test_a_plant_that_is_changed_keeps_the_flows(self):
        wider = P2.replace(b"budget = 32", b"budget = 30", 1)
        with Channel(P2, self.library) as opened:
            opened.arrive(A1, FIRST)
            opened.arrive(A1, bytes.fromhex("11000100"))
            self.tick_all(opened)
            opened.change(wider.decode())
            self.assertIn(wider, opened.save())
            opened.request(A1, 257, 5)
            self.tick_all(opened)
            spans = [output.spans[0] for output in opened.outputs() if isinstance(output, Frame) and output.operator_at == 0]
            self.assertEqual([(span.sid, span.length) for span in spans], [(0, 32), (257, 5)])

    def test_why_a_channel_is_not_saved_changed_or_opened_again(self):
        with Channel(P2, self.library) as opened:
            saved = opened.save()
            for text in (saved[1:], P2):
                with self.assertRaisesRegex(StateError, "^the text is not a snapshot$"):
                    Channel.open_saved(text, self.library)
            for text, kind, code in ((b"= ", PlantError, Code.NOT_TOML), (P2.replace(b"head = 8", b"head = 7"), StateError, Code.CONSTANTS_DIFFER)):
                with self.assertRaises(kind) as caught:
                    opened.change(text)
                self.assertEqual(caught.exception.code, code)
            opened.tick(0)
            with self.assertRaisesRegex(StateError, "^a frame of an operator is not collected yet$"):
                opened.save()
            opened.collect(0)
            for call in (opened.save, lambda: opened.change(P2)):
                with self.assertRaisesRegex(StateError, "^an operator is before another frame than the first one$"):
                    call()

    def tick_all(self, opened):
        """Lets both operators schedule a frame, and completes its MAP."""
        for place in (0, 1):
            opened.tick(place)
            opened.collect(place)

    def test_another_thread_raises(self):
        caught = []

        def close(opened):
            try:
                opened.close()
            except RuntimeError as error:
                caught.append(error)

        with Channel(P2, self.library) as opened:
            thread = threading.Thread(target=close, args=(opened,))
            thread.start()
            thread.join()
            self.assertEqual((len(caught), opened.is_open), (1, True))

    def test_buffers_grow(self):
        def outputs():
            with Channel(P2, self.library) as opened:
                opened.arrive(A1, FIRST)
                self.tick_all(opened)
                return [opened.save(), *opened.outputs()]

        expected = outputs()
        with mock.patch.object(channel, "FIRST_BYTES", 0), mock.patch.object(channel, "FIRST_GRANTS", 0):
            self.assertEqual(outputs(), expected)
        self.assertEqual([type(output).__name__ for output in expected], ["bytes", "Reply", "Frame", "Frame", "Map"])

    def test_the_simulation_finds_no_difference_of_operator_a(self):
        command = [sys.executable, "-B", EXAMPLES / "simulation/simulate.py", "--library", self.library, "--seconds", "0.5"]
        done = subprocess.run(command, env={**os.environ, "PYTHONPATH": str(BINDINGS / "python")}, capture_output=True, text=True, check=False)
        self.assertEqual((done.returncode, done.stderr), (0, ""), done.stdout)

    @unittest.skipUnless(shutil.which("g++") and shutil.which("cargo"), "g++ or cargo is not installed: only Python made calls")
    def test_bindings_agree(self):
        command = [ROOT / "tools/compare/library_cases", "25", "--library", self.library, "--jobs", "1"]
        done = subprocess.run(command, capture_output=True, text=True, check=False)
        self.assertEqual((done.returncode, done.stderr), (0, ""), done.stdout)


if __name__ == "__main__":
    unittest.main()
