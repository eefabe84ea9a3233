"""Tests of tools/ci/edits: where edits stand, how they are tried together, and what the prover's words mean."""

import contextlib
import io
import os
import pathlib
import re
import subprocess
import tempfile
import time
import unittest
from unittest import mock

from tools.ci import edit_files, edits
from tools.ci.edit_files import Edit, WrongEdit, of_eighth, read_edit
from tools.ci.edits import batch_of, refused_goals, try_edits
from tools.proving import prover as proving
from tools.proving.functions import functions_of, functions_of_crate, name_of_impl, with_holes
from tools.proving.prover import Prover, crates_of, is_proved, reports_of

SOURCE = """\
//! A file's comment, with a brace {.

use std::alloc::Global;

const MOST: usize = 4;

#[derive(Debug)]
struct Held<T> {
    items: [T; 2],
}

fn first(items: &[u8]) -> usize
    requires { 0 < length items.now }
    ensures exact { result ≡ head items.now }
{
    let brace = '{'; // }
    if items.len() > MOST { 1 } else { "}".len() }
}

impl<T: Clone> Held<T> {
    pub fn copy<'a>(&'a self, alloc: Global) -> Result<Held<T>, Fault> {
        let done = |item: &T| { item.clone() };
        done(self.items)
    }
}

impl<T> std::fmt::Display for Held<T> {
    fn fmt(&self) -> bool { true }
}

trait Rule {
    fn name(&self) -> u8;
    fn twice(&self) -> u8 { 2 }
}

mod inner {
    fn last() {}
}
"""
PATHS = ["held::first", "held::Held::copy", "held::HeldDisplay::fmt", "held::Rule::twice", "held::inner::last"]


def edit_in(folder, text, name="wrong"):
    """Writes an edit into a folder, and returns its path."""
    path = pathlib.Path(folder) / f"{name}.edit"
    path.parent.mkdir(parents=True, exist_ok=True)
    path.write_text(text)
    return path


class Functions(unittest.TestCase):
    def test_functions_are_found_with_their_clauses_and_bodies(self):
        found = functions_of(SOURCE, "src/held.rt", {})
        self.assertEqual([it.path for it in found], PATHS)
        self.assertTrue(SOURCE[found[0].start : found[0].end].startswith("fn first("))
        self.assertTrue(SOURCE[found[0].start : found[0].end].endswith('"}".len() }\n}'))
        self.assertEqual([it.path for it in found if it.of_trait], ["held::HeldDisplay::fmt", "held::Rule::twice"])

    def test_the_root_and_a_folder_have_no_name_of_their_own(self):
        for file, path in (("src/lib.rt", "last"), ("src/a/mod.rt", "a::last"), ("src/a/b.rt", "a::b::last")):
            with self.subTest(file=file):
                self.assertEqual([it.path for it in functions_of("fn last() {}\n", file, {})], [path])

    def test_an_impl_is_named_by_its_type_its_trait_and_the_types_that_it_gives_the_trait(self):
        for header, name in (
            ("From<AllocError> for Fault", "FaultFromAllocError"),
            ("<T: Drop> From<AllocFailed<T>> for Fault", "FaultFromAllocFailed"),
            ("<W: Write> Notes<Lines<'_, W>> for Checks", "ChecksNotesLines"),
            ("<R: Wait, G: Gate<R>> Chores<R, G> for Shared<'_>", "SharedChores"),
            ("<'a, W: Write> Write for Lines<'a, W>", "LinesWrite"),
            ("<T> Drop for Held<T>", "Held"),
            ("<T: Clone> Held<T>", "Held"),
        ):
            with self.subTest(header=header):
                self.assertEqual(name_of_impl(f" {header} {{"), name)

    def test_a_method_is_named_by_the_module_of_its_type(self):
        texts = {"src/held.rt": SOURCE, "src/more.rt": "impl<T> Held<T> {\n    fn less(&self) {}\n}\n"}
        self.assertEqual([it.path for it in functions_of_crate(texts)], [*PATHS, "held::Held::less"])


class Reading(unittest.TestCase):
    texts = {"src/held.rt": SOURCE}

    def read(self, text):
        return self.read_all(text)[0]

    def read_all(self, text):
        with tempfile.TemporaryDirectory() as folder:
            return read_edit("lists", edit_in(folder, text), self.texts)

    def test_an_edit_is_of_the_functions_that_it_changes(self):
        edit = self.read('file: src/held.rt\nold: { 1 } else { "}".len() }\nnew: { 2 } else { 0 }\nold:     fn last() {}\nnew:     fn last() { first(&[]); }\n')
        self.assertEqual((edit.functions, edit.is_local), (("held::first", "held::inner::last"), True))
        self.assertEqual(str(edit), "lists/wrong")

    def test_an_edit_of_a_constant_names_the_function(self):
        text = "file: src/held.rt\nold: MOST: usize = 4;\nnew: MOST: usize = 5;\n"
        with self.assertRaisesRegex(WrongEdit, "changes no function"):
            self.read(text)
        edit = self.read("function: held::first\n" + text)
        self.assertEqual((edit.functions, edit.is_local), (("held::first",), False))

    def test_an_edit_that_cannot_be_applied_is_said(self):
        for text, said in (
            ("file: src/held.rt\nold: nowhere\nnew: there\n", "in src/held.rt 0 times, and not once"),
            ("file: src/held.rt\nold: Global\nnew: Local\n", "in src/held.rt 2 times, and not once"),
            ("file: src/none.rt\nold: a\nnew: b\n", "no file src/none.rt"),
            ("old: let done\nnew: let none\n", "before any `file:`"),
            ("file: src/held.rt\n", "no lines `old:` and `new:`"),
            ("file: src/held.rt\ntwin: let done\n", "`twin:` does not follow a line `new:`"),
            ("file: src/held.rt\nold: let done\nnew: let over\nold: let over\nnew: let none\ntwin: let done\n", "its twin: .* 0 times"),
            ("A wrong name.\nfile: src/held.rt\nold: let done\nnew: let over\n", "a line is none of .* nor a comment: A wrong name"),
        ):
            with self.subTest(text=text), self.assertRaisesRegex(WrongEdit, said):
                self.read(text)

    def test_the_next_pair_is_applied_to_what_the_last_made(self):
        edit = self.read("file: src/held.rt\nold: let done\nnew: let over\nold: let over\nnew: let none\n")
        self.assertEqual(edit.functions, ("held::Held::copy",))

    def test_a_twin_has_its_own_texts_and_leaves_out_pairs_without_one(self):
        text = "# A comment.\nfile: src/held.rt\nold: let done\nnew: let over\ntwin: let none\nold:     fn last() {}\nnew:     fn last() { first(&[]); }\n"
        edit, twin = self.read_all(text)
        self.assertEqual((len(edit.pairs), edit.is_harmless), (2, False))
        self.assertEqual((str(twin), twin.pairs, twin.is_harmless), ("lists/wrong, twin", (("src/held.rt", "let done", "let none"),), True))
        self.assertEqual(twin.functions, ("held::Held::copy",))

    def test_each_edit_is_in_one_eighth(self):
        paths = [pathlib.Path(str(number)) for number in range(21)]
        self.assertEqual(set().union(*(of_eighth(paths, eighth) for eighth in range(8))), set(paths))
        self.assertEqual(sum(len(of_eighth(paths, eighth)) for eighth in range(8)), 21)


class Holes(unittest.TestCase):
    def test_the_proofs_of_all_other_functions_are_left_out(self):
        texts = {
            "src/held.rt": SOURCE,
            "src/tests.rt": "fn a_test() {}\n",
            "proofs/Lib.antt": "mod Lemmas\n",
            "proofs/held/first/Answers.antt": "an answer\n",
            "proofs/held/Held/copy/Answers.antt": "an answer\n",
            "proofs/held/Held/copy/Invariants.antt": "an invariant\n",
            "proofs/held/Rule/twice/Answers.antt": "an answer\n",
        }
        changed = with_holes("lists", texts, {"held::first"})
        self.assertEqual(
            sorted(changed.keys() - texts.keys()),
            ["proofs/held/Held/copy/Proof.antt", "proofs/held/Rule/twice/Proof.antt", "proofs/held/inner/last/Proof.antt"],
        )
        self.assertEqual(
            changed["proofs/held/Held/copy/Proof.antt"],
            "use Rattle.lists.proofs.held.Held.copy.Statement.{statement}\n\npub copy_spec : {M : Type 1} → statement M\ncopy_spec = ?\n",
        )
        left = {"src/held.rt", "src/tests.rt", "proofs/Lib.antt", "proofs/held/first/Answers.antt"}
        self.assertEqual(texts.keys() & changed.keys(), left)

    def test_their_bodies_are_left_out_but_not_what_constants_are_made_by(self):
        source = SOURCE.replace("    fn last() {}\n", "    fn last() {}\n    pub const fn most() -> usize { 4 }\n")
        changed = with_holes("lists", {"src/held.rt": source, "proofs/held/Rule/twice/Answers.antt": "an answer\n"}, {"held::first"})
        body = "{ unreachable!() }"
        copy = "{\n        let done = |item: &T| { item.clone() };\n        done(self.items)\n    }"
        expected = source.replace(copy, body).replace("u8 { 2 }", f"u8 {body}").replace("fn last() {}", f"fn last() {body}")
        self.assertEqual(changed["src/held.rt"], expected)


# What the prover prints, with the lines that say nothing of functions left out.
PRINTED = """\
./proofs/read/read_flow/Answers.antt:12:210: error: `returns-clause-only`: as printed, the two types differ
./proofs/read/put/Answers.antt:4:1: error: `returns-in-17-clause-exact`: record `Lts.View` has no field `ack_of`
./proofs/read/named/Answers.antt:4:1: error: `returns-then`: module `Goals` has no `returns-then` that can be named from here
fn tlv24::read::word: depends on a hole in `Rattle.tlv24.proofs.read.word.Proof.word_spec`
fn tlv24::read::plain: no holes
note: src/read.rt:90:1: it is not proved that what the function ensures holds when it returns (`returns`); the goal is false at 0
note: a goal may be false even if its line does not say so
fn tlv24::read::of_search: no proof: expected answers in ./proofs/read/of_search/Answers.antt; `search` did not prove `returns`
fn tlv24::read::unnoted: no proof: `search` did not prove `returns`; it calls `tlv24::read::calls`, which is not proved
fn tlv24::read::calls: no proof: it calls `tlv24::read::of_search`, which is not proved
fn tlv24::read::read_flow: not proved; it stands on `Rattle.tlv24.proofs.read.fault_of.Answers.returns`, `Rattle.tlv24.proofs.read.read_flow.Answers.returns-clause-only`, which antt refuses; it calls `tlv24::read::word`, which is not proved
note: src/read.rt:99:1: it is not proved that what the function ensures holds when it returns (`returns-in-17-clause-memory`); `search` gave up
fn tlv24::read::put: not proved; it stands on `Rattle.tlv24.proofs.read.put.Answers.returns-in-17-clause-exact`, which antt refuses
fn tlv24::read::named: not proved; it stands on `Rattle.tlv24.proofs.read.named.Answers.returns-then`, which antt refuses
"""


class Words(unittest.TestCase):
    def test_a_function_is_proved_though_what_it_calls_is_a_hole(self):
        self.assertEqual([path for path, report in reports_of(PRINTED).items() if is_proved(report)], ["read::word", "read::plain"])

    def test_goals_of_the_function_itself_refuse_an_edit(self):
        reports = reports_of(PRINTED)
        for path, goals in (
            ("read::of_search", ["returns"]),
            ("read::calls", []),
            ("read::unnoted", ["returns"]),
            ("read::read_flow", ["returns-clause-only"]),
            # One of its answers only names what the edit took away.
            ("read::put", ["returns-in-17-clause-memory"]),
            ("read::named", []),
        ):
            with self.subTest(path=path):
                self.assertEqual(refused_goals("tlv24", path, reports[path], PRINTED), goals)


REFUSED = "no proof: `search` did not prove `returns`"


class Kit:
    """Stands in for the prover: says of each function what the test wants, by the functions that are tried with it."""

    def __init__(self, say):
        self.say, self.tried = say, []

    def check(self, crate, texts, functions):
        self.tried.append(functions)
        return "".join(map(self.lines, [crate] * len(functions), functions, [functions] * len(functions)))

    def lines(self, crate, path, functions):
        said = self.say(path, functions)
        note = "note: src/held.rt:1:1: it is not proved that it holds (`returns`)\n" if said == REFUSED else ""
        return f"{note}fn {crate}::{path}: {said}\n"


def edit_of(name, *functions, old="a", is_local=True, is_harmless=False):
    return Edit("lists", name, (("src/held.rt", old, old.upper()),), functions, is_local, is_harmless)


class Trying(unittest.TestCase):
    def tried(self, kit, group):
        with mock.patch.object(edits, "texts_of", return_value={"src/held.rt": "a b c d"}):
            return {edit.name: outcome for edit, outcome in try_edits(kit, "lists", group)}

    def test_edits_of_one_function_are_tried_apart(self):
        group = [edit_of("one", "f"), edit_of("two", "f", old="b"), edit_of("three", "g", old="c")]
        kit = Kit(lambda path, _: REFUSED)
        outcomes = self.tried(kit, group)
        self.assertEqual(kit.tried, [["f", "g"], ["f"]])
        said = {"one": "refused: f: returns", "two": "refused: f: returns", "three": "refused: g: returns"}
        self.assertEqual({name: outcome.said for name, outcome in outcomes.items()}, said)
        self.assertTrue(all(outcome.is_right for outcome in outcomes.values()))

    def test_an_edit_outside_of_functions_is_tried_alone(self):
        kit = Kit(lambda path, _: REFUSED)
        self.tried(kit, [edit_of("one", "f"), edit_of("two", "g", old="b", is_local=False), edit_of("three", "h", old="c")])
        self.assertEqual(kit.tried, [["g"], ["f", "h"]])

    def test_edits_of_one_text_are_tried_apart(self):
        group = [edit_of("one", "f"), edit_of("two", "g")]
        batch, texts = batch_of(group, {"src/held.rt": "a b"})
        self.assertEqual((batch, texts), ([group[0]], {"src/held.rt": "A b"}))

    def test_a_caller_of_an_edited_function_is_tried_without_it(self):
        def say(path, functions):
            if path == "f" and "g" in functions:
                return "no proof: it calls `lists::g`, which is not proved"
            return REFUSED

        kit = Kit(say)
        outcomes = self.tried(kit, [edit_of("caller", "f"), edit_of("called", "g", old="b")])
        self.assertEqual(kit.tried, [["f", "g"], ["f"]])
        self.assertTrue(outcomes["caller"].is_right and outcomes["called"].is_right)

    def test_an_edit_that_is_proved_is_not_refused(self):
        outcomes = self.tried(Kit(lambda path, _: "depends on a hole in `x`"), [edit_of("one", "f")])
        self.assertEqual((outcomes["one"].is_right, outcomes["one"].said), (False, "NOT REFUSED: f is proved with it"))

    def test_harmless_changes_are_tried_apart_from_edits_and_must_be_proved(self):
        kit = Kit(lambda path, functions: "no holes" if functions == ["f", "g"] else REFUSED)
        group = [edit_of("one", "f"), edit_of("twin", "f", old="b", is_harmless=True), edit_of("as it is", "g", old="c", is_harmless=True)]
        outcomes = self.tried(kit, group)
        self.assertEqual(kit.tried, [["f", "g"], ["f"]])
        self.assertEqual({name: outcome.said for name, outcome in outcomes.items()}, {"twin": "proved: f", "as it is": "proved: g", "one": "refused: f: returns"})

    def test_a_twin_that_is_refused_is_wrong(self):
        outcomes = self.tried(Kit(lambda path, _: REFUSED), [edit_of("twin", "f", is_harmless=True)])
        self.assertEqual((outcomes["twin"].is_right, outcomes["twin"].said), (False, "NOT PROVED: f: returns"))

    def test_a_twin_of_two_functions_is_judged_by_both(self):
        class Silent(Kit):
            def check(self, crate, texts, functions):
                return super().check(crate, texts, ["f"])

        outcomes = self.tried(Silent(lambda path, _: "no holes"), [edit_of("twin", "f", "g", is_harmless=True)])
        self.assertEqual((outcomes["twin"].is_right, outcomes["twin"].said), (False, "NOT JUDGED: f: no holes"))

    def test_an_edit_that_does_not_compile_is_found_among_others(self):
        class Compiler(Kit):
            def check(self, crate, texts, functions):
                printed = super().check(crate, texts, functions)
                return "src/held.rt:1:1: error[E0425]: no `C` in scope\n" if "C" in texts["src/held.rt"] else printed

        kit = Compiler(lambda path, _: REFUSED)
        group = [edit_of("one", "f"), edit_of("two", "g", old="b"), edit_of("three", "h", old="c"), edit_of("four", "i", old="d")]
        outcomes = self.tried(kit, group)
        self.assertEqual({name for name, outcome in outcomes.items() if outcome.is_right}, {"one", "two", "four"})
        self.assertEqual(outcomes["three"].said, "NOT JUDGED: src/held.rt:1:1: error[E0425]: no `C` in scope")

    def test_an_edit_that_takes_a_name_away_says_little(self):
        class Naming(Kit):
            def check(self, crate, texts, functions):
                printed = super().check(crate, texts, functions)
                return "./proofs/f/Answers.antt:1:1: error: `returns`: module `Goals` has no `returns` that can be named\n" + printed

        kit = Naming(lambda path, _: "not proved; it stands on `Rattle.lists.proofs.f.Answers.returns`, which antt refuses")
        said = self.tried(kit, [edit_of("one", "f")])["one"].said
        self.assertTrue(said.startswith("SAYS LITTLE: a proof file names what it takes away."), said)

    def test_an_error_may_say_on_its_second_line_that_a_name_is_gone(self):
        class Naming(Kit):
            def check(self, crate, texts, functions):
                gone = "./proofs/f/Answers.antt:1:1: error: `returns`: record `Lts.View` (nearest: `ack`)\n  has no field `ack_of`\n"
                return gone + super().check(crate, texts, functions)

        kit = Naming(lambda path, _: "not proved; it stands on `Rattle.lists.proofs.f.Answers.returns`, which antt refuses")
        said = self.tried(kit, [edit_of("one", "f")])["one"].said
        self.assertTrue(said.startswith("SAYS LITTLE: a proof file names what it takes away."), said)

    def test_a_limit_of_the_prover_is_no_refusal(self):
        outcomes = self.tried(Kit(lambda path, _: "could not tell"), [edit_of("one", "f")])
        self.assertEqual((outcomes["one"].is_right, outcomes["one"].said), (False, "NOT JUDGED: f: could not tell"))


# A program in the place of the prover: it refuses `listed::push` if the text has `wrong`, and proves it if not.
RATTLE = """\
#!/bin/sh
if grep -q wrong src/listed.rt; then
    echo 'note: src/listed.rt:1:1: it is not proved that what the function ensures holds (`returns`)'
    echo 'fn lists::listed::push: no proof: `search` did not prove `returns`'
else
    echo 'fn lists::listed::push: no holes'
fi
"""


# An edit that it refuses.
WRONG = "file: src/listed.rt\nold: right\nnew: wrong\n"


class Command(unittest.TestCase):
    def setUp(self):
        folder = tempfile.TemporaryDirectory()
        self.addCleanup(folder.cleanup)
        self.root = pathlib.Path(folder.name)
        for path, text in {
            "crates.txt": "# Part: One\nlists:\nupper may_wait=1: lists hex\n",
            "crates/lists/src/listed.rt": "fn push() { right() }\n",
            "kit/bin/rattle": RATTLE,
            "kit/bin/rt": "#!/bin/sh\n",
        }.items():
            file = self.root / path
            file.parent.mkdir(parents=True, exist_ok=True)
            file.write_text(text)
            file.chmod(0o755)
        self.folder = self.root / "crates/lists/edits"
        self.folder.mkdir()
        (self.root / "tools/ci").mkdir(parents=True)

    def pin(self):
        """Pins the number of edits as it is."""
        self.assertEqual(self.run_tool("--counts"), (0, ""))

    def run_tool(self, *arguments):
        """Runs the tool on the crates of this test. Returns its status and what it prints."""
        out = io.StringIO()
        path = f"{self.root / 'kit/bin'}:{os.environ['PATH']}"
        with mock.patch.object(edits, "ROOT", self.root), mock.patch.dict(os.environ, PATH=path):
            with mock.patch.object(edit_files, "eighth_of_commits", return_value=3), mock.patch("sys.argv", ["edits", *arguments]), contextlib.redirect_stdout(out):
                return edits.main(), out.getvalue()

    def test_a_refused_edit_is_well(self):
        edit_in(self.folder, WRONG)
        self.pin()
        status, printed = self.run_tool()
        self.assertEqual(status, 0)
        self.assertIn("lists/wrong: refused: listed::push: returns\n", printed)
        self.assertTrue(printed.endswith("1 functions as they are, 1 edits, 0 wrong\n"))

    def test_a_twin_must_be_proved(self):
        edit_in(self.folder, WRONG + "twin: left\n")
        self.pin()
        status, printed = self.run_tool()
        self.assertEqual(status, 0)
        self.assertIn("lists/wrong, twin: proved: listed::push\n", printed)
        self.assertTrue(printed.endswith("1 twins, 1 edits, 0 wrong\n"))
        edit_in(self.folder, WRONG + "twin: wrong as well\n")
        status, printed = self.run_tool("lists/wrong")
        self.assertEqual(status, 1)
        self.assertIn("lists/wrong, twin: NOT PROVED: listed::push: returns\n", printed)

    def test_an_edit_that_is_not_refused_fails(self):
        edit_in(self.folder, "file: src/listed.rt\nold: right\nnew: left\n")
        status, printed = self.run_tool("lists/wrong")
        self.assertEqual(status, 1)
        self.assertIn("lists/wrong: NOT REFUSED: listed::push is proved with it\n", printed)

    def test_an_edit_that_cannot_be_applied_fails(self):
        edit_in(self.folder, "file: src/listed.rt\nold: up\nnew: down\n")
        status, printed = self.run_tool("lists")
        self.assertEqual(status, 1)
        self.assertIn("lists/wrong: CANNOT BE APPLIED: a text after `old:` is in src/listed.rt 0 times", printed)
        self.assertTrue(printed.endswith("0 edits, 1 wrong\n"))

    def test_the_functions_are_proved_as_they_are(self):
        edit_in(self.folder, "file: src/listed.rt\nold: right\nnew: left\n")
        self.pin()
        self.assertEqual(self.run_tool("--unedited")[0], 0)
        (self.root / "crates/lists/src/listed.rt").write_text("fn push() { right(wrong) }\n")
        for arguments in ((), ("--unedited",), ("--unedited", "lists")):
            with self.subTest(arguments=arguments):
                status, printed = self.run_tool(*arguments)
                self.assertEqual(status, 1)
                self.assertIn("lists/listed::push, as it is: NOT PROVED: listed::push: returns\n", printed)

    def test_one_eighth_of_more_edits_is_tried(self):
        for number in range(9):
            edit_in(self.folder / "more", WRONG, f"seldom_{number}")
        self.pin()
        for arguments, names in (
            ((), "3"),
            (("--eighth", "0"), "08"),
            (("--all",), "012345678"),
            (("--all", "lists"), "012345678"),
            (("lists/seldom_5",), "5"),
        ):
            with self.subTest(arguments=arguments):
                status, printed = self.run_tool(*arguments)
                self.assertEqual(status, 0)
                self.assertEqual("".join(re.findall(r"lists/seldom_(\d): refused", printed)), names)
        self.assertIn("of the 9 edits in edits/more, eighth 3 of 0 to 7 is tried: 1\n", self.run_tool()[1])

    def test_the_commits_choose_the_eighth_or_the_day_does(self):
        for shallow, eighth in (("false\n", 2), ("true\n", 3)):
            done = [subprocess.CompletedProcess([], 0, stdout=said) for said in (shallow, "978\n")]
            with mock.patch.object(edit_files.subprocess, "run", side_effect=done), mock.patch.object(edit_files.time, "time", return_value=86_400 * 11):
                self.assertEqual(edit_files.eighth_of_commits(self.root), eighth)

    def test_an_edit_that_adds_a_loop_or_a_call_needs_a_twin(self):
        for new, is_wrong in (
            ("wrong(left())", True),
            ("{ for it in wrong { right() } }", True),
            ("wrong()", False),
            ("Some(wrong())", False),
            ('wrong("left()")', False),
            ("match (wrong) { _ => right() }", False),
        ):
            edit_in(self.folder, f"file: src/listed.rt\nold: right()\nnew: {new}\n")
            self.pin()
            with self.subTest(new=new):
                status, printed = self.run_tool("--check")
                self.assertEqual((status, "lists/wrong adds a loop or a call and has no line `twin:`\n" in printed), (int(is_wrong), is_wrong))
        edit_in(self.folder, "file: src/listed.rt\nold: right()\nnew: wrong(left())\ntwin: right(left())\n")
        self.assertEqual(self.run_tool("--check")[0], 0)

    def fails_with(self, said, *arguments):
        """Checks that the tool fails and says this."""
        for words in (arguments, ("--check",)):
            with self.subTest(arguments=words):
                status, printed = self.run_tool(*words)
                self.assertEqual(status, 1)
                self.assertIn(said, printed)

    def test_the_number_of_edits_is_pinned(self):
        edit_in(self.folder, WRONG)
        edit_in(self.folder / "more", WRONG, "seldom")
        self.pin()
        self.assertEqual((self.root / edits.COUNTS).read_text().splitlines()[1:], ["lists 0 1 1"])
        self.assertEqual(self.run_tool("--check"), (0, "2 edits, 0 faults\n"))
        (self.folder / "more/seldom.edit").rename(self.folder / "seldom.edit")
        self.fails_with("edit_counts.txt says `lists 0 1 1`, which is not so\nedit_counts.txt does not say `lists 0 2 0`\n")
        (self.folder / "seldom.edit").unlink()
        self.fails_with("edit_counts.txt does not say `lists 0 1 0`\n")

    def test_no_edits_and_an_empty_list_fail(self):
        self.fails_with("edit_counts.txt lists no edits\n")
        self.pin()
        self.fails_with("edit_counts.txt lists no edits\n")
        edit_in(self.folder, WRONG)
        self.pin()
        (self.folder / "wrong.edit").unlink()
        self.fails_with("edit_counts.txt says `lists 0 1 0`, which is not so\n")

    def test_a_file_that_is_not_where_edits_are_fails(self):
        edit_in(self.folder, WRONG)
        edit_in(self.root / "crates/lists/must-fail", WRONG, "wrong_too")
        self.pin()
        self.assertEqual(self.run_tool("--check")[0], 0)
        for path in ("edits/wrong.md", "edits/even/more/wrong.edit", "must-fail/more/wrong.edit", "src/wrong.edit", "edits/more/wrong.edit"):
            file = self.root / "crates/lists" / path
            file.parent.mkdir(parents=True, exist_ok=True)
            file.write_text(WRONG)
            self.fails_with(f"crates/lists/{path} is no edit of its own name in must-fail/NAME.edit, edits/NAME.edit, edits/more/NAME.edit\n")
            file.unlink()

    def test_an_edit_that_is_not_judged_fails(self):
        edit_in(self.folder, WRONG)
        edit_in(self.folder, WRONG, "lost")
        self.pin()
        every = edits.try_edits
        with mock.patch.object(edits, "try_edits", lambda *given: (it for it in every(*given) if it[0].name != "lost")):
            status, printed = self.run_tool()
        self.assertEqual((status, "lists/lost: NOT JUDGED: nothing is known of it\n" in printed), (1, True))

    def test_edits_are_tried_while_a_command_proves_crates(self):
        edit_in(self.folder, WRONG)
        self.pin()
        status, printed = self.run_tool("--while", "sh", "-c", "echo 'rt: lists proved'; echo 'rt: lists: its tests are proved'; echo '2 passed, 0 failed'")
        self.assertEqual(status, 0)
        self.assertIn("2 passed, 0 failed\nlists/wrong: refused: listed::push: returns\n", printed)

    def test_a_crate_that_the_command_does_not_name_is_tried_after_it(self):
        edit_in(self.folder, "file: src/listed.rt\nold: right\nnew: left\n")
        self.pin()
        status, printed = self.run_tool("--while", "true")
        self.assertEqual((status, "lists/wrong: NOT REFUSED" in printed), (1, True))

    def test_a_command_that_fails_ends_the_tool(self):
        edit_in(self.folder, WRONG)
        (self.root / "kit/bin/rattle").write_text("#!/bin/sh\nexec sleep 60\n")
        start = time.monotonic()
        with self.assertRaises(SystemExit) as ended:
            self.run_tool("--while", "sh", "-c", "echo 'rt: lists is kept: an earlier run proved it'; sleep 1; exit 3")
        self.assertEqual(ended.exception.code, 3)
        self.assertLess(time.monotonic() - start, 30)

    def test_a_check_that_gives_way_waits_for_memory(self):
        prover = Prover("/kit", pathlib.Path("/built"), {}, gives_way=True)
        free = [proving.ROOM - 1, proving.ROOM]
        with mock.patch.object(proving, "free_memory", side_effect=free) as asked, mock.patch.object(proving.time, "sleep"):
            self.assertEqual(prover.run(["nice"], "/"), "19\n")
        self.assertEqual(asked.call_count, 2)

    def test_checks_wait_for_memory_only_while_the_command_runs(self):
        edit_in(self.folder, WRONG)
        self.pin()
        with mock.patch.object(proving, "free_memory", return_value=0):
            status, printed = self.run_tool("--while", "sh", "-c", "echo 'rt: lists proved'; sleep 1")
        self.assertEqual((status, "lists/wrong: refused" in printed), (0, True))

    def test_a_name_that_fits_no_edit_is_an_error(self):
        with self.assertRaisesRegex(SystemExit, "no edit fits nothing_here"):
            self.run_tool("nothing_here")

    def test_a_crate_is_checked_over_all_below_it(self):
        prover = Prover("/kit", pathlib.Path("/built"), crates_of(self.root))
        words = prover.words("upper", "src/lib.rt")
        externs = [words[at + 1] for at, word in enumerate(words) if word == "--extern"]
        self.assertEqual(externs, ["std=/kit/rlibs/std.rlib", "lists=/built/lists/out/rlib/lists.rlib", "hex=/kit/rlibs/hex.rlib"])
        self.assertIn("dependency=/built/lists/out/rlib", words)


if __name__ == "__main__":
    unittest.main()
