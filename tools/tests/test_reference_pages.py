"""Tests tools/run reference_pages: what it writes of small crates, and that it notices each kind of difference."""

import contextlib
import io
import pathlib
import subprocess
import tempfile
import unittest

from tools import ROOT
from tools.crate_pages import reference_pages as TOOL
from tools.crate_pages.source_items import read_items
from tools.prose.checks import findings_of

LONG = "result ≡ " + " + ".join(["number"] * 12)
CRATES = """# NAME: what it depends on
# Part: Tests
trials: low
# Part: Low ones
low:
# Part: High ones
high staticlib: low toml
"""
SOURCES = {
    "trials/src/lib.rt": "//! Tests of the lowest crate.\n\n#[cfg(test)]\nmod inputs;\n",
    "high/src/lib.rt": """//! A crate above.

mod own;

pub use low::{Name, codes::FIRST};
pub use own::above;
pub use toml::Tree;
""",
    "high/src/own.rt": "/// Goes on.\npub fn above() {\n    below()\n}\n",
    "low/src/lib.rt": """//! The lowest crate. It says
//! more.
//!
//! - A first
//!   point.
//! - A second one.
#![tactic(auto)]

pub mod codes;
mod hidden;
mod kinds;
mod laws;

pub use crate::kinds::{
    Number, Name, Choice,
    Sees, look,
};
pub use laws::is_small;

/// Returns twice the number. The sum is
/// never cut.
pub fn twice(
    number: u8, // as it is
) -> u16
    // The result is even.
    // It is small.
    ensures even { result % 2 ≡ 0 }
    ensures sum { result ≡ number + number }
    ensures long { LONG }
    ensures { LONG }
{
    number + number
}

/// Is for this crate alone.
pub(crate) fn within_the_crate() {}

/// Is for this file alone.
fn within_the_file() {}
""".replace("LONG", LONG),
    "low/src/codes.rt": """//! Numbers with names.

/// The first code.
pub const FIRST: u8 = 1;

/// A long list.
pub const LIST: [u8; 40] = [FORTY];

/// A code that nobody else needs.
const SECOND: u8 = 2;
""".replace("FORTY", "0, " * 40),
    "low/src/hidden.rt": """/// Is public in a module that is not.
pub struct Secret;

/// Is not exported.
pub fn not_exported() {}

impl Name {
    /// Returns the length. Its code is in another file.
    pub fn length(&self) -> usize
        requires { 0 < length self.now }
    {
        self.bytes.len()
    }
}
""",
    "low/src/kinds.rt": """//! One of each kind.

ghost use Rattle.std.specs.Prelude.{◌≡◌};

/// A name of a few bytes.
#[derive(Clone, Debug)]
pub struct Name {
    /// The bytes.
    pub bytes: Vec<u8>,
    /// The sum of the bytes.
    sum: u16,
    pub(crate) mark: u8,
    // The name has a byte.
    ghost some: { 0 < length bytes },
    ghost marked: { mark ≡ 1 } by { is_marked mark },
}

impl Model for Name {
    ghost Value = { List ℕ };

    ghost view = { λ n. n.bytes };

    ghost invariant = { λ n. 0 < length n.bytes };

    ghost inverse = { λ n. n };
}

impl Sees<u8> for Name {
    fn see(&self) -> u8 {
        1
    }
}

impl Name {
    /// The shortest name.
    pub const SHORTEST: u8 = 1;

    /// Returns a name.
    pub fn new() -> Name {
        Name {}
    }

    /// Is for this crate alone.
    pub(crate) fn hidden_method(&self) {}
}

/// One of several.
pub enum Choice {
    /// Chooses none.
    None,
    Some(Name, u8),
    /// Chooses many.
    Many {
        /// How many.
        count: u8,
    },
}

/// A number with a unit that nobody sees.
pub struct Number(pub u8, u16);

/// Something that can be looked at.
pub trait Sees<T> {
    /// What is seen.
    ghost seen: { Self → ℕ };

    /// Looks at it.
    fn see(&self) -> T
        ensures { result ≡ seen self.now };
}

/// Looks twice.
pub fn look<'a, T: Sees<u8>>(mut one: &'a T, other: Option<&mut T>) -> (u8, u8) {
    let brace = '{';
    (one.see(), 0)
}
""",
    "low/src/laws.rt": """/// States that a code is small.
#[tactic(auto, using(crate::proofs::Small::is))]
pub fn is_small()
    ensures { 1 ≤ 2 }
{}
""",
    "low/specs/Lib.antt": "pub mod Rules\n",
    "low/specs/Rules.antt": """-- The rules
-- of all.
use Rattle.std.specs.Prelude.{ℕ}

-- one more
abbrev pub next : ℕ → ℕ
next n = suc n

abbrev pub long_sum : ℕ → ℕ
long_sum zero = zero
long_sum n = n

-- ---- the second part

-- what is kept
pub record Kept : Type 0 where
  -- the first
  -- number
  pub first : ℕ
  pub second : ℕ

-- is for this file alone
helper : ℕ
helper = 1

module _ {X : Type 0} where

  -- a list of one
  unfoldable pub ◌single◌ : X → List X
  single x = x ∷ []
""",
    "low/edits/sum_too_small.edit": "file: src/lib.rt\nold: number + number\nnew: number\n",
    "low/edits/wrong_look.edit": "file: src/kinds.rt\nold: (one.see(), 0)\nnew: (0, 0)\n",
    "low/edits/more/two_files.edit": "file: src/lib.rt\nold: a\nnew: b\nfile: src/kinds.rt\nold: a\nnew: b\n",
    "low/must-fail/sum_cut.edit": "file: src/lib.rt\nold: u16\nnew: u8\n",
}


class Pages(unittest.TestCase):
    def setUp(self):
        folder = tempfile.TemporaryDirectory()
        self.addCleanup(folder.cleanup)
        self.root = pathlib.Path(folder.name)
        (self.root / "crates.txt").write_text(CRATES)
        (self.root / "docs").mkdir()
        for name in ("ARCHITECTURE", "THEOREM"):
            (self.root / f"docs/{name}.md").write_text(f"# {name}\n")
        (self.root / "tools").mkdir()
        (self.root / "tools/run").write_text("")
        for name, text in SOURCES.items():
            self.write(name, text)

    def write(self, name, text):
        """Writes a source. The pages are written again when one is read next."""
        self.is_written = False
        path = self.root / "crates" / name
        path.parent.mkdir(parents=True, exist_ok=True)
        path.write_text(text)

    def run_tool(self, *options):
        """Runs the tool in this process, and returns its status and its output."""
        output = io.StringIO()
        with contextlib.redirect_stdout(output):
            try:
                TOOL.main(["--root", str(self.root), *options])
            except SystemExit as end:
                # A text is what the tool writes to standard error.
                return (end.code, output.getvalue()) if isinstance(end.code, int) else (1, f"{end.code}\n")
        return 0, output.getvalue()

    def page(self, name):
        return self.root / "docs/reference" / name

    def written(self, name):
        """Returns the page of a crate as the tool writes it."""
        if not self.is_written:
            self.assertEqual(self.run_tool(), (0, ""))
            self.is_written = True
        return self.page(f"{name}.md").read_text()

    def below(self, name, heading):
        """Returns what a page has below a heading, up to the next one. The heading links to a source, or to none."""
        _, _, rest = self.written(name).partition(f"\n{heading}\n\n")
        return rest.partition("\n#")[0].strip("\n")

    def of_item(self, level, name, file):
        return self.below("low", f"{'#' * level} [`{name}`](../../crates/low/{file})")


class Items(Pages):
    def test_head(self):
        self.assertTrue(self.written("low").startswith(
            "# low\n\n<!-- Written by tools/run reference_pages from the sources. Do not edit. -->\n\n"
            "The lowest crate. It says more.\n\n- A first point.\n- A second one.\n\nDepends on no other crate.\n\n## Types\n"
        ))  # fmt: skip
        self.assertIn("\nDepends on [low](low.md), `toml`.\n", self.written("high"))

    def test_function_with_each_form_of_clause(self):
        self.assertEqual(self.of_item(3, "twice", "src/lib.rt"), "\n".join((
            "    pub fn twice(number: u8) -> u16", "", "Returns twice the number. The sum is never cut.", "",
            "- ensures `even`: The result is even. It is small.", "- ensures `sum`: `result ≡ number + number`", "- ensures `long`",
            "- ensures: in the source",
        )))  # fmt: skip

    def test_a_clause_is_shown_up_to_100_columns(self):
        for text, shown in (("n ≡ " + "1" * 96, f"- ensures:\n  `n ≡ {'1' * 96}`"), ("n ≡ " + "1" * 97, "- ensures: in the source")):
            self.write("low/src/laws.rt", f"/// States it.\npub fn is_small()\n    ensures {{ {text} }}\n{{}}\n")
            self.assertEqual(self.of_item(3, "is_small", "src/laws.rt"), f"    pub fn is_small()\n\nStates it.\n\n{shown}")

    def test_function_with_braces_in_its_body(self):
        self.assertEqual(self.of_item(3, "look", "src/kinds.rt"),
                         "    pub fn look<'a, T: Sees<u8>>(one: &'a T, other: Option<&mut T>) -> (u8, u8)\n\nLooks twice.")

    def test_struct(self):
        self.assertEqual(self.of_item(3, "Name", "src/kinds.rt"), "\n".join((
            "    pub struct Name", "", "A name of a few bytes.", "", "- `bytes: Vec<u8>`: The bytes.", "- ghost `Value`: `List ℕ`",
            "- ghost `view`: `λ n. n.bytes`", "- ghost `invariant`: `λ n. 0 < length n.bytes`", "- ghost `some`: The name has a byte.",
            "- ghost `marked`: `mark ≡ 1`", "- implements `Clone`, `Debug`, `Sees<u8>`",
        )))  # fmt: skip
        self.assertEqual(self.of_item(3, "Number", "src/kinds.rt"), "    pub struct Number(pub u8, _)\n\nA number with a unit that nobody sees.")

    def test_methods(self):
        self.assertEqual(self.of_item(4, "Name::new", "src/kinds.rt"), "    pub fn new() -> Name\n\nReturns a name.")
        self.assertEqual(self.of_item(4, "Name::length", "src/hidden.rt"),
                         "    pub fn length(&self) -> usize\n\nReturns the length. Its code is in another file.\n\n- requires: `0 < length self.now`")
        self.assertEqual(self.of_item(4, "Name::SHORTEST", "src/kinds.rt"), "    pub const SHORTEST: u8 = 1\n\nThe shortest name.")

    def test_enum(self):
        self.assertEqual(self.of_item(3, "Choice", "src/kinds.rt"), "\n".join((
            "    pub enum Choice", "", "One of several.", "", "- `None`: Chooses none.", "- `Some(Name, u8)`",
            "- `Many { count: u8 }`: Chooses many.",
        )))  # fmt: skip

    def test_trait(self):
        self.assertEqual(self.of_item(3, "Sees", "src/kinds.rt"),
                         "    pub trait Sees<T>\n\nSomething that can be looked at.\n\n- ghost `seen`: What is seen.")
        self.assertEqual(self.of_item(4, "Sees::see", "src/kinds.rt"),
                         "    fn see(&self) -> T\n\nLooks at it.\n\n- ensures: `result ≡ seen self.now`")

    def test_constants(self):
        self.assertEqual(self.of_item(3, "codes::FIRST", "src/codes.rt"), "    pub const FIRST: u8 = 1\n\nThe first code.")
        self.assertEqual(self.of_item(3, "codes::LIST", "src/codes.rt"), "    pub const LIST: [u8; 40]\n\nA long list.")

    def test_law(self):
        text = self.written("low")
        self.assertIn("\n## Laws\n\n### [`is_small`](../../crates/low/src/laws.rt)\n\n    pub fn is_small()\n\n"
                      "States that a code is small.\n\n- ensures: `1 ≤ 2`\n\n## Definitions\n", text)
        self.assertLess(text.index("`look`"), text.index("## Constants"))

    def test_private_items_are_left_out(self):
        text = self.written("low")
        for name in ("within_the_crate", "within_the_file", "SECOND", "Secret", "not_exported", "hidden_method", "sum:", "mark:", "inverse",
                     "helper", "u16)"):
            self.assertNotIn(name, text)

    def test_items_of_other_crates(self):
        self.assertEqual(self.below("high", "## From other crates"),
                         "- `Name` of [low](low.md#name)\n- `codes::FIRST` of [low](low.md#codesfirst)\n- `Tree` of `toml`")

    def test_a_crate_with_nothing_public(self):
        self.assertTrue(self.written("trials").endswith("\n\nDepends on [low](low.md).\n\nIt makes nothing public.\n"))

    def test_the_order_is_by_name(self):
        headings = [line.partition("`")[2].partition("`")[0] for line in self.written("low").splitlines() if line.startswith("##") and "`" in line]
        self.assertEqual(headings, ["Choice", "Name", "Name::SHORTEST", "Name::length", "Name::new", "Number", "Sees", "Sees::see", "look", "twice",
                                    "codes::FIRST", "codes::LIST", "is_small", "Rules.antt"])

    def test_a_name_that_is_not_there(self):
        self.write("low/src/laws.rt", "//! Nothing.\n")
        self.assertEqual(self.run_tool(), (1, "reference_pages: crates/low: `pub use laws::is_small` names nothing that is public\n"))

    def test_a_name_of_two_types(self):
        self.write("low/src/laws.rt", SOURCES["low/src/laws.rt"] + "struct Name;\n")
        self.assertEqual(self.run_tool(),
                         (1, "reference_pages: crates/low: several types have the name Name, so it is not clear which one an `impl` is of\n"))

    def test_a_source_that_cannot_be_read(self):
        self.write("low/src/laws.rt", "pub fn is_small()\n    ensures { 1 ≤ 2 }\n{\n")
        self.assertEqual(self.run_tool(), (1, "reference_pages: crates/low/src/laws.rt: a block has no end\n"))


class Functions(unittest.TestCase):
    def test_a_function_for_c(self):
        head = 'pub extern "C" fn open(text: &[u8]) -> u32'
        items = read_items("src/lib.rt", f"/// Opens it.\n#[unsafe(no_mangle)]\n{head} {{\n    0\n}}\n")
        self.assertEqual([(item.kind, item.name, item.signature, item.is_public) for item in items], [("fn", "open", head, True)])


class Definitions(Pages):
    def test_definitions(self):
        self.assertEqual(self.below("low", "### [`Rules.antt`](../../crates/low/specs/Rules.antt)"), "\n".join((
            "The rules of all.", "", "- `next`: one more", "", "      abbrev pub next : ℕ → ℕ", "      next n = suc n", "", "- `long_sum`", "",
            "**the second part**", "", "- `Kept`: what is kept", "  - `first`: the first number", "- `◌single◌`: a list of one", "",
            "      unfoldable pub ◌single◌ : X → List X", "      single x = x ∷ []",
        )))  # fmt: skip

    def test_a_file_without_definitions(self):
        self.assertNotIn("Lib.antt", self.written("low"))

    def test_edits(self):
        self.assertEqual(self.below("low", "## Edits that must fail"), "\n".join((
            "Tried at each run of CI (`edits/`):", "", "- `src/kinds.rt`: wrong look", "- `src/lib.rt`: sum too small", "",
            "Tried by `rt ci` and at each run of CI (`must-fail/`):", "", "- `src/lib.rt`: sum cut", "",
            "Tried in turn, one eighth at each run of CI (`edits/more/`):", "", "- `src/lib.rt`, `src/kinds.rt`: two files",
        )))  # fmt: skip


class Index(Pages):
    def test_index(self):
        self.assertTrue(self.written("README").endswith(
            "\n## Low ones\n\n- [low](low.md): The lowest crate.\n\n## High ones\n\n- [high](high.md): A crate above.\n"
            "\n## Tests\n\n- [trials](trials.md): Tests of the lowest crate.\n"
        ))  # fmt: skip

    def test_the_pages_have_no_wide_lines_and_no_dead_links(self):
        self.written("low")
        for path in sorted(self.page("").iterdir()):
            self.assertEqual(findings_of(self.root, path), [], path.name)


class Check(Pages):
    def setUp(self):
        super().setUp()
        self.assertEqual(self.run_tool(), (0, ""))
        self.assertEqual(self.run_tool("--check"), (0, ""))

    def test_the_command(self):
        self.page("high.md").unlink()
        for option, status in (("--check", 1), (None, 0), ("--check", 0)):
            words = [ROOT / "tools/run", "reference_pages", "--root", self.root, *([option] if option else [])]
            self.assertEqual(subprocess.run(words, capture_output=True, check=False).returncode, status)

    def test_a_stale_page(self):
        before = self.page("low.md").read_text()
        self.write("low/src/laws.rt", SOURCES["low/src/laws.rt"].replace("small.", "less than 3."))
        line = before.splitlines().index("States that a code is small.") + 1
        self.assertEqual(self.run_tool("--check"),
                         (1, f"docs/reference/low.md differs from the sources in line {line}; tools/run reference_pages writes it anew\n"))
        self.assertEqual(self.page("low.md").read_text(), before)

    def test_a_page_that_ends_early(self):
        text = self.page("high.md").read_text()
        self.page("high.md").write_text(text[:text.index("\n\n## From")] + "\n")
        status, output = self.run_tool("--check")
        self.assertEqual((status, output.split()[0]), (1, "docs/reference/high.md"))

    def test_a_page_that_is_not_there(self):
        self.page("high.md").unlink()
        self.assertEqual(self.run_tool("--check"), (1, "docs/reference/high.md is not there; tools/run reference_pages writes it\n"))

    def test_a_page_of_a_crate_that_is_gone(self):
        (self.root / "crates.txt").write_text(CRATES.replace("high staticlib: low toml\n", ""))
        self.assertEqual(self.run_tool("--check"), (1, "\n".join((
            f"docs/reference/README.md differs from the sources in line {self.index_line('## High ones')}; tools/run reference_pages writes it anew",
            "docs/reference/high.md is a page of no crate; tools/run reference_pages removes it\n",
        ))))  # fmt: skip
        self.assertEqual(self.run_tool(), (0, ""))
        self.assertFalse(self.page("high.md").exists())
        self.assertEqual(self.run_tool("--check"), (0, ""))

    def index_line(self, text):
        return self.page("README.md").read_text().splitlines().index(text) + 1

    def test_a_file_of_somebody_else(self):
        self.page("NOTES.md").write_text("# Notes\n")
        self.assertEqual(self.run_tool("--check"), (1, "docs/reference/NOTES.md is a page of no crate; tools/run reference_pages removes it\n"))
        self.assertEqual(self.run_tool(),
                         (1, "reference_pages: docs/reference/NOTES.md is not written by tools/run reference_pages; move it to another folder\n"))
        self.assertTrue(self.page("NOTES.md").exists())
