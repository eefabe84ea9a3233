"""Tests `serve --state` of the second implementation with journals that are typed from docs/FORMATS.md, and of the program if it is built."""

import contextlib
import fcntl
import io
import os
import pathlib
import subprocess
import tempfile
import unittest

from service.reference.journals import read_journal
from service.reference.saving import end_of
from service.reference.state_folders import serve_state
from tools import EXAMPLES
from tools.compare.program import PROGRAM

P2 = (EXAMPLES / "plant_p2.toml").read_text()
WITH_GOLD = P2 + '[[class]]\nname = "gold"\nencoding = "070105"\n'
LONGER = P2.replace('["020000000003"]', '["020000000003", "020000000004"]')
# Frames from 3 times 2 to the power of 29, and 5, on.
LATER = P2.replace("frame_us", "first_frame = 1610612741\nframe_us", 1)
REQUEST = "M 020000000001 0F0001180A010200010601060F0102\n"
# Two requests that name the class, and what is saved of the first one where there is no class: a cached refusal.
OF_GOLD, AGAIN_OF_GOLD = (f"M 020000000001 0F000{tid}180E010200010405676F6C6400060106\n" for tid in (1, 2))
RESPONSE = "R 020000000001 10000100180E0102000102040000010103020101\n"
A0, B0, A1 = "F A 0 0/6/8/32\n", "F B 0 0/6/40/32\n", "F A 1 0/6/8/32\n"
MAP0 = "MAP 0 01010400000000000000000000000000FFFC400000018008000180280001C048\n"
LONG = "Q " + 5_000 * "7"


def snapshot_of(plant, operators, frame=0):
    """Returns a snapshot. `operators` are the records of those that are saved."""
    text = f"melfjits-snapshot 1 {len(plant)}\n{plant}---\nframe {frame} {operators.count('operator ')}\n{operators}"
    return text + end_of(text.encode())


def state_of(count, plant, operators, frame=0):
    """Returns the lines of a journal's snapshot."""
    return f"line {count}\n{snapshot_of(plant, operators, frame)}"


def journal(snapshot, lines=""):
    return "".join(f"={line}\n" for line in snapshot.splitlines()) + "\n" + "".join(f"+{line}\n" for line in lines.split("\n")[:-1]) + "-"


def reference(words, chunks, watch=lambda text: None):
    """Returns the status and the output of the second implementation. Each chunk is what one read returns."""
    data, out = iter([chunk.encode() for chunk in chunks]), []

    def write(text):
        watch(text)
        out.append(text)

    with contextlib.redirect_stderr(io.StringIO()):
        return serve_state(words, lambda: next(data, b""), write), "".join(out)


def program(words, chunks):
    done = subprocess.run([PROGRAM, *words], input="".join(chunks).encode(), stdout=subprocess.PIPE, stderr=subprocess.DEVNULL, timeout=60, check=False)
    return done.returncode, done.stdout.decode()


def has_program():
    """Returns whether the program is built and knows the option."""
    return os.access(PROGRAM, os.X_OK) and program(["serve", "--state", "/nonexistent"], [P2])[0] == 6


IDLE = "operator A 0 0 0\nslice 8 32 32\nnext -\noperator B 0 0 0\nslice 40 32 32\nnext -\n"
REFUSED = IDLE.replace("A 0 0 0\nslice 8 32 32\nnext -\n",
                       "A 0 1 0\nslice 8 32 32\nnext -\nresponse 020000000001 1 dsa 0 held 1500 0 10000104180C010200010506010104020104\n")
# What the folder has before a run, as the journal's bytes or None; the plant file and the lines; the status, the output, and the journal after it.
RUNS = {
    "a beginning": (None, P2, REQUEST + "T\nX\n", 0, "S line 1 frame 0\n" + RESPONSE + A0 + B0 + MAP0 + "fault: line 3\n",
                    journal(state_of(0, P2, ""), REQUEST + "T\nX\n")),
    "an empty journal": ("", P2, "", 0, "S line 1 frame 0\n", journal(state_of(0, P2, ""))),
    "a last line that is not ended": (None, P2, "\nX", 0, "S line 1 frame 0\nfault: line 2\n", journal(state_of(0, P2, ""), "\nX\n")),
    "lines that are done again": (journal(state_of(0, P2, ""), REQUEST + "T A\n"), P2, REQUEST + "T B\nX\n", 0,
                                  "S line 3\n" + RESPONSE + B0 + MAP0 + "fault: line 5\n", journal(state_of(0, P2, ""), REQUEST + "T A\n" + REQUEST + "T B\nX\n")),
    "a state": (journal(state_of(17, P2, IDLE, 5), "X\n"), P2, "X\nT B\n", 0, "S line 19 frame 5\nfault: line 19\nF B 5 0/6/40/32\n",
                journal(state_of(17, P2, IDLE, 5), "X\nX\nT B\n")),
    "K and P": (None, P2, "X\nK\nP\n", 0, "S line 1 frame 0\nfault: line 1\n" + snapshot_of(P2, IDLE) + "fault: line 3\n", journal(state_of(2, P2, IDLE), "P\n")),
    "K while operators are apart": (None, P2, "T A\nK\nT B\nK\n", 0, "S line 1 frame 0\n" + A0 + "fault: line 2\n" + B0 + MAP0 + snapshot_of(P2, IDLE, 1),
                                    journal(state_of(4, P2, IDLE, 1))),
    "K without a line feed": (None, P2, "X\nK", 0, "S line 1 frame 0\nfault: line 1\n" + snapshot_of(P2, IDLE), journal(state_of(2, P2, IDLE))),
    "lines that are not K": (None, P2, "K \nK\r\nk\n", 0, "S line 1 frame 0\nfault: line 1\nfault: line 2\nfault: line 3\n",
                             journal(state_of(0, P2, ""), "K \nK\r\nk\n")),
    # 72 minislots are 8 times 9, so numbers that fit are 2 to the power of 29 apart.
    "another frame number": (None, P2, "T\nN 536870913\nT A\nX", 0, "S line 1 frame 0\n" + A0 + B0 + MAP0 + "N frame 536870913\nF A 536870913 0/6/8/32\nfault: line 4\n",
                             journal(state_of(2, P2, IDLE, 536_870_913), "T A\nX\n")),
    "frame numbers that do not fit": (None, P2, "N 5\nT A\nN 536870912\nN 0x20\nN\n", 0, "S line 1 frame 0\nfault: line 1\n" + A0 + "fault: line 3\nfault: line 4\nfault: line 5\n",
                                      journal(state_of(0, P2, ""), "N 5\nT A\nN 536870912\nN 0x20\nN\n")),
    "a frame number before the first frame": (None, LATER, "N 5\nN 2147483653\nN 1610612740\n", 0, "S line 1 frame 1610612741\nfault: line 1\nN frame 2147483653\nfault: line 3\n",
                                              journal(state_of(2, LATER, IDLE, 2_147_483_653), "N 1610612740\n")),
    "a frame number that goes back": (journal(state_of(2, P2, IDLE, 536_870_913), "X\n"), P2, "N 1\nK\n", 0, "S line 4 frame 536870913\nN frame 1\n" + snapshot_of(P2, IDLE, 1),
                                      journal(state_of(5, P2, IDLE, 1))),
    "a long line that begins with N": (None, P2, "N" + LONG + "\nX\n", 0, "S line 1 frame 0\nfault: line 1\nfault: line 2\n",
                                       journal(state_of(0, P2, ""), "N" + LONG[:4_096] + "\nX\n")),
    "a line that is too long": (None, P2, LONG + "\nX\n", 0, "S line 1 frame 0\nfault: line 1\nfault: line 2\n",
                                journal(state_of(0, P2, ""), LONG[:4_097] + "\nX\n")),
    "another plant file": (journal(state_of(0, P2, ""), "X\n"), LONGER, "M 020000000004 15\n", 0, "S line 2 frame 0\nS 020000000004 Short\n",
                           journal(state_of(1, LONGER, IDLE), "M 020000000004 15\n")),
    "a class more": (journal(state_of(0, P2, ""), OF_GOLD), WITH_GOLD, AGAIN_OF_GOLD, 0,
                     "S line 2 frame 0\nR 020000000001 10000200180E0102000102040000010103020101\n", journal(state_of(1, WITH_GOLD, REFUSED), AGAIN_OF_GOLD)),
    "a class less": (journal(state_of(0, WITH_GOLD, ""), "X\n"), P2, "X\n", 3, "fault: state\n", journal(state_of(0, WITH_GOLD, ""), "X\n")),
    "a plant file that is refused": (journal(state_of(0, P2, ""), REQUEST), P2.replace("020000000001", "020000000009"), "X\n", 3, "fault: state\n",
                                     journal(state_of(0, P2, ""), REQUEST)),
    "operators apart, and another plant file": (journal(state_of(0, P2, ""), "T A\n"), LONGER, "", 3, "fault: state\n", journal(state_of(0, P2, ""), "T A\n")),
    "a plant file that is invalid": (journal(state_of(0, P2, "")), "x", "", 3, "fault: plant 1\n", journal(state_of(0, P2, ""))),
    "a torn end": (journal(state_of(0, P2, ""), "X\n") + "T\n+X\n+", P2, "X\n", 0, "S line 2 frame 0\nfault: line 2\n", journal(state_of(0, P2, ""), "X\nX\n")),
    "no gate": (journal(state_of(0, P2, ""), "X\n")[:-1] + "+X", P2, "", 0, "S line 2 frame 0\n", journal(state_of(0, P2, ""), "X\n")),
    "another file": ("text\n", P2, "", 3, "fault: state\n", "text\n"),
    "a number with a zero before it": (journal(state_of("01", P2, "")), P2, "", 3, "fault: state\n", journal(state_of("01", P2, ""))),
    "no number": (journal("melfjits"), P2, "", 3, "fault: state\n", journal("melfjits")),
    "another sum": (journal(state_of(0, P2, "")).replace("head = 8", "head = 9"), P2, "", 3, "fault: state\n",
                    journal(state_of(0, P2, "")).replace("head = 8", "head = 9")),
    "a state that does not fit": (journal(state_of(0, P2, IDLE.replace("slice 40", "slice 39"))), P2, "", 3, "fault: state\n",
                                  journal(state_of(0, P2, IDLE.replace("slice 40", "slice 39")))),
}  # fmt: skip


class WithFolder(unittest.TestCase):
    def setUp(self):
        place = tempfile.TemporaryDirectory()
        self.addCleanup(place.cleanup)
        self.folder = pathlib.Path(place.name)

    def words(self, *more):
        return ["serve", "--state", str(self.folder), *more]

    def journal(self):
        return (self.folder / "journal").read_bytes().decode()


class Folders(WithFolder):
    def judge_runs(self, run):
        for name, (before, plant, lines, status, output, after) in RUNS.items():
            with self.subTest(name):
                (self.folder / "journal").unlink(missing_ok=True)
                if before is not None:
                    (self.folder / "journal").write_text(before)
                self.assertEqual(run(self.words(), [f"{plant}---\n", lines]), (status, output))
                self.assertEqual(self.journal(), after)
                self.assertFalse((self.folder / "journal.new").exists())

    def test_runs(self):
        self.judge_runs(reference)

    @unittest.skipUnless(has_program(), "the program is not built, or has no option --state")
    def test_runs_of_the_program(self):
        self.judge_runs(program)

    @unittest.skipUnless(has_program(), "the program is not built, or has no option --state")
    def test_all_reasons_of_a_refused_start(self):
        (self.folder / "journal").write_text(journal(state_of(0, P2, ""), REQUEST))
        plant = P2.replace('"020000000001", ', "").replace("sfids = [257", "sfids = [258")
        done = subprocess.run([PROGRAM, *self.words()], input=f"{plant}---\n".encode(), capture_output=True, timeout=60, check=False)
        unfit = f"the plant file does not fit the plant in {self.folder}/journal: operator A cannot go on: "
        reasons = ("modem 020000000001 has a flow, a cached response or a message, and is not listed", "SFID 257 is not in its range")
        self.assertEqual((done.returncode, done.stdout), (3, b"fault: state\n"))
        self.assertEqual(done.stderr.decode(), "".join(f"{unfit}{reason}; change its table, or give it another name\n" for reason in reasons)
                         + "the journal is as it was: start with the plant file that was saved, or mend the plant file\n")

    @unittest.skipUnless(has_program(), "the program is not built, or has no option --state")
    def test_folders_and_words_of_the_program(self):
        self.judge_folders(program)
        self.judge_words(program)

    def test_folders(self):
        self.judge_folders(reference)

    def test_words(self):
        self.judge_words(reference)

    def judge_folders(self, run):
        file = self.folder / "file"
        file.write_text("")
        for folder in (self.folder / "none", file):
            self.assertEqual(run(["serve", "--state", str(folder)], ["x"]), (6, "fault: io\n"))
        file.unlink()
        # An invalid plant file begins no journal.
        self.assertEqual(run(self.words(), ["x\n---\n"]), (3, "fault: plant 1\n"))
        self.assertEqual(run(self.words(), [P2.replace("budget = 32", "budget = 33")]), (3, "fault: plant 9 A\n"))
        self.assertEqual(run(self.words(), ["#" * 1_048_577]), (6, "fault: io\n"))
        self.assertEqual(b"".join(path.read_bytes() for path in self.folder.iterdir()), b"")
        with (self.folder / "lock").open("w") as lock:
            fcntl.flock(lock, fcntl.LOCK_EX)
            self.assertEqual(run(self.words(), [P2]), (6, "fault: io\n"))
        for path in self.folder.iterdir():
            self.assertEqual(path.read_bytes(), b"")
            path.unlink()
        self.assertEqual(run(self.words(), [P2]), (0, "S line 1 frame 0\n"))
        self.assertEqual([(self.folder / name).stat().st_mode & 0o777 for name in ("journal", "lock")], [0o600, 0o600])

    def judge_words(self, run):
        folder = str(self.folder)
        for words in (["serve", "--state"], ["run", "--state", folder], ["serve", "--state", folder, "--state", folder], ["serve", "--snapshot-every", "5"],
                      ["serve", "--state", folder, "--snapshot-every"], ["serve", "--state", folder, "--snapshot-every", "0"],
                      ["serve", "--state", folder, "--snapshot-every", "+5"], ["serve", "--state", folder, "--snapshot-every", str(2**63 + 1)],
                      ["serve", "--json", "--state", folder]):
            self.assertEqual(run(words, [P2]), (2, "fault: words\n"), words)
        for words in (["--state", folder, "serve"], ["--snapshot-every", "5", "serve", "--state", folder]):
            self.assertEqual(run(words, [P2]), (0, "S line 1 frame 0\n"), words)


class Journals(WithFolder):
    def test_lines_are_in_the_journal_before_they_are_answered(self):
        lines = []

        def watch(text):
            if "fault: line" in text:
                lines.append((len(read_journal((self.folder / "journal").read_bytes())[1]), text))

        self.assertEqual(reference(self.words(), [f"{P2}---\nX", "\nX\nX", "\n\n", "X\nX"], watch)[0], 0)
        self.assertEqual(lines, [(2, "fault: line 1\nfault: line 2\n"), (4, "fault: line 3\n"), (5, "fault: line 5\n"), (6, "fault: line 6\n")])

    def test_a_state_takes_the_place_of_lines(self):
        begun = journal(state_of(0, P2, ""), "X\nT A\n")
        for every, after in (("3", begun), ("2", begun), ("1", begun)):
            (self.folder / "journal").unlink(missing_ok=True)
            reference(self.words("--snapshot-every", every), [f"{P2}---\n", "X\nT A\n"])
            self.assertEqual(self.journal(), after)
        self.assertEqual(reference(self.words("--snapshot-every", "3"), [f"{P2}---\n", "T B\n", "X\n"])[1], "S line 3\n" + B0 + MAP0 + "fault: line 4\n")
        self.assertEqual(self.journal(), journal(state_of(3, P2, IDLE, 1), "X\n"))
        self.assertEqual(reference(self.words(), [f"{P2}---\n", "T A\n"])[1], "S line 5 frame 1\n" + A1)

    def test_each_end_of_a_batch_is_dropped_or_whole(self):
        state = journal(state_of(0, P2, ""))
        both = journal(state_of(0, P2, ""), "X\nT A\n")
        for length in range(len(state) - 1, len(both) + 1):
            (self.folder / "journal").write_text(both[:length])
            count = sum(length >= len(journal(state_of(0, P2, ""), lines)) - 1 for lines in ("X\n", "X\nT A\n"))
            self.assertEqual(reference(self.words(), [P2])[1], "S line 3\n" if count == 2 else f"S line {1 + count} frame 0\n")


if __name__ == "__main__":
    unittest.main()
