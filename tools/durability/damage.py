"""Damages the journal of a folder from outside, and compares what the program makes of it with the second implementation."""

import contextlib
import io
import random
import shutil

from service.reference.journals import read_journal
from service.reference.state_folders import serve_state

from .failures import EVERY
from .judging import History, begin, judge_answers, lockstep
from .load import PLANT, Load
from .state_process import StateProcess

LINES, MOST_CUT, MORE = 130, 4_096, b"T\nM 020000000001 0F0003180A010200010601060F0102\nX\nT\nQ 020000000001 257 3\n"


def prepared(tally, asked, folder, lines, every):
    """Makes a folder with a journal of some lines."""
    load, history = Load(asked.program, asked.seed, LINES), History()
    folder.mkdir()
    process = begin(tally, asked, folder, load, history, "prepared", every=every)
    lockstep(load, history, process, random.Random(asked.seed), lines)
    process.end()
    judge_answers(tally, load, history, process, "prepared")
    return (folder / "journal").read_bytes()


def expected(folder, every):
    """Returns the status and the output of the second implementation on a folder."""
    chunks, written = iter((PLANT + b"---\n" + MORE,)), []
    with contextlib.redirect_stderr(io.StringIO()):
        status = serve_state(["serve", "--state", str(folder), "--snapshot-every", str(every)], lambda: next(chunks, b""), written.append)
    return status, "".join(written).encode()


def try_journal(tally, asked, folder, data, what):
    """Starts the program on a folder with these bytes as its journal."""
    tally.trials += 1
    for name in ("ours", "its"):
        shutil.rmtree(folder / name, ignore_errors=True)
        (folder / name).mkdir()
        (folder / name / "journal").write_bytes(data)
    wanted = expected(folder / "ours", EVERY)
    process = StateProcess(asked.program, folder / "its", EVERY)
    process.give(MORE)
    status = process.end()
    if (status, process.output) != wanted:
        tally.note("wrong", f"{what}: status {status} and {process.output[-120:]!r}, not status {wanted[0]} and {wanted[1][-120:]!r}")
    elif status and read_journal((folder / "its/journal").read_bytes()) != read_journal(data):
        tally.note("other", f"{what}: it was refused, and the journal was changed")
    elif status and str(folder / "its") not in process.reason:
        tally.note("other", f"{what}: standard error does not name the folder: {process.reason[-200:]!r}")


def try_cuts(tally, asked, folder):
    """Cuts the journal at each of its last bytes, where most of them are lines, and where most of them are the state."""
    for name, lines, every in (("lines", LINES, 10_000), ("state", LINES // 2, 7)):
        data = prepared(tally, asked, folder / name, lines, every)
        for length in range(max(0, len(data) - MOST_CUT), len(data) + 1, asked.step):
            try_journal(tally, asked, folder, data[:length], f"{name}: {length} of {len(data)} bytes")


def try_changes(tally, asked, folder):
    """Changes one byte of the journal, and now and then what is after its end."""
    rng = random.Random(asked.seed)
    journals = [prepared(tally, asked, folder / name, lines, every) for name, lines, every in (("lines", LINES, 10_000), ("state", LINES // 2, 7))]
    for _ in range(asked.times):
        data = bytearray(rng.choice(journals))
        place = rng.randrange(len(data))
        data[place] = rng.choice((data[place] ^ 1 << rng.randrange(8), rng.randrange(256), rng.choice(b"+-=\n0")))
        what = f"byte {place} of {len(data)}"
        if rng.random() < 0.1:
            data += rng.choice((b"T\n", b"+T\n-", b"\0" * 600, bytes(rng.randrange(256) for _ in range(30))))
            what += ", and a longer file"
        try_journal(tally, asked, folder, bytes(data), what)

