"""Tests the metrics of a channel and its state in words (service/watching), from answers and snapshots that are typed from docs/FORMATS.md.

The numbers that are expected are computed by hand from docs/RULES.md: what a flow needs, and which minislots a frame grants.
"""

import contextlib
import io
import json
import os
import pathlib
import re
import shutil
import subprocess
import sys
import tempfile
import threading
import time
import unittest
import zlib
from collections import Counter
from unittest import mock

from service.watching import describe_state, folder_states, metrics, watch_channel
from service.watching.figures import Figures
from service.watching.operator_state import Unreadable, operators_of_modems, read_state
from service.watching.outputs import Outputs
from service.watching.snapshot_requests import SnapshotRequests
from tools import ROOT

SECONDS = 30
# A frame has 2,000 microseconds, and a minislot 16 bytes. So 64,000 bits a second reserve 1 minislot, and a grant of 64 bytes takes 4.
PLANT = """[plant]
frame_minislots = 72
head = 8
frame_us = 2000
bytes_per_minislot = 16
short_max = 4
channel = 1
ucd_count = 1

[[operator]]
name = "Alfa"
slice = [8, 32]
sfids = [257, 512]
sids = [257, 272]
flows = 9
transactions = 5
inbox = 3
budget = 32
elements = 12
policy = "strict"
modems = ["020000000001", "02000000000a"]

[[operator]]
name = "B"
slice = [40, 32]
sfids = [513, 768]
sids = [513, 528]
flows = 4
transactions = 6
inbox = 7
budget = 32
elements = 8
policy = "strict"
modems = ["020000000003"]
"""
UNSOLICITED = "6,0,0,0,0,0,0,0,64,20000,800,1"
BEST_EFFORT = "2,1,0,3044,64000,0,0,0,0,0,0,0"
NO_RESERVE = "2,0,0,0,0,0,0,0,0,0,0,0"
POLLED = "4,0,0,0,0,0,4000,0,0,0,0,0"
# Of Alfa, flow 257 needs 4 minislots and 1 element, 258 needs 1 and 2, 260 waits for 1 and 3, and 261 needs 0 and 2. Together 6 and 8.
RECORDS = f"""frame 17 2
operator Alfa 5 3 2
slice 8 30 28
next =20 8 24 24
flow 257 020000000001 =257 - ={UNSOLICITED} ={UNSOLICITED} - 9 0 9
flow 258 02000000000A =258 - ={BEST_EFFORT} ={BEST_EFFORT} - 9 70 15
flow 259 020000000001 - ={NO_RESERVE} - - - 0 0 0
flow 260 020000000001 =260 - - - =1 - ={POLLED} - 12 0 12
flow 261 02000000000A =261 - ={NO_RESERVE} - - 9 0 9
response 020000000001 1 dsa 260 waiting 3 1 10000100
response 020000000001 2 dsd 262 held 40 0 16000200
response 02000000000A 3 dsa 0 held 7 0 10000303
message 020000000001 15020700000000000003
request 02000000000A 258 4
operator B 0 0 0
slice 40 32 32
next =20 40 32 30
"""
BUILD = {"version": "0.1", "kit": "rattle-kit 1", "package": "0.1-1", "program": "proved"}
NO_LIBRARY = "python3-prometheus-client is not installed: no metrics were written"


def snapshot_text(records=RECORDS, plant=PLANT):
    """Returns a snapshot with a right last line: the number of lines before it, and their Adler-32."""
    text = f"melfjits-snapshot 1 {len(plant)}\n{plant}---\n{records}"
    return f"{text}end {text.count(chr(10))} {zlib.adler32(text.encode())}\n".encode()


SNAPSHOT = snapshot_text()
ANSWERS = b"""R 020000000001 10000100180E0102000102040000010103020101
R 020000000001 10000100180E0102000102040000010103020101
R 02000000000A 1000020318070102000105030106
R 020000000003 1600030600
R 0A0B0C0D0E0F 13000418
S 020000000003 TidInUse
S 020000000003 UnknownAck
S 020000000003 UnknownAck
F Alfa 7 257/5/8/4 258/1/12/1 258/6/13/9 0/6/22/18 258/P 261/P
F B 7 0/6/40/32
MAP 7 010105000000
F Alfa 8 257/5/8/4 0/6/12/28
F B 8 513/5/40/2 0/6/42/30 513/P
MAP 8 010105000000
fault: line 12
fault: memory
fault: line 14
P frame 9
"""


def wait_until(holds):
    end = time.monotonic() + SECONDS
    while not holds():
        if time.monotonic() > end:
            raise AssertionError("too late")
        time.sleep(0.01)


def figures_of(data, times=None):
    """Returns the figures of answers: all of them are read at 100, or each line at another time."""
    figures, outputs = Figures(operators_of_modems(PLANT.encode()), 0.002), Outputs()
    for part in [data] if times is None else data.splitlines(keepends=True):
        for piece in outputs.pieces(part):
            figures.take(piece, 100.0 if times is None else next(times))
    figures.settle()
    return figures


class StoredJournal:
    """A journal in which a saved state has taken the place of another, or one that has got lines."""

    def __init__(self, saved, size, lines=(), before=None):
        self.saved, self.bytes, self.lines, self.since, self.before = before, size, Counter(lines), len(lines), saved

    def take(self):
        self.saved = self.before
        return self.lines

    def size(self):
        return self.bytes


def all_figures():
    """Returns figures of which each is known."""
    figures = figures_of(ANSWERS + SNAPSHOT)
    figures.take_journal(StoredJournal(5, 1_000, [b"T", b"M 020000000001"]), 100)
    figures.waiting_bytes, figures.answers_bytes, figures.disks = 12, 34, {"answers": (5, 9), "folder": (6, 9)}
    figures.units = {"plant@east.service": ("active", 3), "plant@east.socket": ("failed", None)}
    return figures


class SplittingOutputs(unittest.TestCase):
    def test_pieces_of_any_size_give_the_same(self):
        data = ANSWERS + SNAPSHOT + ANSWERS
        wanted = ANSWERS.splitlines() + [SNAPSHOT] + ANSWERS.splitlines()
        for size in (1, 7, 100, 5_000):
            outputs = Outputs()
            found = [output for place in range(0, len(data), size) for output in outputs.take(data[place:place + size])]
            self.assertEqual(found, wanted, size)

    def test_a_plant_file_may_look_like_outputs(self):
        text = snapshot_text(plant=PLANT + '\nnote = """\nend 1 2\nMAP 9 01\n"""\n')
        self.assertEqual(Outputs().take(text + b"MAP 7 01\n"), [text, b"MAP 7 01"])

    def test_lines_after_a_snapshot_that_is_cut_are_read(self):
        """A program that was killed wrote a part of a snapshot, and the next start ends the line."""
        for place in range(len("melfjits-snapshot "), len(SNAPSHOT) - 20, 11):
            data = SNAPSHOT[:place] + b"\n" + b"MAP 7 0101\n" * 300
            self.assertIn(b"MAP 7 0101", Outputs().take(data), place)
            self.assertEqual([output for output in Outputs().take(data) if output.startswith(b"melfjits")], [])

    def test_what_never_ends_is_not_kept(self):
        outputs = Outputs()
        with mock.patch("service.watching.outputs.MOST_BYTES", 1_000):
            outputs.take(b"a" * 999)
            self.assertEqual(len(outputs.rest), 999)
            outputs.take(b"a" * 2)
        self.assertEqual(outputs.take(b"\nMAP 7 01\n"), [b"", b"MAP 7 01"])


@unittest.skipIf(metrics.CollectorRegistry is None, NO_LIBRARY)
class Metrics(unittest.TestCase):
    def samples(self, figures):
        """Returns the value of each metric, as it is written."""
        text = metrics.text_of_metrics("east", figures, BUILD).decode()
        return dict(line.rsplit(" ", 1) for line in text.splitlines() if not line.startswith("#"))

    def found(self, figures, name):
        return {key: float(value) for key, value in self.samples(figures).items() if re.split("[{]", key)[0] == f"melfjits_{name}"}

    def assert_values(self, figures, name, **wanted):
        """Compares all values of a metric: `operator__state` is a pair of values of labels."""
        found = {"__".join(re.findall('(?<!channel)="([^"]*)"', key)): value for key, value in self.found(figures, name).items()}
        self.assertEqual(found, wanted, name)
        self.assertTrue(all('channel="east"' in key for key in self.found(figures, name)))

    def test_answers_by_type(self):
        self.assert_values(figures_of(ANSWERS + SNAPSHOT), "answers_total", reply=5, drop=3, frame=4, map=2, fault=3, change=1, number=0, start=0, snapshot=1)
        self.assert_values(figures_of(b""), "answers_total", reply=0, drop=0, frame=0, map=0, fault=0, change=0, number=0, start=0, snapshot=0)
        self.assert_values(figures_of(b"S line 18 frame 9\nS line 19\nS line x\nN frame 8\nMAP 18 01\n"), "answers_total",
                           reply=0, drop=0, frame=0, map=1, fault=0, change=0, number=1, start=2, snapshot=0)

    def test_replies_by_code(self):
        """The labels are in the order of their names: the code and the operator. A modem that is not listed has none."""
        self.assert_values(figures_of(ANSWERS), "replies_total", **{"0__Alfa": 2, "3__Alfa": 1, "6__B": 1, "24__": 1})

    def test_drops_by_cause(self):
        self.assert_values(figures_of(ANSWERS), "drops_total", TidInUse__B=1, UnknownAck__B=2)

    def test_faults(self):
        self.assert_values(figures_of(ANSWERS), "faults_total", line=2, memory=1)
        self.assert_values(figures_of(b"fault: io\nfault: plant 2 plant.head\n"), "faults_total", line=0, memory=0, io=1, plant=1)

    def test_minislots_by_use(self):
        """Alfa has 4 + 9 and 4 minislots granted, 1 to poll, and 18 and 28 idle. Each frame of a slice of 32 has 32."""
        self.assert_values(figures_of(ANSWERS), "minislots_total", Alfa__granted=17, Alfa__polled=1, Alfa__idle=46, B__granted=2, B__polled=0, B__idle=62)

    def test_pending_grants(self):
        self.assert_values(figures_of(ANSWERS), "pending_grants_total", Alfa=2, B=1)

    def test_the_last_map(self):
        figures = figures_of(ANSWERS, iter(range(1_000, 1_018)))
        self.assertEqual(self.found(figures_of(b""), "last_map_timestamp_seconds"), {'melfjits_last_map_timestamp_seconds{channel="east"}': 0})
        self.assertEqual(self.found(figures, "frame_number"), {'melfjits_frame_number{channel="east"}': 8})
        self.assertEqual(self.found(figures, "last_map_timestamp_seconds"), {'melfjits_last_map_timestamp_seconds{channel="east"}': 1_013})
        self.assertEqual(self.found(figures_of(b"T\n"), "frame_number"), {})

    def test_intervals_of_maps(self):
        """Times between MAPs of 0.25, 0.0015 and 20 seconds, and of none where the clock was set back."""
        figures = figures_of(b"MAP 7 01\n" * 5, iter((100.0, 100.25, 100.2515, 120.2515, 90.0)))
        found = self.found(figures, "map_interval_seconds_bucket")
        at = {re.search('le="([^"]*)"', key)[1]: value for key, value in found.items()}
        self.assertEqual([at[bound] for bound in ("0.0005", "0.001", "0.002", "0.2", "0.5", "10", "+Inf")], [1, 1, 2, 2, 3, 3, 4])
        self.assertEqual(self.found(figures, "map_interval_seconds_count"), {'melfjits_map_interval_seconds_count{channel="east"}': 4})
        self.assertAlmostEqual(list(self.found(figures, "map_interval_seconds_sum").values())[0], 20.2515)

    def test_states(self):
        figures = figures_of(SNAPSHOT)
        self.assert_values(figures, "flows", **{f"{name}__{state}": count for name, counts in (("Alfa", (1, 2, 1, 1, 0)), ("B", (0,) * 5))
                                                for state, count in zip(("pending", "active", "admitted", "provisioned", "null"), counts)})
        self.assert_values(figures, "cached_responses", Alfa__awaiting=1, Alfa__retained=2, B__awaiting=0, B__retained=0)
        for name, alfa, other in (("flows_limit", 9, 4), ("cached_responses_limit", 5, 6), ("inbox_messages", 2, 0), ("inbox_limit", 3, 7),
                                  ("slice_minislots", 30, 32), ("budget_minislots", 28, 32), ("committed_minislots", 6, 0),
                                  ("committed_elements", 8, 0), ("elements_limit", 12, 8), ("backlog_minislots", 70, 0)):
            self.assert_values(figures, name, Alfa=alfa, B=other)
        self.assertEqual(self.found(figures, "last_snapshot_timestamp_seconds"), {'melfjits_last_snapshot_timestamp_seconds{channel="east"}': 100})
        self.assertEqual(self.found(figures_of(ANSWERS), "flows"), {})

    def test_a_flow_without_a_set_is_null(self):
        records = RECORDS.replace(f"=258 - ={BEST_EFFORT} ={BEST_EFFORT} - 9 70 15", "- - - - - 9 0 15")
        self.assertEqual(self.found(figures_of(snapshot_text(records)), "flows")['melfjits_flows{channel="east",operator="Alfa",state="null"}'], 1)

    def test_the_journal(self):
        """The time is that at which a saved state was first seen."""
        figures = figures_of(ANSWERS)
        self.assertEqual(self.found(figures, "journal_bytes"), {})
        for before, saved, size, now, last in ((None, 5, 500, 100, 100), (5, 5, 600, 110, 100), (5, 9, 90, 130, 130)):
            self.assertEqual(figures.take_journal(StoredJournal(saved, size, before=before), now), (before, saved) == (5, 9))
            self.assertEqual(self.found(figures, "journal_bytes"), {'melfjits_journal_bytes{channel="east"}': size})
            self.assertEqual(self.found(figures, "saved_state_timestamp_seconds"), {'melfjits_saved_state_timestamp_seconds{channel="east"}': last})

    def test_build(self):
        self.assertEqual(self.found(figures_of(b""), "build_info"), {
            'melfjits_build_info{channel="east",kit="rattle-kit 1",package="0.1-1",program="proved",version="0.1"}': 1})

    def test_a_snapshot_that_is_spoilt_or_cut_changes_nothing(self):
        before = self.samples(figures_of(ANSWERS + SNAPSHOT))
        spoilt = [SNAPSHOT.replace(b"slice 8 30 28", b"slice 8 30 29"), SNAPSHOT.replace(b"operator B", b"operator A"), SNAPSHOT[:-7] + b"\n",
                  SNAPSHOT[:700] + b"\n", SNAPSHOT[:300] + b"\n", snapshot_text(RECORDS.replace("operator B", "operator C")),
                  snapshot_text(plant=PLANT.replace("[plant]", "[plant")), b"melfjits-snapshot x\n", b"melfjits-snapshot 1 99999999\n"]
        for one in spoilt:
            self.assertEqual(self.samples(figures_of(ANSWERS + SNAPSHOT + one)), before, one[-60:])

    def test_the_operators_of_modems_are_those_of_the_last_plant(self):
        plant = PLANT.replace('"02000000000a"]', '"0A0B0C0D0E0F"]')
        records = "".join(line + "\n" for line in RECORDS.splitlines() if "02000000000A" not in line).replace("Alfa 5 3 2", "Alfa 3 2 1")
        figures = figures_of(ANSWERS + snapshot_text(records, plant) + b"R 0A0B0C0D0E0F 13000418\n")
        self.assert_values(figures, "replies_total", **{"0__Alfa": 2, "3__Alfa": 1, "6__B": 1, "24__": 1, "24__Alfa": 1})

    def test_lines_that_are_cut_count_nothing(self):
        self.assertEqual(self.samples(figures_of(b"R 0200\nS 02\nF\nMAP\nfault\nP fr\nR 020000000001 1000\n\n\xff\n")), self.samples(figures_of(b"")))

    @unittest.skipUnless(shutil.which("promtool"), "promtool is not installed: the metrics were not checked")
    def test_promtool_has_no_remark(self):
        for figures in (figures_of(b""), all_figures()):
            text = metrics.text_of_metrics("east", figures, BUILD)
            done = subprocess.run(["promtool", "check", "metrics"], input=text, capture_output=True, check=False)
            self.assertEqual((done.returncode, done.stdout, done.stderr), (0, b"", b""))

    def test_the_pages_list_these_metrics(self):
        """METRICS.md has each of them, and MONITORING.md no others."""
        text = metrics.text_of_metrics("east", all_figures(), BUILD).decode()
        written = dict(line.split()[2:] for line in text.splitlines() if line.startswith("# TYPE"))

        def rows_of(lines):
            rows = [re.match(r"\| `(melfjits_\w+)`[^|]*\| (\w+) \|", line) for line in lines]
            return {row[1]: row[2] for row in rows if row}

        self.assertEqual(rows_of((ROOT / "docs/METRICS.md").read_text().splitlines()), written)
        self.assertLessEqual(rows_of((ROOT / "docs/MONITORING.md").read_text().splitlines()).items(), written.items())


class Requests(unittest.TestCase):
    def setUp(self):
        folder = tempfile.TemporaryDirectory()
        self.addCleanup(folder.cleanup)
        self.pipe = pathlib.Path(folder.name, "in")
        os.mkfifo(self.pipe)
        self.file = os.open(self.pipe, os.O_RDWR | os.O_NONBLOCK)
        self.addCleanup(os.close, self.file)

    def written(self):
        with contextlib.suppress(BlockingIOError):
            return os.read(self.file, 65_536)
        return b""

    def asked(self, requests, *times):
        """Returns at which of the times a line K was written."""
        found = []
        for now in times:
            requests.ask(now)
            if self.written() == b"K\n":
                found.append(now)
        return found

    def test_one_at_a_time(self):
        requests = SnapshotRequests(self.pipe, 60, 1_000)
        self.assertEqual(self.asked(requests, 999, 1_000, 1_060, 1_500), [1_000])
        requests.answered(is_refused=False)
        # (an invalid line of another client)
        requests.answered(is_refused=True)
        self.assertEqual(self.asked(requests, 1_059, 1_061, 1_062), [1_061])
        self.assertEqual(self.asked(requests, 1_660, 1_661, 1_662), [1_661])

    def test_refusals_double_the_time(self):
        requests, found = SnapshotRequests(self.pipe, 10, 0), []
        for now in range(0, 2_000):
            found += self.asked(requests, now)
            requests.answered(is_refused=True)
        self.assertEqual(found, [0, 20, 60, 140, 300, 620, 1_260, 1_900])
        self.asked(requests, 5_000)
        requests.answered(is_refused=False)
        self.assertEqual(self.asked(requests, 5_009, 5_010), [5_010])
        # An invalid line of another client comes before the snapshot, so the next request is late once.
        for is_refused in (True, False):
            requests.answered(is_refused)
        self.assertEqual(self.asked(requests, 5_029, 5_030), [5_030])
        requests.answered(is_refused=True)
        self.assertEqual(self.asked(requests, 5_049, 5_050), [5_050])

    def test_a_change_makes_a_request_due(self):
        requests = SnapshotRequests(self.pipe, 60, 0)
        self.asked(requests, 0)
        requests.hasten(1)
        self.assertEqual(self.asked(requests, 2), [])
        requests.answered(is_refused=False)
        requests.hasten(3)
        self.assertEqual(self.asked(requests, 3), [3])

    def test_other_answers_are_none(self):
        requests = SnapshotRequests(self.pipe, 60, 50)
        requests.answered(is_refused=True)
        self.assertEqual(self.asked(requests, 49, 50), [50])

    def test_without_a_period_it_never_asks(self):
        self.assertEqual(self.asked(SnapshotRequests(self.pipe, 0, 0), 0, 100), [])

    def test_a_full_pipe_and_a_missing_one_are_not_waited_for(self):
        with contextlib.suppress(BlockingIOError):
            while True:
                os.write(self.file, b"T\n" * 2_048)
        requests, started = SnapshotRequests(self.pipe, 60, 0), time.monotonic()
        requests.ask(0)
        self.assertIsNone(requests.asked)
        while self.written():
            pass
        self.assertEqual(self.asked(requests, 59, 60), [60])
        SnapshotRequests("/nowhere/in", 60, 0).ask(0)
        os.close(self.file)
        SnapshotRequests(self.pipe, 60, 0).ask(0)
        self.file = os.open(self.pipe, os.O_RDWR)
        self.assertLess(time.monotonic() - started, 2)


class Files(unittest.TestCase):
    def setUp(self):
        folder = tempfile.TemporaryDirectory()
        self.addCleanup(folder.cleanup)
        self.folder = pathlib.Path(folder.name)

    def test_a_file_is_replaced_whole(self):
        path, texts, seen = self.folder / "east.prom", [b"a" * 3_000_000, b"b" * 2_000_000], set()
        old_mask = os.umask(0o077)
        self.addCleanup(os.umask, old_mask)
        watch_channel.replace_file(path, texts[0])
        self.assertEqual(path.stat().st_mode & 0o777, 0o644)
        is_done = threading.Event()

        def read():
            while not is_done.is_set():
                seen.add(path.read_bytes())

        reader = threading.Thread(target=read)
        reader.start()
        for number in range(40):
            watch_channel.replace_file(path, texts[number % 2])
        is_done.set()
        reader.join()
        self.assertLessEqual(seen, set(texts))
        self.assertEqual([path.name for path in self.folder.iterdir()], ["east.prom"])

    def test_a_link_in_place_of_the_new_file_is_not_followed(self):
        target = self.folder / "target"
        for link in (os.symlink, os.link):
            target.write_bytes(b"kept")
            target.chmod(0o600)
            link(target, self.folder / "east.new")
            watch_channel.replace_file(self.folder / "east.prom", b"metrics")
            self.assertEqual((target.read_bytes(), target.stat().st_mode & 0o777), (b"kept", 0o600))
            self.assertEqual(((self.folder / "east.prom").read_bytes(), (self.folder / "east.prom").is_symlink()), (b"metrics", False))

    def test_a_folder_that_is_not_there_ends_it(self):
        with self.assertRaises(watch_channel.Ended) as found:
            watch_channel.replace_file(self.folder / "none/east.prom", b"")
        self.assertEqual(found.exception.status, 6)

    def test_the_modems_and_the_frame_of_a_plant_file(self):
        known = {"020000000001": "Alfa", "02000000000A": "Alfa", "020000000003": "B"}, 0.002
        for name, text, wanted in (("plant.toml", PLANT + "---\nT\n", known), ("plant.toml", "---\n" + PLANT, ({}, None)), ("none", None, ({}, None))):
            if text:
                (self.folder / name).write_text(text)
            figures = watch_channel.figures_of_file(self.folder / name)
            self.assertEqual((figures.operator_of, figures.frame_seconds), wanted)

    def test_what_is_known_of_the_program(self):
        program = self.folder / "program"
        program.write_text("#!/bin/sh\n[ $1 = --version ] && echo plant_script 0.1\n")
        program.chmod(0o755)
        (self.folder / "build.txt").write_text("version: 0.1-1\ncommit: 0123\nprogram: not proved, sha256 0123\nproof log: none: x\ntoolchain kit: rattle-kit-1 of today\n")
        self.assertEqual(watch_channel.build_of(program, self.folder / "build.txt"),
                         {"version": "0.1", "kit": "rattle-kit-1 of today", "package": "0.1-1", "program": "not proved"})
        self.assertEqual(set(watch_channel.build_of("/nowhere", self.folder / "none").values()), {""})


@unittest.skipIf(metrics.CollectorRegistry is None, NO_LIBRARY)
class Process(unittest.TestCase):
    """Runs the command on a file of answers and a pipe."""

    def setUp(self):
        folder = tempfile.TemporaryDirectory()
        self.addCleanup(folder.cleanup)
        self.folder = pathlib.Path(folder.name)
        self.answers, self.file = self.folder / "answers", self.folder / "melfjits_east.prom"
        (self.folder / "plant.toml").write_text(PLANT)
        os.mkfifo(self.folder / "in")
        self.pipe = os.open(self.folder / "in", os.O_RDWR | os.O_NONBLOCK)
        self.addCleanup(os.close, self.pipe)

    def start(self, **environment):
        environment = {**os.environ, "ANSWERS": str(self.answers), "METRICS": str(self.folder), "PLANT_SCRIPT": "/nowhere", "METRICS_SECONDS": "0.5", **environment}
        process = subprocess.Popen([ROOT / "tools/run", "watch_channel", "east", "plant.toml", "in"], cwd=self.folder, env=environment, stderr=subprocess.PIPE, text=True)
        for done in (process.stderr.close, process.wait, process.terminate):
            self.addCleanup(done)
        wait_until(lambda: self.file.exists() or process.poll() is not None)
        return process

    def append(self, data):
        with self.answers.open("ab") as file:
            file.write(data)

    def has(self, text):
        return self.file.exists() and text in self.file.read_text()

    def wait_for_maps(self, count):
        wait_until(lambda: self.has(f'melfjits_answers_total{{channel="east",type="map"}} {count}.0\n'))

    def test_it_follows_the_answers_from_their_end_through_rotations(self):
        self.answers.write_bytes(b"MAP 1 01\n" * 100)
        self.start()
        time.sleep(0.5)
        self.append(b"MAP 2 01\nMA")
        self.append(b"P 3 01\n")
        self.wait_for_maps(2)
        os.truncate(self.answers, 0)
        time.sleep(0.5)
        self.append(b"MAP 4 01\n")
        self.wait_for_maps(3)
        self.answers.rename(self.folder / "answers.1")
        self.append(b"MAP 5 01\n")
        self.wait_for_maps(4)
        self.assertTrue(self.has('melfjits_frame_number{channel="east"} 5.0\n'))

    def test_answers_that_are_not_there_yet(self):
        self.start()
        self.append(b"MAP 1 01\n")
        self.wait_for_maps(1)

    def test_a_channel_that_does_nothing_keeps_its_numbers(self):
        self.start()
        self.append(b"MAP 1 01\n")
        self.wait_for_maps(1)
        def text_without_times():
            return re.sub("(?m)^melfjits_(written|disk).*\n", "", self.file.read_text())

        before, text = self.file.stat().st_ino, text_without_times()
        wait_until(lambda: self.file.stat().st_ino != before)
        self.assertEqual(text_without_times(), text)

    def test_the_last_map_before_its_start_is_known(self):
        self.answers.write_bytes(b"MAP 41 01\nR 02\nMAP 42 01\nfault: line 9\nMAP 4")
        os.utime(self.answers, (1_000, 1_000))
        self.start()
        wait_until(lambda: self.has('melfjits_last_map_timestamp_seconds{channel="east"} 1000.0\n'))
        self.assertTrue(self.has('melfjits_frame_number{channel="east"} 42.0\n') and self.has('type="map"} 0.0\n'))

    def test_a_channel_without_any_map(self):
        self.start()
        self.assertTrue(self.has('melfjits_last_map_timestamp_seconds{channel="east"} 0.0\n'))
        self.assertTrue(self.has('melfjits_last_snapshot_timestamp_seconds{channel="east"} 0.0\n'))

    def test_the_file_stays_and_says_when_it_was_written(self):
        process = self.start()
        process.terminate()
        process.wait()
        self.assertLess(abs(time.time() - float(re.search("melfjits_written_timestamp_seconds{.*} (.*)", self.file.read_text())[1])), SECONDS)

    def test_surroundings(self):
        (self.folder / "bin").mkdir()
        (self.folder / "bin/systemctl").write_text("#!/bin/sh\nprintf 'Id=plant@east.service\\nActiveState=failed\\nNRestarts=7\\nLoadState=loaded\\n'\n")
        (self.folder / "bin/systemctl").chmod(0o755)
        self.answers.write_bytes(b"MAP 1 01\n")
        os.write(self.pipe, b"T\nT\n")
        self.start(PATH=f"{self.folder}/bin:{os.environ['PATH']}", SNAPSHOT_SECONDS="0")
        for name, labels, value in (("unit_state", ',state="failed",unit="plant@east.service"', 1), ("unit_restarts_total", ',unit="plant@east.service"', 7),
                                    ("waiting_bytes", "", 4), ("answers_bytes", "", 9)):
            wait_until(lambda: self.has(f'melfjits_{name}{{channel="east"{labels}}} {value:.1f}\n'))
        self.assertTrue(self.has('melfjits_disk_free_bytes{channel="east",disk="answers"} '))
        self.assertFalse(self.has("last_snapshot"))

    def test_the_channel_is_asked_for_its_state_once_it_rests(self):
        self.start(SNAPSHOT_SECONDS="1.5")
        wait_until(lambda: self.waiting() == b"K\n")
        self.append(SNAPSHOT)
        wait_until(lambda: self.waiting() == b"K\n")
        wait_until(lambda: self.has('melfjits_committed_minislots{channel="east",operator="Alfa"} 6.0\n'))
        self.append(b"F Alfa 17 0/6/8/32\n")
        self.append(SNAPSHOT)
        time.sleep(3)
        self.assertEqual(self.waiting(), b"")
        self.append(b"F B 17 0/6/40/32\nMAP 17 01\n")
        wait_until(lambda: self.waiting() == b"K\n")

    def last_snapshot(self):
        return re.search("last_snapshot_timestamp_seconds{.*", self.file.read_text())[0]

    def waiting(self):
        with contextlib.suppress(BlockingIOError):
            return os.read(self.pipe, 65_536)
        return b""

    def test_a_channel_with_a_folder_is_not_asked(self):
        program, folder = self.folder / "program", self.folder / "folder"
        program.write_text(f"#!/bin/sh\n[ $1 = resume ] || exit 2\nPYTHONPATH={ROOT} exec {sys.executable} -P -m service.reference resume\n")
        program.chmod(0o755)
        folder.mkdir()
        (folder / "journal").write_bytes(journal_text())
        self.start(FOLDER=str(folder), PLANT_SCRIPT=str(program), SNAPSHOT_SECONDS="600")
        wait_until(lambda: self.has('melfjits_committed_minislots{channel="east",operator="Alfa"} 6.0\n'))
        self.assertTrue(self.has(f'melfjits_journal_bytes{{channel="east"}} {len(journal_text())}.0\n'))
        self.assertTrue(self.has('melfjits_saved_state_timestamp_seconds{channel="east"} '))
        # A start may be with another plant, so its state is computed at once.
        (folder / "journal").write_bytes(journal_text(b"Z 30 8/24/24 40/32/29"))
        self.append(b"S line 7 frame 17\n")
        first = self.last_snapshot()
        wait_until(lambda: self.has('type="start"} 1.0\n') and self.last_snapshot() != first)
        wait_until(lambda: self.has('melfjits_budget_minislots{channel="east",operator="B"} 32.0\n') and self.has('type="slices"} 1.0\n'))
        self.assertEqual(self.waiting(), b"")

    def test_a_channel_without_a_state_is_not_asked(self):
        self.start(SNAPSHOT_SECONDS="1", STATE="", FOLDER="")
        time.sleep(0.5)
        self.assertEqual(self.waiting(), b"")

    def test_refusals(self):
        for environment, status in (({"ANSWERS": ""}, 2), ({"METRICS": ""}, 2), ({"SNAPSHOT_SECONDS": "often"}, 2), ({"METRICS": "/nowhere"}, 6),
                                    ({"METRICS_SECONDS": "x"}, 2)):
            process = self.start(**environment)
            self.assertEqual(process.wait(SECONDS), status)
            self.assertRegex(process.stderr.read(), "(?m)^watch_channel: .")


class Words(unittest.TestCase):
    WORDS = """The channel is before frame 17. It has 2 operators.

Operator Alfa
  slice: 30 minislots from minislot 8 on, budget 28
  slice change: from frame 20 on, 24 minislots from minislot 8 on, budget 24
  flows: 5 of at most 9 (1 pending, 2 active, 1 admitted, 1 provisioned)
  committed: 6 of 28 minislots of the budget, 8 of 12 elements of a MAP
  cached responses: 3 of at most 5 (1 awaiting an acknowledgement, 2 retained)
  inbox: 2 of at most 3
  backlog: 70 minislots

Operator B
  slice: 32 minislots from minislot 40 on, budget 32
  slice change: from frame 20 on, 32 minislots from minislot 40 on, budget 30
  flows: 0 of at most 4
  committed: 0 of 32 minislots of the budget, 0 of 8 elements of a MAP
  cached responses: 0 of at most 6
  inbox: 0 of at most 7
  backlog: 0 minislots

Modem 020000000001 of operator Alfa: 3 flows, last transaction 447 ticks ago
  flow 257, SID 257: admitted and active ugs, 1 x 64 bytes every 20000 us
    unsolicited grants, no requests: not known how long it is silent
  flow 259, no SID: provisioned be
    no active set: it may not request
  flow 260, SID 260: pending admitted rtps, polled every 4000 us
    no active set: it may not request
    awaits an acknowledgement of transaction 1

Modem 02000000000A of operator Alfa: 2 flows, last transaction 1493 ticks ago
  flow 258, SID 258: admitted and active be, priority 1, reserved 64000 bit/s
    backlog of 70 minislots, waiting since frame 15, 2 frames
  flow 261, SID 261: admitted be
    no active set: it may not request
"""

    def run_with(self, *words, given=b""):
        done = subprocess.run([ROOT / "service/describe_state", *words], input=given, capture_output=True, check=False)
        return done.returncode, done.stdout.decode(), done.stderr.decode()

    def test_words(self):
        self.assertEqual(self.run_with("-", given=SNAPSHOT), (0, self.WORDS, ""))
        records = RECORDS.replace("next =20 8 24 24", "next -").replace("next =20 40 32 30", "next -")
        self.assertIn("budget 28\n  slice change: none waits\n", describe_state.words_of(read_state(snapshot_text(records))))

    def test_an_object(self):
        status, output, _ = self.run_with("--json", "-", given=SNAPSHOT)
        first = json.loads(output)["operators"][0]
        self.assertEqual((status, json.loads(output)["frame"], first["name"]), (0, 17, "Alfa"))
        self.assertEqual((first["slice"], first["next_slice"]), ({"start": 8, "length": 30, "budget": 28}, {"start": 8, "length": 24, "budget": 24}))
        self.assertEqual((first["flows"], first["committed_minislots"], first["inbox_limit"]),
                         ({"pending": 1, "active": 2, "admitted": 1, "provisioned": 1, "null": 0}, 6, 3))
        modem = json.loads(output)["modems"][1]
        self.assertEqual((modem["address"], modem["operator"], modem["ticks_since_transaction"]), ("02000000000A", "Alfa", 1493))
        self.assertEqual(modem["flows"][0], {
            "sfid": 258, "sid": 258, "sets": dict.fromkeys(("admitted", "active"), "be, priority 1, reserved 64000 bit/s"), "is_pending": False,
            "awaits_transaction": None, "may_request": True, "backlog_minislots": 70, "since": 15, "frames_since": 2})

    def test_what_is_not_a_snapshot_is_refused(self):
        for given in (b"", PLANT.encode(), SNAPSHOT[:-2] + b"\n", snapshot_text(RECORDS.replace("slice 8 30 28", "slice 8 30 5"))):
            status, output, errors = self.run_with("-", given=given)
            self.assertEqual((status, output), (3, ""))
            self.assertRegex(errors, "^describe_state: the snapshot cannot be read")
        self.assertEqual(self.run_with("/nowhere")[0], 6)
        self.assertEqual((self.run_with()[0], self.run_with("-", "--channel", "east")[0]), (2, 2))

    def test_a_budget_below_what_is_committed_cannot_be_read(self):
        with self.assertRaises(Unreadable):
            read_state(snapshot_text(RECORDS.replace("slice 8 30 28", "slice 8 30 5")))


def journal_text(*lines, since=5, rest=b"-"):
    """Returns a journal of the snapshot and of lines since."""
    saved = b"".join(b"=" + line + b"\n" for line in (b"line %d" % since, *SNAPSHOT.splitlines()))
    return saved + b"\n" + b"".join(b"+" + line + b"\n" for line in lines) + rest


class Folder(unittest.TestCase):
    """The state in the folder of a channel. The second implementation does the lines again."""

    def setUp(self):
        folder = tempfile.TemporaryDirectory()
        self.addCleanup(folder.cleanup)
        self.top, self.folder = pathlib.Path(folder.name), pathlib.Path(folder.name, "folder")
        self.folder.mkdir()
        self.program = self.top / "program"
        self.program.write_text(f"#!/bin/sh\nPYTHONPATH={ROOT} exec {sys.executable} -P -m service.reference \"$@\"\n")
        self.program.chmod(0o755)

    def write(self, data):
        (self.folder / "journal").write_bytes(data)

    def describe(self, *words):
        environment = {**os.environ, "PLANT_SCRIPT": str(self.program)}
        done = subprocess.run([ROOT / "service/describe_state", *words], capture_output=True, text=True, check=False, env=environment)
        return done.returncode, done.stdout, done.stderr

    def frame(self, data):
        self.write(data)
        return read_state(folder_states.snapshot_of_folder(self.folder, self.program)).frame

    def test_the_saved_state(self):
        self.write(journal_text())
        before = (self.folder / "journal").stat()
        self.assertEqual(self.describe("--folder", self.folder), (0, Words.WORDS, ""))
        self.assertEqual(sorted(path.name for path in self.folder.iterdir()), ["journal"])
        self.assertEqual((self.folder / "journal").stat().st_mtime_ns, before.st_mtime_ns)

    def test_lines_since_count(self):
        self.assertEqual(self.frame(journal_text(b"T", b"T Alfa", b"X", b"", b"T B", b"T")), 20)

    def test_lines_that_only_resume_knows_are_invalid(self):
        """A change of the plant would take the ticks as lines of its file, and another frame number would show."""
        self.assertEqual(self.frame(journal_text(b"K", b"P", b"T", b"N 536870929", b"T")), 19)

    def test_a_copy_that_ends_within_a_batch_is_cut(self):
        whole = journal_text(b"T", b"T", rest=b"")
        for cut, frame in ((1, 18), (2, 18), (3, 18), (4, 17), (6, 17)):
            self.assertEqual(self.frame(whole[:-cut]), frame, cut)
        self.assertEqual(self.frame(journal_text(b"T", rest=b"-T\n+T\n-")), 18)

    def test_operators_that_have_ticked_apart_have_no_state(self):
        self.write(journal_text(b"T", b"T B"))
        status, output, errors = self.describe("--folder", self.folder)
        self.assertEqual((status, output), (1, ""))
        self.assertIn("gives no state: some operators have ticked and others not. There is one once the others have had as many ticks", errors)

    def test_what_is_no_journal_has_no_state(self):
        for data in (b"", b"=line 5\n", b"=line 5\n\n-", SNAPSHOT):
            self.write(data)
            self.assertEqual(self.describe("--folder", self.folder)[0], 1, data)
        self.assertEqual(self.describe("--folder", "/nowhere")[0], 6)
        self.assertEqual((self.describe("--folder", self.folder, "-")[0], self.describe("--folder", self.folder, "--channel", "east")[0]), (2, 2))

    def test_the_folder_of_a_channel(self):
        with mock.patch.object(describe_state, "SETTINGS", str(self.top / "{}.env")):
            self.assertEqual(describe_state.folder_of("east"), "/var/lib/plant_script/east/folder")
            for text, folder in (("FOLDER=\n", ""), ('RECORDS=/x\nFOLDER="/srv/a b"\n', "/srv/a b"), ("STATE=\n", "/var/lib/plant_script/east/folder")):
                (self.top / "east.env").write_text(text)
                self.assertEqual(describe_state.folder_of("east"), folder)

    def taken(self, states, now):
        """Returns the next snapshot that is computed, if the time stays."""
        wait_until(lambda: states.replay is None or not states.replay.is_running())
        return states.take(now)

    def test_a_state_once_a_period(self):
        states = folder_states.FolderStates(self.folder, self.program, 60, 1_000)
        self.write(journal_text(b"T"))
        self.assertIsNone(states.take(999))
        self.assertIsNone(states.replay)
        self.assertIsNone(states.take(1_000))
        self.assertEqual(read_state(self.taken(states, 1_001)).frame, 18)
        self.assertIsNone(states.replay)
        states.hasten(1_002)
        states.take(1_002)
        self.write(journal_text(b"T B"))
        self.assertEqual(read_state(self.taken(states, 1_062)).frame, 18)
        self.assertIsNone(self.taken(states, 1_063))
        self.assertIsNone(states.take(1_064))

    def test_no_period_and_no_folder(self):
        states = folder_states.FolderStates(self.folder, self.program, 0, 0)
        self.write(journal_text())
        states.hasten(1)
        self.assertIsNone(states.take(2))
        self.assertIsNone(states.replay)
        self.assertIsNone(folder_states.FolderStates("/nowhere", self.program, 1, 0).take(2))

    def test_a_state_that_the_channel_has_saved_in_the_period_is_taken(self):
        """The lines since are not done again. After a start they are."""
        states = folder_states.FolderStates(self.folder, "/nowhere", 60, 1_000)
        self.write(journal_text(b"T"))
        states.note_saved(999)
        self.assertEqual(read_state(states.take(1_000)).frame, 17)
        self.assertIsNone(states.take(1_059))
        states.program = self.program
        states.note_saved(1_119)
        states.hasten(1_119)
        self.assertIsNone(states.take(1_119))
        self.assertEqual(read_state(self.taken(states, 1_120)).frame, 18)


class Asking(unittest.TestCase):
    def setUp(self):
        folder = tempfile.TemporaryDirectory()
        self.addCleanup(folder.cleanup)
        self.pipe, self.answers = pathlib.Path(folder.name, "in"), pathlib.Path(folder.name, "answers")
        os.mkfifo(self.pipe)
        self.file = os.open(self.pipe, os.O_RDWR)
        self.addCleanup(os.close, self.file)
        self.answers.write_bytes(SNAPSHOT.replace(b"frame 17", b"frame 16"))

    def answer(self, data):
        """Answers the next line of the pipe."""
        def append():
            if os.read(self.file, 10) == b"K\n":
                with self.answers.open("ab") as file:
                    file.write(b"MAP 16 01\n" + data[:40])
                    file.flush()
                    time.sleep(0.2)
                    file.write(data[40:])

        thread = threading.Thread(target=append)
        thread.start()
        self.addCleanup(thread.join)

    def test_the_answer_of_a_channel(self):
        self.answer(SNAPSHOT)
        self.assertEqual(describe_state.ask_channel(self.pipe, self.answers, 5), SNAPSHOT)

    def test_a_refusal_is_reported(self):
        self.answer(b"fault: line 7\nMAP 17 01\n")
        with self.assertRaisesRegex(describe_state.NoAnswer, "no snapshot in 1 seconds. The answers have fault: line 7"):
            describe_state.ask_channel(self.pipe, self.answers, 1)

    def test_a_channel_that_does_not_run(self):
        with self.assertRaisesRegex(describe_state.NoAnswer, "cannot be written"):
            describe_state.ask_channel("/nowhere/in", self.answers, 5)
        with mock.patch.object(sys, "argv", ["describe_state", "--channel", "none"]), contextlib.redirect_stderr(io.StringIO()), \
                self.assertRaises(SystemExit) as found:
            describe_state.main()
        self.assertEqual(found.exception.code, 6)


if __name__ == "__main__":
    unittest.main()
