"""Tests of tools/measure/unit: what it takes from the unit's files, how it pairs answers with lines, and a short run with the second implementation."""

import contextlib
import fcntl
import itertools
import json
import os
import pathlib
import subprocess
import sys
import tempfile
import time
import unittest
from unittest import mock

from tools import ROOT
from tools.measure.latency import plant_text
from tools.measure.unit import FRAMES_OF_A_LINE, Client, Growth, client_lines, faults, flood_lines, of_samples
from tools.measure.unit_channels import CannotStart, CommandChannel, UnitChannel, size

FRAME = 0.002
PROGRAM = f'#!/bin/sh\nexec {sys.executable} {ROOT}/service/reference "$@"\n'
SYSTEMCTL = '#!/bin/sh\necho "$*" >>"$PLACE/asked"\ncase $1 in start) exit "$STATUS" ;; show) echo "$PROCESS" ;; esac\n'


class Folder(unittest.TestCase):
    def setUp(self):
        folder = tempfile.TemporaryDirectory()
        self.addCleanup(folder.cleanup)
        self.folder = pathlib.Path(folder.name)

    def script(self, name, text):
        path = self.folder / name
        path.write_text(text)
        path.chmod(0o755)
        return path


class Clients(Folder):
    def client(self, flood=0):
        (self.folder / "answers").write_text("MAP 0 00\n")
        os.mkfifo(self.folder / "in")
        self.pipe = os.open(self.folder / "in", os.O_RDWR | os.O_NONBLOCK)
        client = Client(self.folder / "in", self.folder / "answers", flood, FRAME)
        for file in (self.pipe, client.pipe, client.answers):
            self.addCleanup(os.close, file)
        return client

    def written(self):
        with contextlib.suppress(BlockingIOError):
            return os.read(self.pipe, 1 << 20)
        return b""

    def test_a_tick_comes_each_frame_and_a_line_in_the_middle_of_some(self):
        client = self.client()
        for half in range(4 * FRAMES_OF_A_LINE):
            self.assertTrue(client.write(half))
        lines = [line for line, _ in itertools.islice(client_lines(), 2)]
        frames = b"T\n" * (FRAMES_OF_A_LINE - 1)
        self.assertEqual(self.written(), b"T\n" + lines[0] + frames + b"T\n" + lines[1] + frames)

    def test_a_neighbour_writes_right_before_them(self):
        client, flood = self.client(flood=2_500), flood_lines()
        client.write(0)
        client.write(1)
        lines = list(itertools.islice(flood, 5))
        self.assertEqual(self.written(), b"".join(lines[:2]) + b"T\n" + b"".join(lines[2:]) + next(client_lines())[0])
        for half in range(2, 1_000):
            client.write(half)
            if half % 100 == 0:
                lines += self.written().splitlines()
        lines += self.written().splitlines()
        self.assertEqual(sum(line[2:6] == b"0202" for line in lines), 2_500)

    def test_answers_are_paired_with_lines(self):
        client = self.client()
        client.ticks.extend((1_000, 3_000))
        (line, key), _ = itertools.islice(client_lines(), 2)
        self.assertEqual(line[2:14], key[0])
        client.requests[key] = 2_000
        reply = b"R %s 10%s00180E\n" % key
        client.take(b"F A 1 0/6/8/32\nMAP 1 0101\nR 020200000001 10" + key[1] + b"03\n" + reply[:20], 5_000)
        self.assertEqual([list(took) for took in client.took], [[4_000], []])
        client.take(reply[20:] + b"MAP 2 01", 9_000)
        self.assertEqual([list(took) for took in client.took], [[4_000], [7_000]])
        self.assertTrue(client.is_waiting())
        # (a retransmission has no line)
        client.take(b"01\n" + reply, 10_000)
        self.assertEqual([list(took) for took in client.took], [[4_000, 7_000], [7_000]])
        self.assertEqual((client.wrong, client.is_waiting()), (0, False))

    def test_another_code_is_wrong(self):
        client = self.client()
        key = next(client_lines())[1]
        client.requests[key] = 0
        client.take(b"R %s 10%s03\n" % key, 1)
        self.assertEqual(client.wrong, 1)

    def test_a_line_without_room_is_written_later_and_its_time_has_begun(self):
        client = self.client(flood=4_000)
        fcntl.fcntl(self.pipe, fcntl.F_SETPIPE_SZ, 4_096)
        os.write(self.pipe, b"X" * 4_096)
        self.assertFalse(client.write(0))
        self.assertEqual((client.dropped, len(client.ticks)), (4, 0))
        before = time.perf_counter_ns()
        self.written()
        self.assertTrue(client.write(0))
        self.assertEqual(self.written(), b"T\n")
        self.assertLess(client.ticks[0], before)

    def test_a_file_that_grows_is_read(self):
        client = self.client()
        growth = Growth([self.folder / "answers"])
        self.assertEqual(growth.wait(0), set())
        client.ticks.append(time.perf_counter_ns())
        with (self.folder / "answers").open("a") as file:
            file.write("MAP 1 00\n")
        self.assertEqual(growth.wait(1), {0})
        client.read()
        self.assertEqual((len(client.took[0]), client.is_waiting()), (1, False))

    def test_parts_of_samples(self):
        self.assertEqual(of_samples(range(1_000, 201_000, 1_000)), {"samples": 200, "median": 100.0, "p99": 198.0, "worst": 200.0})
        self.assertEqual(of_samples([]), {"samples": 0, "median": None, "p99": None, "worst": None})

    def test_faults_name_their_row(self):
        row = {"channels": 1, "operators": 2, "neighbour": "quiet", "missing": 0, "wrong": 3, "dropped": 0}
        self.assertEqual(faults(row), ["1 channels, 2 operators, quiet: 3 requests have another code than 0"])


class Channels(Folder):
    def test_a_process_is_started_as_by_the_unit(self):
        program = self.script("program", '#!/bin/sh\ncase $1 in check) cat >/dev/null; env >"$FOLDER.env"; ulimit -d >"$FOLDER.limit"; umask >"$FOLDER.mask"; exit 3 ;; esac\n')
        place = self.folder / "0"
        place.mkdir()
        channel = CommandChannel(place, "a = 1\n", program)
        self.assertEqual(channel.process.wait(10), 3)
        self.assertEqual(channel.words(), [f"{ROOT}/service/systemd/serve_channel", f"{place}/plant.toml"])
        found = dict(line.split("=", 1) for line in (place / "folder.env").read_text().splitlines())
        self.assertEqual({name: found[name] for name in ("ANSWERS", "FOLDER", "STATE", "RUNTIME_DIRECTORY")},
                         {"ANSWERS": f"{place}/answers", "FOLDER": f"{place}/folder", "STATE": f"{place}/state", "RUNTIME_DIRECTORY": f"{place}/notes"})
        self.assertEqual(((place / "folder.limit").read_text(), (place / "folder.mask").read_text()), (f"{512 << 10}\n", "0027\n"))
        self.assertEqual(fcntl.fcntl(channel.end_of_pipe, fcntl.F_GETPIPE_SZ), 1 << 20)
        with self.assertRaisesRegex(CannotStart, "ended with status 3"):
            channel.main_process()
        channel.end()
        self.assertFalse(place.exists())

    def test_a_channel_of_systemd_is_started_and_removed(self):
        self.script("systemctl", SYSTEMCTL)
        for part in ("etc/plant_script", "var/lib/plant_script"):
            (self.folder / part).mkdir(parents=True)
        words = {"PATH": f"{self.folder}:{os.environ['PATH']}", "PLACE": str(self.folder), "STATUS": "0", "PROCESS": "17"}
        with mock.patch.dict(os.environ, words):
            channel = UnitChannel("measure0", "a = 1\n", self.folder)
            self.assertEqual(channel.plant.read_text(), "a = 1\n")
            self.assertEqual(channel.main_process(), 17)
            with self.assertRaisesRegex(CannotStart, "there is a channel measure0"):
                UnitChannel("measure0", "", self.folder)
            channel.end()
            self.assertFalse(channel.plant.exists())
            os.environ.update(STATUS="1", PROCESS="0")
            with self.assertRaisesRegex(CannotStart, "systemctl start plant@measure1"):
                UnitChannel("measure1", "", self.folder)
            with self.assertRaisesRegex(CannotStart, "does not run"):
                channel.main_process()
        asked = (self.folder / "asked").read_text().splitlines()
        self.assertEqual(asked[:3], ["start plant@measure0", "show -P MainPID plant@measure0", "stop plant@measure0.socket plant@measure0"])
        self.assertEqual(list((self.folder / "etc/plant_script").iterdir()), [])

    def test_sizes(self):
        self.assertEqual([size(text) for text in ("7", "2K", "512M", "1G")], [7, 2_048, 536_870_912, 1_073_741_824])


class Runs(Folder):
    def test_a_short_run(self):
        program = self.script("program", PROGRAM)
        words = [ROOT / "tools/measure/unit", "--command", program, "--channels", "2", "--operators", "2", "--seconds", "0.1", "--folder", self.folder]
        done = subprocess.run([*words, "--json"], capture_output=True, text=True, check=False, timeout=600)
        self.assertEqual((done.returncode, done.stderr), (0, ""))
        found = json.loads(done.stdout)
        self.assertEqual([(row["channels"], row["operators"], row["neighbour"]) for row in found["rows"]], [(2, 2, "quiet"), (2, 2, "flooding")])
        self.assertEqual([(row["ticks"]["samples"], row["missing"], row["wrong"]) for row in found["rows"]], [(100, 0, 0)] * 2)
        self.assertTrue(all(0 < row["requests"]["median"] <= row["requests"]["worst"] for row in found["rows"]))
        self.assertTrue(found["kernel"] and found["machine"] and found["sync"] > 0)
        self.assertEqual(list(self.folder.iterdir()), [program])

    def test_each_line_of_the_client_is_accepted(self):
        """Each request of some turns has code 0, and no line is invalid."""
        lines = list(itertools.islice(client_lines(), 64))
        flood = b"".join(itertools.islice(flood_lines(), 40))
        text = plant_text(2).encode() + b"---\n" + flood + b"".join(line + b"T\n" for line, _ in lines)
        output = subprocess.run([sys.executable, ROOT / "service/reference", "serve"], input=text, capture_output=True, check=True).stdout
        replies = [line.split() for line in output.splitlines() if line.startswith(b"R 0201")]
        self.assertEqual([(reply[1], reply[2][2:6], reply[2][6:8]) for reply in replies], [(*key, b"00") for _, key in lines if key])
        self.assertNotIn(b"fault", output)


if __name__ == "__main__":
    unittest.main()
