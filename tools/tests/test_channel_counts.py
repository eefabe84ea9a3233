"""Tests what the metrics of a channel read besides its answers: the journal, the sizes of files, the units, and how long a tick takes."""

import os
import pathlib
import tempfile
import unittest
from collections import Counter
from unittest import mock

from service.watching.figures import Figures
from service.watching.followed_file import FollowedFile, last_map
from service.watching.journal_lines import JournalLines, kind_of
from service.watching.surroundings import UnitStates, disk_of, states_of, waiting_bytes
from service.watching.tick_times import BOUNDS, STEP_SECONDS, TickTimes

SAVED = "=line {}\n=melfjits-snapshot 1 5\n=end 2 2\n\n"


class Place(unittest.TestCase):
    def setUp(self):
        folder = tempfile.TemporaryDirectory()
        self.addCleanup(folder.cleanup)
        self.folder = pathlib.Path(folder.name)


class Following(Place):
    def setUp(self):
        super().setUp()
        self.path = self.folder / "answers"
        self.path.write_bytes(b"before\n")
        self.file = FollowedFile(self.path)
        self.addCleanup(self.file.close)

    def append(self, data):
        with open(self.path, "ab") as file:
            file.write(data)

    def test_what_is_added(self):
        self.assertEqual(self.file.read(), b"")
        self.append(b"one\n")
        self.append(b"tw")
        self.assertEqual(self.file.read(), b"one\ntw")
        self.assertEqual(self.file.read(), b"")

    def test_after_it_is_shortened(self):
        os.truncate(self.path, 0)
        self.assertEqual(self.file.read(), b"")
        self.append(b"new\n")
        self.assertEqual(self.file.read(), b"new\n")

    def test_another_file_with_its_name(self):
        self.append(b"last\n")
        self.path.rename(self.folder / "answers.1")
        self.assertEqual(self.file.read(), b"last\n")
        self.assertEqual(self.file.read(), b"")
        with open(self.folder / "answers.1", "ab") as file:
            file.write(b"late\n")
        self.append(b"first\n")
        self.assertEqual([self.file.read() for _ in range(3)], [b"late\n", b"first\n", b""])

    def test_what_comes_while_the_file_is_replaced(self):
        """The old file gets its last bytes after it was read, and before it is seen that another file has its name."""
        self.path.rename(self.folder / "answers.1")
        self.append(b"first\n")
        is_replaced = self.file.is_replaced

        def late():
            with open(self.folder / "answers.1", "ab") as file:
                file.write(b"late\n")
            self.file.is_replaced = is_replaced
            return True

        self.file.is_replaced = late
        self.assertEqual([self.file.read() for _ in range(3)], [b"late\n", b"first\n", b""])

    def test_a_file_that_comes_later_is_read_from_its_beginning(self):
        file = FollowedFile(self.folder / "none")
        self.assertEqual(file.read(), b"")
        (self.folder / "none").write_bytes(b"one\n")
        self.assertEqual(file.read(), b"one\n")
        file.close()

    def test_the_last_map(self):
        self.assertIsNone(last_map(self.folder / "none"))
        for text, frame in ((b"F A 1\n", None), (b"MAP 7 01\n", 7), (b"MAP 8 01\nMAP 9 0", 8), (b"MAP 10 01\n" + b"S line 1\n" * 20_000, 10), (b"MAP 1 01\nMAP 2 FF\n", 2)):
            self.path.write_bytes(text)
            os.utime(self.path, (5, 5))
            self.assertEqual(last_map(self.path), None if frame is None else (frame, 5))


class CountingLines(Place):
    def setUp(self):
        super().setUp()
        self.path, self.journal = self.folder / "journal", JournalLines(self.folder)

    def write(self, lines, saved=0, gate="-"):
        new = self.folder / "journal.new"
        new.write_text(SAVED.format(saved) + "".join(f"+{line}\n" for line in lines) + gate)
        new.replace(self.path)

    def add(self, lines):
        """Writes a batch after the gate, and opens the gate last."""
        with open(self.path, "r+b", buffering=0) as file:
            place = file.seek(-1, 2)
            file.seek(0, 2)
            file.write("\n+".join(lines).encode() + b"\n-")
            self.assertEqual(self.journal.take(), Counter(), "lines after a closed gate")
            file.seek(place)
            file.write(b"+")

    def taken(self):
        return dict(self.journal.take())

    def test_lines_that_are_added_count(self):
        self.assertEqual(self.taken(), {})
        self.write(["T", "T"])
        self.assertEqual((self.taken(), self.journal.since, self.journal.saved), ({}, 2, 0))
        self.add(["T", "M 020000000001 1100", "M 020000000001 0F00", ""])
        self.assertEqual((self.taken(), self.journal.since), ({b"T": 1, b"M 020000000001": 2, b"": 1}, 6))
        self.add(["T A"])
        self.assertEqual((self.taken(), self.journal.size()), ({b"T A": 1}, self.path.stat().st_size))

    def test_a_new_journal_repeats_nothing(self):
        self.write(["T", "Q 1"])
        self.taken()
        self.add(["X"])
        self.write(["T", "Q 1", "X"])
        self.assertEqual(self.taken(), {b"X": 1})
        self.add(["Y"])
        self.write(["Z"], saved=4)
        self.assertEqual((self.taken(), self.journal.since, self.journal.saved), ({b"Y": 1, b"Z": 1}, 1, 4))
        self.write(["V", "W"], saved=9)
        self.assertEqual(self.taken(), {b"V": 1, b"W": 1})

    def test_a_channel_that_began_anew(self):
        self.write(["T"] * 9)
        self.taken()
        self.write(["X"])
        self.assertEqual(self.taken(), {b"X": 1})

    def test_what_does_not_count(self):
        for text in ("", "=line 0\n", "=line x\n\n-", "+T\n"):
            self.path.write_text(text)
            self.assertEqual((self.taken(), self.journal.size()), ({}, None))
        self.write(["T"], gate="-T\n+T\n-")
        self.assertEqual((self.taken(), self.journal.since), ({}, 1))

    def test_operators_and_types(self):
        operator_of = {"02000000000A": "Alfa"}
        for key, kind in ((b"M 02000000000A", ("Alfa", "message")), (b"Q 02000000000a", ("Alfa", "request")), (b"M 020000000001", ("", "message")),
                          (b"T", ("", "tick")), (b"T Alfa", ("Alfa", "tick")), (b"Z 30 8/24/24 4", ("", "slices")), (b"", ("", "other")), (b"TT", ("", "other")),
                          (b"K", ("", "other")), (b"M 02", ("", "other"))):
            self.assertEqual(kind_of(key, operator_of), kind, key)
        figures = Figures(operator_of)
        self.write([])
        figures.take_journal(self.journal, 1)
        self.add(["M 02000000000A 0F", "T"])
        figures.take_journal(self.journal, 2)
        self.assertEqual((dict(figures.lines), figures.journal_lines), ({("Alfa", "message"): 1, ("", "tick"): 1}, 2))


class TicksThatGoBy(Place):
    """Time passes in this test only while the watch sleeps. Then the files grow."""

    def times(self, *events):
        """Returns the times that are counted, by their bound. An event is a time in microseconds, what the journal gets, and what the answers get."""
        for name in ("journal", "answers"):
            (self.folder / name).write_bytes(b"-")
        self.now, self.events = 0.0, list(events)
        ticks = TickTimes(lambda: self.now, self.sleep)
        with open(self.folder / "journal", "rb") as journal, open(self.folder / "answers", "rb") as answers:
            for _ in range(4):
                ticks.watch(journal.fileno(), answers.fileno())
                self.sleep(0.001)
        return {BOUNDS[place]: count for place, count in ticks.times.counts.items()}, ticks.times.seconds

    def sleep(self, seconds):
        self.now += seconds
        while self.events and self.events[0][0] <= 1e6 * self.now:
            _, *texts = self.events.pop(0)
            for name, text in zip(("journal", "answers"), texts):
                with open(self.folder / name, "ab") as file:
                    file.write(text)

    def assert_time(self, seconds, *events):
        counts, total = self.times(*events)
        self.assertEqual(sum(counts.values()), 1)
        self.assertLess(abs(total - seconds), 2.5 * STEP_SECONDS)

    def test_a_tick_and_its_map(self):
        self.assert_time(0.0034, (1_000, b"T\n-", b""), (4_400, b"", b"F A 1\nMAP 1 01\n"))

    def test_the_answer_to_a_batch_before_is_not_its_map(self):
        self.assert_time(0.003, (900, b"", b"MAP 0 01\n"), (2_000, b"T\n-", b""), (5_000, b"", b"MAP 1 01\n"))
        self.assert_time(0.003, (900, b"", b"F A 0\n"), (1_500, b"", b"MAP 0 01\n"), (2_000, b"T\n-", b""), (5_000, b"", b"MAP 1 01\n"))

    def test_both_at_once(self):
        """The answer to the batch before and a batch, or a batch with its answer: what grows next decides it."""
        self.assert_time(0.003, (2_000, b"T\n-", b"MAP 0 01\n"), (5_000, b"", b"MAP 1 01\n"))
        self.assert_time(STEP_SECONDS, (2_000, b"T\n-", b"MAP 0 01\n"), (5_000, b"T\n-", b""), (5_100, b"", b""))

    def test_a_batch_without_a_tick_is_left_out(self):
        self.assertEqual(self.times((1_000, b"M\n-", b""), (2_000, b"", b"R 02 MAP 1\n")), ({}, 0.0))

    def test_a_slow_map_is_waited_for(self):
        counts, total = self.times((1_000, b"T\n-", b""), (200_000, b"", b"MAP 1 01\n"))
        self.assertEqual((sum(counts.values()), round(total, 2)), (1, 0.2))

    def test_a_channel_that_does_nothing(self):
        self.assertEqual(self.times(), ({}, 0.0))
        self.assertLess(self.now, 1)


class Around(Place):
    def test_units(self):
        text = ("NRestarts=3\nId=plant@east.service\nActiveState=failed\nLoadState=loaded\n\nId=plant@east.socket\nActiveState=active\nLoadState=loaded\n\n"
                "Id=none.service\nActiveState=inactive\nLoadState=not-found\nNRestarts=0\n")
        self.assertEqual(states_of(text), {"plant@east.service": ("failed", 3), "plant@east.socket": ("active", None)})
        self.assertEqual(states_of(""), {})

    def taken(self, body, now=20):
        command = self.folder / "systemctl"
        command.write_text(f"#!/bin/sh\n{body}\n")
        command.chmod(0o755)
        units = UnitStates("east", 0, command)
        self.assertIsNone(units.take(0))
        units.process.wait()
        return units.take(now), units

    def test_systemd_is_asked_in_a_process(self):
        body = 'for name; do case $name in *@east.*) printf "Id=%s\\nActiveState=active\\nLoadState=loaded\\n\\n" "$name" ;; esac; done'
        states, units = self.taken(body, 1)
        self.assertEqual(set(states), {f"plant@east.{kind}" for kind in ("service", "socket")} | {f"plant-{name}@east.service" for name in ("ticker", "renumber")})
        self.assertIsNone(units.take(14))
        self.assertIsNone(units.process)
        self.assertIsNone(units.take(15))
        self.assertIsNotNone(units.process)
        units.process.wait()

    def test_without_systemd_no_state_is_known(self):
        self.assertEqual(self.taken("printf 'Id=a\\nActiveState=active\\nLoadState=loaded\\n'; exit 1", 1)[0], {})
        missing = UnitStates("east", 0, "/nowhere/systemctl")
        self.assertEqual((missing.take(0), missing.take(20)), (None, None))

    def test_a_systemd_that_hangs_is_not_waited_for(self):
        command = self.folder / "systemctl"
        command.write_text("#!/bin/sh\nexec sleep 600\n")
        command.chmod(0o755)
        units = UnitStates("east", 0, command)
        self.assertEqual([units.take(now) for now in (0, 5)], [None, None])
        units.take(11)
        units.process.wait(10)
        self.assertEqual(units.take(12), {})

    def test_bytes_that_wait(self):
        pipe = self.folder / "in"
        self.assertIsNone(waiting_bytes(pipe))
        os.mkfifo(pipe)
        self.assertIsNone(waiting_bytes(pipe))
        file = os.open(pipe, os.O_RDWR)
        self.assertEqual(waiting_bytes(pipe), 0)
        os.write(file, b"T\n" * 50)
        self.assertEqual(waiting_bytes(pipe), 100)
        os.close(file)

    def test_disks(self):
        free, size = disk_of(self.folder / "none")
        self.assertTrue(0 < free < size)
        self.assertEqual(disk_of(self.folder)[1], size)
        self.assertIsNone(disk_of("/nowhere/none"))


class Frames(unittest.TestCase):
    """The answers are counted in pieces of any size, and a frame's number or an operator's name makes no difference."""

    def figures(self, text, size=10**9):
        from service.watching.outputs import Outputs
        figures, outputs = Figures({}), Outputs()
        for place in range(0, len(text), size):
            for piece in outputs.pieces(text[place:place + size]):
                figures.take(piece, 100.0)
        figures.settle()
        return figures

    def test_names_and_numbers_are_not_confused(self):
        """An operator may have a name that is a number, also that of the frame, and operators may tick apart."""
        text = b"".join(b"F %s %d 5/5/0/3 0/6/3/7 5/P\nF A %d 0/6/10/8\nMAP %d 01\n" % (name, frame, frame + 1, frame)
                        for name, frame in ((b"8", 8), (b"8", 9), (b"9", 8), (b"1_", 8)))
        for size in (10**9, 50, 7):
            sums = self.figures(text, size).frames.sums
            self.assertEqual(sums, {"8": [6, 0, 14, 2], "9": [3, 0, 7, 1], "1_": [3, 0, 7, 1], "A": [0, 0, 32, 0]}, size)

    def test_cut_lines_and_maps(self):
        figures = self.figures(b"F A\nMAP 7 01\nF A 8 1/5\nF A 8 1/5/0/3 \nF A 8\nMAP 8\nMAP x 01\nMAP\nF A 9 1/5/0/3\nMAP 9 01\n")
        self.assertEqual((figures.outputs["map"], figures.outputs["frame"], figures.frames.sums, figures.frame), (2, 2, {"A": [3, 0, 0, 0]}, 9))

    def test_much_text_is_counted_at_once(self):
        figures = Figures({})
        with mock.patch("service.watching.figures.MOST_TEXT", 100):
            for frame in range(20):
                figures.take(b"F A %d 0/6/0/9\nMAP %d 01\n" % (frame, frame), 1.0)
        self.assertGreater(figures.outputs["map"], 15)
        figures.settle()
        self.assertEqual((figures.outputs["map"], figures.outputs["frame"], figures.frame), (20, 20, 19))

    def test_many_different_lines(self):
        text = b"".join(b"F A %d 1/5/%d/3 0/6/0/%d\nMAP %d 01\n" % (frame, frame, frame % 7, frame) for frame in range(70_000))
        self.assertEqual(self.figures(text, 100_000).frames.sums, {"A": [210_000, 0, 210_000, 0]})

    def test_intervals_of_maps_that_are_read_together(self):
        """Four MAPs within 0.1 seconds have 0.025 each. The first one after a reading without any comes 0.3 seconds and 0.05 after the last one."""
        figures = Figures({})
        figures.last_read = 9.9
        for text, now in ((b"MAP 1 01\n", 10.0), (b"MAP 1 01\n" * 4, 10.1), (b"S line 1\n", 10.4), (b"MAP 1 01\n" * 2, 10.5)):
            figures.take(text, now)
        counts = {BOUNDS[place]: count for place, count in figures.intervals.counts.items()}
        self.assertEqual(counts, {0.05: 5, 0.5: 1})
        self.assertAlmostEqual(figures.intervals.seconds, 0.5)


if __name__ == "__main__":
    unittest.main()
