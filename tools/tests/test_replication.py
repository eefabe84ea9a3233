"""Tests the replication of channels without an engine: numbers of lines, answers, state files, the program's markers, and replicas.

The last class runs replicas over streams in memory that lose messages and deliver them late, while the lease moves and replicas are killed.
test_replication_trials.py runs the trials with the engine.
"""

import pathlib
import random
import sys
import tempfile
import types
import unittest
import zlib

from service.reference.answers import reference_answer
from service.replication import engine
from service.replication.answers import Batch, Claim, Malformed, Reader, parse_message
from service.replication.numbering import Position, lines_of
from service.replication.plant_process import MOST_BYTES, PlantFailed, PlantProcess, beginning, chunks_of, text_of, units_of
from service.replication.replica import Deposed, Differs, Replica
from service.replication.replicate import messages_of, whole_part
from service.replication.state_file import Damaged, State, parse_state, read_state, write_state
from tools import EXAMPLES, ROOT
from tools.replication.trial_load import random_line

P2 = (EXAMPLES / "plant_p2.toml").read_bytes()
MODEMS = (b"020000000001", b"020000000002", b"020000000003")
REFERENCE = ("env", f"PYTHONPATH={ROOT}", sys.executable, "-P", "-m", "tools.replication.reference_program")


class Numbers(unittest.TestCase):
    def test_lines_of_a_message(self):
        for body, lines in ((b"", []), (b"\n", [b""]), (b"T", [b"T"]), (b"T\n", [b"T"]), (b"T\n\nK\n", [b"T", b"", b"K"]), (b"a\r\nb", [b"a\r", b"b"])):
            self.assertEqual(lines_of(body), lines)

    def test_a_line_counts_from_the_beginning_of_the_stream(self):
        place = Position()
        self.assertEqual((place.offset, place.lines), (-1, 0))
        for offset, body, lines in ((0, b"T\nT\n", 2), (1, b"", 2), (4, b"\n\n\n", 5), (5, b"T", 6)):
            place = place.after(offset, lines_of(body))
            self.assertEqual((place.offset, place.lines), (offset, lines))

    def test_a_plant_file_is_in_one_message(self):
        for data, size in ((b"T\nP\na\n", 2), (b"T\nP\na\n---\nT\nx", 12), (b"P\n", 0), (b"xP\nT\nx", 5), (b"P\nP\n---\nP\nT\n", 8), (b"x", 0)):
            self.assertEqual(whole_part(data), size, data)

    def test_messages_have_whole_lines(self):
        with tempfile.TemporaryFile() as file:
            file.write(b"T A\r\n" * 40_000 + b"last")
            file.seek(0)
            found = list(messages_of(file))
        self.assertEqual(b"".join(found), b"T A\r\n" * 40_000 + b"last\n")
        self.assertTrue(all(it.endswith(b"\n") for it in found))


class Answers(unittest.TestCase):
    def test_written_form(self):
        batch = Batch(7, 9, ((7, b"F A 0 0/6/8/32"), (9, b"fault: line 9"), (9, b"")))
        self.assertEqual(batch.body(12), b"answers 12 7 9\n7 F A 0 0/6/8/32\n9 fault: line 9\n9 \n")
        self.assertEqual(parse_message(batch.body(12)), (12, batch))
        self.assertEqual(parse_message(Batch(3, 4, ()).body(0)), (0, Batch(3, 4, ())))
        self.assertEqual(Claim("east-0.a1").body(), b"claim east-0.a1\n")
        self.assertEqual(parse_message(b"claim east-0.a1\n"), Claim("east-0.a1"))

    def test_malformed(self):
        for body in (b"", b"claim \n", b"claim a b\n", b"claim a", b"answers 1 2\n", b"answers 1 2 3", b"answers 1 2 3\nx R\n", b"answers 1 2 3\n4 R\n",
                     b"answers 1 2 3\n1 R\n", b"answers 1 2 3\n2 R", b"answers -1 2 3\n", b"answers 1 2 3 4\n"):
            with self.assertRaises(Malformed, msg=body):
                parse_message(body)


def batch(first, last, text=b"x"):
    return Batch(first, last, tuple((number, text) for number in range(first, last + 1)))


class Readers(unittest.TestCase):
    def test_a_line_is_accepted_once(self):
        reader = Reader()
        reader.take(0, b"claim a\n")
        self.assertEqual(reader.take(1, batch(1, 3).body(0)), batch(1, 3))
        self.assertIsNone(reader.take(2, batch(1, 3).body(0)))
        self.assertEqual(reader.take(3, batch(2, 5).body(0)), batch(4, 5))
        self.assertEqual((reader.answered, reader.repeated), (5, 1))

    def test_a_message_is_taken_once(self):
        reader = Reader()
        self.assertEqual(reader.take(0, b"claim a\n"), Claim("a"))
        self.assertIsNone(reader.take(0, b"claim b\n"))
        self.assertEqual((reader.epoch, reader.claims), (0, 1))

    def test_a_deposed_replica_is_dropped(self):
        reader = Reader()
        for offset, body, accepted in ((0, b"claim a\n", Claim("a")), (1, batch(1, 1).body(0), batch(1, 1)), (2, b"claim b\n", Claim("b")),
                                       (3, batch(2, 2, b"of a").body(0), None), (4, batch(2, 2, b"of b").body(2), batch(2, 2, b"of b")),
                                       (5, batch(3, 3, b"of a").body(0), None)):
            self.assertEqual(reader.take(offset, body), accepted)
        self.assertEqual((reader.deposed, reader.epoch), (2, 2))

    def test_answers_after_a_lost_message_are_dropped(self):
        reader = Reader()
        reader.take(0, b"claim a\n")
        self.assertIsNone(reader.take(1, batch(2, 2).body(0)))
        self.assertEqual((reader.early, reader.answered), (1, 0))
        self.assertEqual(reader.take(2, batch(1, 1).body(0)), batch(1, 1))

    def test_a_reader_that_begins_later(self):
        reader = Reader(answered=None)
        self.assertEqual(reader.take(70, batch(51, 52).body(40)), batch(51, 52))
        self.assertEqual(reader.take(71, batch(53, 53).body(60)), batch(53, 53))
        self.assertIsNone(reader.take(72, batch(54, 54).body(40)))
        # The claim of a later epoch was before its beginning, and so were some of the answers.
        self.assertEqual(reader.take(73, batch(90, 90).body(65)), batch(90, 90))


class StateFiles(unittest.TestCase):
    STATE = State(Position(40, 1_000), (77, 30, 1_010), b"melfjits-snapshot 1 0\n---\nframe 0 0\nend 2 7\n")
    TEXT = b"melfjits-replica 1\nlines 40 1000\nanswers 77 30 1010\nmelfjits-snapshot 1 0\n---\nframe 0 0\nend 2 7\n"

    def setUp(self):
        folder = tempfile.TemporaryDirectory()
        self.addCleanup(folder.cleanup)
        self.path = pathlib.Path(folder.name, "east.state")

    def test_a_snapshot_is_next_to_its_offsets(self):
        self.assertIsNone(read_state(self.path))
        write_state(self.path, self.STATE)
        self.assertEqual(self.path.read_bytes(), self.TEXT)
        self.assertEqual(read_state(self.path), self.STATE)

    def test_a_state_replaces_the_one_before(self):
        write_state(self.path, State(Position(), (-1, -1, 0), self.STATE.snapshot))
        self.assertEqual(read_state(self.path).reader, (-1, -1, 0))
        self.path.with_name("east.state.new").write_bytes(b"of a write that was ended")
        write_state(self.path, self.STATE)
        self.assertEqual((read_state(self.path), [it.name for it in self.path.parent.iterdir()]), (self.STATE, ["east.state"]))

    def test_damaged(self):
        for old, new in ((b"replica 1", b"replica 2"), (b"lines 40", b"lines x"), (b"lines 40 1000", b"lines 40"), (b" 30 ", b" "), (b"1010\n", b"1010"),
                         (b"melfjits-snapshot", b"snapshot"), (self.TEXT, b"")):
            with self.assertRaises(Damaged, msg=new):
                parse_state(self.TEXT.replace(old, new))


class Processes(unittest.TestCase):
    def start(self, text=P2, program=REFERENCE):
        process = PlantProcess(program, text)
        self.addCleanup(process.end)
        return process

    def test_what_a_process_begins_with(self):
        for text, begins in ((b"a\n", b"a\n---\n"), (b"a", b"a\n---\n"), (b"a\n---\nT\n", b"a\n---\n"), (b"", b"---\n"), (b"---\nT\n", b"---\n"),
                             (b"melfjits-snapshot 1 2\na\n---\nend\n", b"melfjits-snapshot 1 2\na\n---\nend\n---\n")):
            self.assertEqual(beginning(text), begins)

    def test_chunks_fit_into_a_pipe(self):
        lines = [b"x" * length for length in (0, 10_000, 20_000, 30_000, 100_000, 1)] + [b"T"] * 20_000
        chunks = list(chunks_of(units_of(lines)))
        self.assertEqual([line for chunk in chunks for unit in chunk for line in unit], lines)
        for chunk in chunks:
            self.assertTrue(len(chunk) == 1 or sum(map(len, map(text_of, chunk))) <= MOST_BYTES)

    def test_a_plant_file_is_one_unit(self):
        for lines, units in ((b"T P --- T", (b"T", b"P ---", b"T")), (b"P a P K --- ---", (b"P a P K ---", b"---")), (b"T P a T", (b"T", b"-  ")),
                             (b"P", (b"-",)), (b"--- P", (b"---", b"-")), (b"PP --- P\r", (b"PP", b"---", b"P\r"))):
            self.assertEqual(list(units_of(lines.split(b" "))), [unit.split(b" ") for unit in units], lines)

    def test_a_plant_file_has_one_answer(self):
        change = """import sys
for number, line in enumerate(lines := iter(sys.stdin), -1):
    if line == "P\\n" and number > 0:
        taken = ["P"]
        while taken[-1] != "---\\n": taken.append(next(lines))
        print("P frame", len(taken), flush=True)
        break
    elif number > 0: print("fault: line", number, flush=True)
for number, line in enumerate(lines, number + len(taken)): print("fault: line", number, flush=True)
"""
        process = self.start(b"plant", (sys.executable, "-c", change))
        self.assertEqual(process.answers([b"x", b"P", b"T", b"", b"---", b"x"], 11), [[b"fault: line 11"], [b"P frame 4"], [], [], [], [b"fault: line 16"]])

    def test_outputs_belong_to_their_lines(self):
        rng = random.Random(1)
        lines = [rng.choice((b"T", b"K", b"fault: line 2", random_line(rng, MODEMS))) for _ in range(400)]
        found = self.start().answers(lines, 1)
        self.assertEqual(len(found), len(lines))
        expected = reference_answer(["resume"], P2 + b"---\n" + b"".join(b"%s\n" % line for line in lines))[1]
        self.assertEqual(b"".join(b"%s\n" % text for texts in found for text in texts), expected)
        for number, (line, texts) in enumerate(zip(lines, found), 1):
            if line == b"T":
                self.assertEqual(texts[-1][:3], b"MAP", number)
            if line in (b"fault: line 2", b"x", b"-"):
                self.assertEqual(texts, [b"fault: line %d" % number])
            if line == b"":
                self.assertEqual(texts, [])

    def test_numbers_go_on_after_a_snapshot(self):
        lines = [b"M 020000000001 0F0001180A010200010601060F0102", b"x", b"T", b"M 020000000001 11000100", b"T", b"-", b"T B"]
        whole = self.start().answers(lines, 1)
        process = self.start()
        self.assertEqual(process.answers(lines[:3], 1), whole[:3])
        snapshot = process.snapshot()
        self.assertEqual(process.answers(lines[3:], 4), whole[3:])
        self.assertEqual(self.start(snapshot).answers(lines[3:], 4), whole[3:])
        self.assertEqual(whole[5], [b"fault: line 6"])

    def test_a_plant_that_does_not_rest_has_no_snapshot(self):
        process = self.start()
        process.answers([b"T A"], 1)
        self.assertIsNone(process.snapshot())
        self.assertEqual(process.answers([b"T B"], 2)[0][-1][:4], b"MAP ")
        self.assertTrue(process.snapshot().startswith(b"melfjits-snapshot 1 "))

    def test_a_plant_file_that_looks_like_output(self):
        text = P2 + b'text = """\nfault: line 2\nfault: line 3\nfault: line 4\nend 1 1\n"""\n'
        process = self.start(text)
        self.assertIn(b"fault: line 2\nfault: line 3\n", process.snapshot())
        self.assertEqual(process.answers([b"x"], 1), [[b"fault: line 1"]])

    def test_a_program_that_fails_ends_the_replica(self):
        for text in ("echo 'fault: plant 1'; exit 3", "read line; exit 0", "echo 'fault: memory'; echo 'fault: line 2'; cat > /dev/null", "exit 5", "echo R"):
            with self.assertRaises(PlantFailed, msg=text):
                PlantProcess(("sh", "-c", text, "sh"), P2).answers([b"T"], 1)


class FakePlant:
    """Answers a line by a number that depends on all lines before it, by nothing, or by two lines."""

    def __init__(self, text=None):
        self.sum = int(text) if text else 1

    def answers(self, lines, _first):
        found = []
        for line in lines:
            self.sum = zlib.crc32(line, self.sum)
            found.append([b"%d" % self.sum] * (self.sum % 3))
        return found

    def snapshot(self):
        return b"%d" % self.sum if self.sum % 2 else None


class Replicas(unittest.TestCase):
    def replica(self, published, plant=None):
        return Replica("a", plant or FakePlant(), published.append)

    def active(self, published):
        replica = self.replica(published)
        replica.become_active()
        replica.take_answers(0, published.pop())
        return replica

    def test_a_standby_publishes_nothing(self):
        published = []
        self.replica(published).take_lines(0, b"T\nT\n")
        self.assertEqual(published, [])

    def test_a_message_of_lines_is_taken_once(self):
        replica = self.replica([])
        for _ in range(2):
            replica.take_lines(0, b"T\nT\n")
        self.assertEqual(replica.position, Position(0, 2))

    def test_a_replica_publishes_once_it_has_read_its_claim(self):
        published = []
        replica = self.replica(published)
        replica.take_lines(0, b"T\n")
        replica.become_active()
        replica.take_lines(1, b"T\nT\n")
        self.assertEqual([it.split(b" ")[0] for it in published], [b"claim"])
        replica.take_answers(5, published[0])
        self.assertEqual([it.split(b"\n")[0] for it in published[1:]], [b"answers 5 1 1", b"answers 5 2 3"])

    def test_what_was_answered_before_the_claim_is_not_published(self):
        first, second = [], []
        self.active(first).take_lines(0, b"T\n")
        replica = self.replica(second)
        replica.take_lines(0, b"T\n")
        replica.become_active()
        replica.take_answers(0, b"claim other\n")
        replica.take_answers(1, first[0])
        replica.take_answers(2, second.pop())
        replica.take_lines(1, b"T\n")
        self.assertEqual([it.split(b"\n")[0] for it in second], [b"answers 2 2 2"])

    def test_a_later_claim_deposes(self):
        with self.assertRaises(Deposed):
            self.active([]).take_answers(1, b"claim other\n")

    def test_a_lost_message_is_published_again(self):
        published = []
        replica = self.active(published)
        replica.take_lines(0, b"T\n")
        replica.take_lines(1, b"T\n")
        replica.take_answers(1, published[1])
        self.assertEqual(published[2].split(b" ")[0], b"claim")
        replica.take_answers(2, published[2])
        self.assertEqual([it.split(b"\n")[0] for it in published[3:]], [b"answers 2 1 1", b"answers 2 2 2"])

    def test_other_answers_end_a_replica(self):
        for is_computed_first in (False, True):
            replica = self.replica([])
            replica.take_answers(0, b"claim other\n")
            steps = [lambda: replica.take_lines(0, b"T\n"), lambda: replica.take_answers(1, b"answers 0 1 1\n1 wrong\n")]
            with self.assertRaises(Differs):
                for step in steps if is_computed_first else reversed(steps):
                    step()

    def test_a_state_is_kept_once_all_before_it_is_answered(self):
        published = []
        replica = self.active(published)
        replica.take_lines(0, b"T\n")
        while not replica.take_snapshot():
            replica.take_lines(replica.position.offset + 1, b"T\n")
        self.assertIsNone(replica.state_to_keep())
        for offset, body in enumerate(list(published), 1):
            replica.take_answers(offset, body)
        state = replica.state_to_keep()
        self.assertEqual((state.position.lines, state.reader), (replica.position.lines, (len(published), 0, replica.position.lines)))
        self.assertIsNone(replica.state_to_keep())


class Plot:
    """Runs two replicas over streams in memory. The lease moves, replicas are killed, and messages are lost, late or both."""

    def __init__(self, seed):
        self.rng = random.Random(seed)
        self.lines, self.answers, self.late = [], [], []
        self.replicas, self.kept, self.holder = [None, None], [None, None], 0
        self.deposed = 0
        for place in (0, 1):
            self.begin(place)

    def begin(self, place):
        """Starts a replica from what it has kept."""
        state = self.kept[place]
        plant = FakePlant(state.snapshot if state else None)
        self.replicas[place] = Replica(f"r{place}", plant, lambda body: self.publish(body), state)

    def publish(self, body):
        """Stores a message, loses it, or keeps it for later."""
        chance = self.rng.random()
        if chance < 0.9:
            self.answers.append(body)
        elif chance < 0.97:
            self.late.append(body)

    def lease(self, place):
        self.holder = place
        self.replicas[place].become_active()

    def step(self):
        place = self.rng.randrange(2)
        replica = self.replicas[place]
        do = self.rng.choices((self.write, self.read_lines, self.read_answers, self.keep, self.move, self.kill, self.stale), (20, 30, 30, 6, 2, 2, 4))[0]
        try:
            do(place, replica)
        except Deposed:
            self.deposed += 1
            replica.lose_lease()

    def write(self, *_):
        self.lines.append(b"".join(b"%d\n" % self.rng.randrange(9) for _ in range(self.rng.randrange(4))))

    def read_lines(self, _, replica):
        begin = replica.position.offset + 1
        for offset in range(begin, min(len(self.lines), begin + self.rng.randrange(8))):
            replica.take_lines(offset, self.lines[offset])

    def read_answers(self, _, replica):
        begin = replica.reader.offset + 1
        for offset in range(begin, min(len(self.answers), begin + self.rng.randrange(8))):
            replica.take_answers(offset, self.answers[offset])

    def keep(self, place, replica):
        replica.take_snapshot()
        self.kept[place] = replica.state_to_keep() or self.kept[place]

    def move(self, *_):
        # (the replica that had the lease does not know)
        self.lease(1 - self.holder)

    def kill(self, place, _):
        self.begin(place)
        if place == self.holder:
            self.lease(self.rng.randrange(2))

    def stale(self, *_):
        """Stores a late message, and lets the holder publish again."""
        if self.late:
            self.answers.append(self.late.pop(self.rng.randrange(len(self.late))))
        elif self.replicas[self.holder].awaits_answer():
            self.lease(self.holder)

    def end(self):
        """Lets the last replica answer all, and returns what a reader accepts."""
        self.rng = random.Random(0)
        self.rng.random = lambda: 0.0
        replica = self.replicas[0]
        for offset in range(replica.position.offset + 1, len(self.lines)):
            replica.take_lines(offset, self.lines[offset])
        self.lease(0)
        while replica.reader.offset + 1 < len(self.answers):
            try:
                replica.take_answers(replica.reader.offset + 1, self.answers[replica.reader.offset + 1])
            except Deposed:
                self.lease(0)
        reader = Reader()
        messages = [reader.take(offset, body) for offset, body in enumerate(self.answers)]
        return reader, [it for it in messages if isinstance(it, Batch)]


class Plots(unittest.TestCase):
    def expected(self, plot):
        plant, numbered, count = FakePlant(), [], 0
        for body in plot.lines:
            for texts in plant.answers(lines_of(body), None):
                count += 1
                numbered += [(count, text) for text in texts]
        return count, numbered

    def test_a_reader_gets_each_answer_once(self):
        deposed = dropped = 0
        for seed in range(150):
            plot = Plot(seed)
            for _ in range(600):
                plot.step()
            reader, found = plot.end()
            count, numbered = self.expected(plot)
            self.assertEqual([output for it in found for output in it.outputs], numbered, seed)
            self.assertEqual((reader.answered, [it.last + 1 for it in found][:-1]), (count, [it.first for it in found][1:]), seed)
            deposed, dropped = deposed + plot.deposed, dropped + reader.deposed + reader.repeated + reader.early
        self.assertGreater(min(deposed, dropped), 100)


class StillLoop:
    """An event loop in which nothing happens but a timer."""

    def __init__(self):
        self.timers = []

    def call_later(self, seconds, callback):
        self.timers.append((seconds, callback))
        return callback

    def start(self):
        if self.timers:
            self.timers.pop()[1]()

    def stop(self):
        pass

    def remove_timeout(self, _timer):
        pass


class PublisherTimeout(unittest.TestCase):
    def test_a_lost_confirmation_ends_the_wait(self):
        """The engine takes a message and confirms nothing: publishing fails after a time, and the next node is tried first."""
        nodes = engine.Nodes(["one", "two"])
        publisher = engine.Publisher(nodes, "east.lines")
        loop, sent, closed = StillLoop(), [], []
        publisher.connection = types.SimpleNamespace(ioloop=loop, close=lambda: closed.append(True))
        publisher.channel = types.SimpleNamespace(basic_publish=lambda *words, **_more: sent.append(words))
        with self.assertRaises(TimeoutError):
            publisher.publish(b"T\n")
        self.assertEqual(sent, [("east.lines", "", b"T\n")])
        self.assertEqual((closed, publisher.channel, nodes.urls), ([True], None, ["two", "one"]))


if __name__ == "__main__":
    unittest.main()
