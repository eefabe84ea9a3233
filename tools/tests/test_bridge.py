"""Tests plant_bridge (service/bridging) with real sockets, and the clients of examples/clients.

The first tests play the channel: they read its pipe, and write answers that are typed from docs/FORMATS.md. The others run
service/systemd/serve_channel with the second implementation, and with the proved program if it is built. None needs systemd.
"""

import contextlib
import grp
import io
import json
import os
import pathlib
import re
import shutil
import signal
import socket
import stat
import subprocess
import sys
import tempfile
import time
import unittest
from datetime import date
from random import Random

from service.bridging import connections, rounds
from service.bridging.bridge import Bridge as BridgeOfModule
from service.bridging.lines import judge_line
from service.bridging.outputs import read_output
from service.bridging.rights import rights_of
from service.reference.plant import read_plant
from service.reference.program import Core
from service.reference.services import answer_of_line
from tools import EXAMPLES, ROOT
from tools.compare.program import PROGRAM
from tools.tests.killing import kill_group

SECONDS, SECONDS_TO_START = 30, 60
# A test that waits fails after this time, once the bridge has an edit. One with a channel has the whole time.
SECONDS_OF_EDIT = 5
# Without ALL_EDITS=1 in the environment, one eighth of the edits is tried, another one each day.
EDITS_OF_A_DAY = 8
# Nothing comes within this time if nothing is to come.
SECONDS_OF_SILENCE = 0.3
TOP = {"service": ROOT}
# (a python3 of the path that is a script would start slowly)
PATH = f"{pathlib.Path(sys.executable).parent}:{os.environ['PATH']}"
PLANT = (EXAMPLES / "plant_p2.toml").read_text()
ONE, TWO, THREE = "020000000001", "020000000002", "020000000003"
ADD, ACK = "0F0001180A010200010601060F0102", "11000100"
ADDED = "10000100180E0102000102040000010103020101"
MAP = "MAP 0 01010500000000000000000000000000FFFC4000040580080001800D000180280001C048"
C_CLIENT = EXAMPLES / "clients/plant_client.c"
PYTHON_CLIENT = EXAMPLES / "clients/plant_client.py"


def wait_until(holds, seconds=None):
    end = time.monotonic() + (seconds or SECONDS)
    while not holds():
        if time.monotonic() > end:
            raise AssertionError("too late")
        time.sleep(0.01)


class Client:
    """A connection to a socket of the bridge."""

    def __init__(self, path):
        self.socket, self.data = socket.socket(socket.AF_UNIX, socket.SOCK_STREAM), b""
        self.socket.settimeout(SECONDS)
        self.socket.connect(str(path))

    def write(self, *lines):
        self.socket.sendall(b"".join(line if isinstance(line, bytes) else line.encode() + b"\n" for line in lines))

    def more(self):
        """Reads more, and returns whether there was anything."""
        data = self.socket.recv(65_536)
        self.data += data
        return data != b""

    def read(self, count=1):
        """Returns the next lines."""
        while self.data.count(b"\n") < count:
            if not self.more():
                raise AssertionError(f"closed after {self.data!r}")
        *lines, self.data = self.data.split(b"\n", count)
        return [line.decode() for line in lines]

    def is_silent(self):
        """Returns whether nothing more comes for a while."""
        self.socket.settimeout(SECONDS_OF_SILENCE)
        with contextlib.suppress(TimeoutError):
            self.more()
        self.socket.settimeout(SECONDS)
        return self.data == b""

    def is_closed(self):
        with contextlib.suppress(ConnectionError):
            while self.more():
                self.data = b""
        return True

    def close(self):
        self.socket.close()


class Bridge(unittest.TestCase):
    """A bridge in a folder of its own."""

    def setUp(self):
        folder = tempfile.TemporaryDirectory()
        self.addCleanup(folder.cleanup)
        self.folder = pathlib.Path(folder.name)
        self.answers, self.bridge = self.folder / "answers", None
        (self.folder / "plant.toml").write_text(PLANT)
        (self.folder / "operators").mkdir()
        os.mkfifo(self.folder / "in")
        # (systemd keeps the pipe open)
        self.pipe = os.open(self.folder / "in", os.O_RDWR | os.O_NONBLOCK)
        self.addCleanup(lambda: os.close(self.pipe))
        self.answers.touch()

    def start(self, *words, **how):
        """Starts a process that ends with the test."""
        process = subprocess.Popen(words, stdin=how.pop("stdin", subprocess.DEVNULL), stderr=(self.folder / "errors").open("ab"), start_new_session=True, **how)
        self.addCleanup(self.end, process)
        return process

    def end(self, process):
        with contextlib.suppress(ProcessLookupError):
            os.killpg(process.pid, signal.SIGKILL)
        process.wait()

    def start_bridge(self, words=None, **environment):
        words = ["plant.toml", "in", "control.sock", "operators"] if words is None else words
        environment = {"PATH": PATH, "ANSWERS": str(self.answers), **environment}
        self.bridge = self.start(TOP["service"] / "service/plant_bridge", *words, cwd=self.folder, env=environment)
        return self.bridge

    def wait_for_sockets(self):
        """Waits until the bridge listens, and follows the answers."""
        wait_until(lambda: all(self.listens(path) for path in ("control.sock", "operators/A.sock", "operators/B.sock")), SECONDS_TO_START)
        if self.answers.stat().st_size == 0:
            owner = self.client(None)
            self.answer("S line 1 frame 0")
            self.assertEqual(owner.read(), ["- S line 1 frame 0"])
            owner.close()

    def listens(self, name):
        with contextlib.suppress(OSError):
            self.client(name).close()
            return True
        return False

    def client(self, name):
        """Connects to a socket: of the owner, of an operator, or with this path."""
        path = "control.sock" if name is None else name if "/" in name or "." in name else f"operators/{name}.sock"
        client = Client(self.folder / path)
        self.addCleanup(client.close)
        self.greeting, = client.read()
        return client

    def answer(self, *lines):
        with self.answers.open("a") as file:
            file.write("".join(line + "\n" for line in lines))

    def passed(self, count):
        """Returns the next lines of the pipe, and no others."""
        data = b""

        def is_whole():
            nonlocal data
            with contextlib.suppress(BlockingIOError):
                data += os.read(self.pipe, 65_536)
            return data.count(b"\n") >= count

        wait_until(is_whole)
        return data.decode().splitlines()

    def is_pipe_silent(self):
        time.sleep(SECONDS_OF_SILENCE)
        with contextlib.suppress(BlockingIOError):
            return os.read(self.pipe, 65_536) == b""
        return True

    def memory(self):
        """Returns the most memory that the bridge had, in bytes."""
        text = pathlib.Path(f"/proc/{self.bridge.pid}/status").read_text()
        return 1_024 * int(re.search(r"VmHWM:\s*(\d+) kB", text)[1])

    def counts(self, operator):
        owner = self.client(None)
        owner.write("counts")
        line, = owner.read()
        owner.close()
        return json.loads(line.removeprefix("1 counts "))[operator]


class Lines(Bridge):
    """What clients may write."""

    def setUp(self):
        super().setUp()
        self.start_bridge()
        self.wait_for_sockets()

    def test_lines_of_its_modems_are_passed_on(self):
        lines = [f"M {ONE} {ADD}", f"M {TWO} -", f"Q {ONE} 257 5", f"M {ONE} 11000100", "M 020000000001 0f00071f", "Q 020000000002 65535 00000"]
        client = self.client("A")
        client.write(*lines)
        self.assertEqual(self.passed(6), lines)
        self.assertTrue(client.is_silent())

    def test_what_an_operator_may_not_send_is_refused_and_counted(self):
        client = self.client("A")
        wrong = {f"M {THREE} {ADD}": "modem", f"Q {THREE} 513 5": "modem", "M 0A0B0C0D0E0F 0F": "modem", "T": "kind", "T A": "kind", "K": "kind", "P": "kind",
                 "Z 5 8/16/16 24/48/32": "kind", "N 7": "kind", "X": "form", f"M {ONE}": "form", f"M {ONE} 0F0": "form", f"Q {ONE} 257 65536": "form",
                 f"Q {ONE} 257": "form", f"M  {ONE} {ADD}": "form", f"M {ONE} {ADD}\r": "form", "subscribe": "form", "subscribe all": "form", "counts": "form"}
        client.write(*wrong)
        for number, (line, found, reason) in enumerate(zip(wrong, client.read(len(wrong)), wrong.values()), 1):
            self.assertTrue(found.startswith(f"{number} refused: {reason}: "), (line, found))
        self.assertTrue(self.is_pipe_silent())
        client.write(f"Q {ONE} 257 5")
        self.assertEqual(self.passed(1), [f"Q {ONE} 257 5"])
        self.assertEqual(self.counts("A"), {"connections": 1, "passed": 1, "refused_modem": 3, "refused_kind": 6, "refused_form": 10})
        self.assertEqual(self.counts("B"), {"connections": 0, "passed": 0})

    def test_the_owner_sends_all_lines_that_services_take(self):
        lines = ["T", "T A", "Z 5 8/16/16 24/48/32", "K", "N 4294967295", f"M {ONE} {ADD}", f"Q {THREE} 513 5"]
        owner = self.client(None)
        owner.write(*lines)
        self.assertEqual(self.passed(len(lines)), lines)
        wrong = {"P": "kind", "---": "form", "T C": "form", "Z 5 8/16/16": "form", "Z 5 8/16/16 24/48/65536": "form", "Z 4294967296 8/16/16 24/48/32": "form",
                 "N 07": "form", "N 4294967296": "form", "K ": "form", "M 0A0B0C0D0E0F 0F": "modem", "subscribe maps": "form"}
        owner.write(*wrong)
        for number, (found, reason) in enumerate(zip(owner.read(len(wrong)), wrong.values()), len(lines) + 1):
            self.assertTrue(found.startswith(f"{number} refused: {reason}: "), found)
        self.assertTrue(self.is_pipe_silent())

    def test_lines_of_any_bytes_are_refused_alone(self):
        client = self.client("A")
        client.write(b"\x00\xff\xfe\x1b[2J\n", f"M {ONE} ".encode() + b"\xff\xff\n", bytes(range(11, 256)) + b"\n", f"Q {ONE} 257 5")
        found = client.read(3)
        self.assertEqual(found[0], r"1 refused: form: \x00\xff\xfe\x1b[2J: not a line M or Q")
        self.assertTrue(all(line.isascii() and line.isprintable() for line in found))
        self.assertEqual(self.passed(1), [f"Q {ONE} 257 5"])

    def test_half_a_line_spoils_nothing_else(self):
        """A client of A stops in the middle of a line, one dies there, and one sends a line in pieces. Others go on."""
        stopped, dying, slow, other = self.client("A"), self.client("A"), self.client("A"), self.client("B")
        stopped.write(f"Q {TWO} 9 9".encode())
        dying.write(f"Q {ONE} 1 1\nM {ONE} 0F00".encode())
        slow.write(b"Q 0200000")
        dying.close()
        other.write(f"Q {THREE} 2 2")
        self.assertEqual(sorted(self.passed(2)), [f"Q {ONE} 1 1", f"Q {THREE} 2 2"])
        slow.write(b"00001 3 3\nQ")
        self.assertEqual(self.passed(1), [f"Q {ONE} 3 3"])
        slow.write(f" {TWO} 4 4")
        self.assertEqual(self.passed(1), [f"Q {TWO} 4 4"])
        wait_until(lambda: self.counts("A").get("refused_unfinished") == 1)

    def test_a_line_that_is_too_long_is_refused(self):
        """A line has at most 4,096 bytes with its LF. (The digits of a message are even, so one byte is a digit more of the request.)"""
        client = self.client("A")
        longest = f"M {ONE} " + "0F" * 2_040
        self.assertEqual(len(longest) + 1, 4_096)
        client.write("", longest, longest + "0", b"M" * 300_000, b"\n", f"Q {ONE} 257 5")
        reason = "refused: length: a line has at most 4096 bytes with its LF"
        self.assertEqual(client.read(2), [f"3 {reason}", f"4 {reason}"])
        self.assertEqual(self.passed(2), [longest, f"Q {ONE} 257 5"])
        before = self.memory()
        client.write(b"M" * 8_000_000, b"\n")
        self.assertEqual(client.read(), [f"6 {reason}"])
        self.assertLess(self.memory() - before, 4_000_000)

    def test_a_client_that_comes_again_counts_its_lines_anew(self):
        for _ in range(12):
            client = self.client("A")
            client.write("", f"M {ONE} {ADD}")
            self.assertEqual(self.passed(1), [f"M {ONE} {ADD}"])
            self.answer(f"R {ONE} {ADDED}")
            self.assertEqual(client.read(), [f"2 R {ONE} {ADDED}"])
            client.close()
        wait_until(lambda: self.counts("A")["connections"] == 0)

    def test_there_are_only_so_many_connections(self):
        clients = [self.client("A") for _ in range(8)]
        self.assertEqual(self.greeting, "- connected operator A")
        clients.append(self.client("A"))
        self.assertEqual(self.greeting, "- refused: connections: there are 8")
        self.assertTrue(clients[-1].is_closed())
        other = self.client("B")
        clients[0].close()
        wait_until(lambda: self.counts("A")["connections"] == 7)
        again = self.client("A")
        again.write("subscribe maps")
        other.write("subscribe maps")
        self.assertEqual((again.read(), other.read()), (["1 subscribed maps"], ["1 subscribed maps"]))
        self.assertEqual(self.counts("A")["refused_connections"], 1)

    def test_a_client_that_only_reads_from_now_on_gets_its_answers(self):
        client = self.client("A")
        client.write(f"M {ONE} {ADD}")
        client.socket.shutdown(socket.SHUT_WR)
        self.assertEqual(self.passed(1), [f"M {ONE} {ADD}"])
        self.answer(f"R {ONE} {ADDED}")
        self.assertEqual(client.read(), [f"1 R {ONE} {ADDED}"])
        client.close()
        wait_until(lambda: self.counts("A")["connections"] == 0)


class Answers(Bridge):
    """Who gets an answer, and with which number."""

    def setUp(self):
        super().setUp()
        self.start_bridge()
        self.wait_for_sockets()

    def test_answers_go_to_the_connections_of_their_operator(self):
        writer, second, of_b, owner, all_of_owner = self.client("A"), self.client("A"), self.client("B"), self.client(None), self.client(None)
        second.write("subscribe maps")
        all_of_owner.write("subscribe all")
        self.assertEqual(second.read() + all_of_owner.read(), ["1 subscribed maps", "1 subscribed all"])
        writer.write(f"M {ONE} {ADD}")
        self.passed(1)
        lines = [f"R {ONE} {ADDED}", f"S {TWO} NoSuchSid", "F A 0 257/6/8/5 0/6/13/27", "F B 0 0/6/40/32", MAP, f"S {THREE} UnknownAck"]
        self.answer(*lines)
        self.assertEqual(writer.read(3), [f"1 {lines[0]}", f"- {lines[1]}", f"- {lines[2]}"])
        self.assertEqual(second.read(4), [f"- {line}" for line in (*lines[:3], MAP)])
        self.assertEqual(of_b.read(2), [f"- {lines[3]}", f"- {lines[5]}"])
        self.assertEqual(owner.read(), [f"- {MAP}"])
        self.assertEqual(all_of_owner.read(6), [f"- {line}" for line in lines])
        self.assertTrue(all(client.is_silent() for client in (writer, second, of_b, owner, all_of_owner)))

    def test_an_answer_has_the_number_of_its_line(self):
        """Accepted acknowledgements and requests have no answer. The order of the lines says which line a drop reason belongs to."""
        client, owner = self.client("A"), self.client(None)
        client.write(f"M {ONE} {ACK}", f"Q {ONE} 257 5", f"M {ONE} {ADD}", f"M {TWO} {ACK}", f"M {ONE} 0F", f"M {TWO} {ADD}", f"Q {TWO} 9 9")
        self.passed(7)
        owner.write("T", "Z 9 8/9/9 40/9/40", "T A", "N 7", "K")
        self.passed(5)
        self.answer(f"S {ONE} NoSuchSid", f"R {ONE} {ADDED}", f"S {TWO} UnknownAck", f"S {ONE} Short", f"R {TWO} {ADDED}", f"S {TWO} NotRequesting",
                    f"R {ONE} {ADDED}", "F A 0", "F B 0", MAP, "fault: line 9", "F A 1", "fault: line 11", "melfjits-snapshot 1 2", "x", "---", "end 3 5")
        found = client.read(9)
        self.assertEqual([line.split()[0] for line in found], ["2", "3", "4", "5", "6", "7", "-", "-", "-"])
        self.assertEqual(owner.read(7), [f"1 {MAP}", "2 fault: line 9", "4 fault: line 11", "5 melfjits-snapshot 1 2", "5 x", "5 ---", "5 end 3 5"])
        self.assertTrue(owner.is_silent())

    def test_a_retransmission_within_a_tick_answers_no_later_line(self):
        owner, client = self.client(None), self.client("A")
        owner.write("T")
        self.passed(1)
        client.write(f"M {ONE} {ADD}")
        self.passed(1)
        self.answer(f"R {ONE} {ADDED}", "F A 0", "F B 0", MAP, f"R {ONE} {ADDED}")
        self.assertEqual(client.read(3), [f"- R {ONE} {ADDED}", "- F A 0", f"1 R {ONE} {ADDED}"])
        self.assertEqual(owner.read(), [f"1 {MAP}"])

    def test_an_answer_that_may_be_of_two_lines_has_no_number(self):
        client, other = self.client("A"), self.client("A")
        client.write(f"Q {ONE} 257 5", f"Q {ONE} 258 5", f"Q {TWO} 259 5", f"M {ONE} {ADD}", f"Q {ONE} 260 5")
        self.passed(5)
        self.answer(f"S {ONE} NoSuchSid", f"S {TWO} NoSuchSid", f"R {ONE} {ADDED}", f"S {ONE} NotRequesting")
        self.assertEqual([line.split()[0] for line in client.read(4)], ["-", "3", "4", "5"])
        self.assertEqual([line.split()[0] for line in other.read(4)], ["-"] * 4)

    def test_lines_of_others_take_no_number(self):
        """Somebody else writes into the pipe: a tick, and a request."""
        client, owner = self.client("A"), self.client(None)
        client.write(f"M {ONE} {ADD}")
        self.passed(1)
        self.answer(f"R {TWO} {ADDED}", f"R {ONE} 10000203", "F A 0", "F B 0", MAP, f"R {ONE} {ADDED}", "fault: line 7")
        self.assertEqual(client.read(4), [f"- R {TWO} {ADDED}", f"- R {ONE} 10000203", "- F A 0", f"1 R {ONE} {ADDED}"])
        self.assertEqual(owner.read(2), [f"- {MAP}", "- fault: line 7"])

    def test_a_start_is_told_to_all_and_leaves_no_wrong_number(self):
        """Of two ticks one was lost. Ticks get numbers again once a later reply shows that none is awaited."""
        client, owner = self.client("A"), self.client(None)
        owner.write("T", "T")
        self.passed(2)
        self.answer("S line 40 frame 7")
        self.assertEqual((client.read(), owner.read()), (["- started frame 7"], ["- S line 40 frame 7"]))
        owner.write("T")
        self.passed(1)
        self.answer(*(line for frame in (7, 8) for line in (f"F A {frame}", f"F B {frame}", f"MAP {frame} 00")))
        self.assertEqual(owner.read(2), ["- MAP 7 00", "- MAP 8 00"])
        client.write(f"M {ONE} {ADD}")
        self.passed(1)
        self.answer(f"R {ONE} {ADDED}")
        self.assertEqual(client.read(3), ["- F A 7", "- F A 8", f"1 R {ONE} {ADDED}"])
        owner.write("T")
        self.passed(1)
        self.answer("F A 9", "F B 9", "MAP 9 00")
        self.assertEqual(owner.read(), ["4 MAP 9 00"])

    def test_objects_of_json(self):
        client, owner, plain = self.client("A"), self.client(None), self.client("A")
        client.write("subscribe json", f"M {ONE} {ADD}", "X")
        owner.write("subscribe json", "T")
        self.passed(2)
        self.answer(f"R {ONE} {ADDED}", f"S {ONE} NoSuchSid", "F A 0 257/6/8/5", "F B 0", MAP, "fault: memory")
        self.assertEqual([json.loads(line) for line in client.read(5)], [
            {"line": 1, "text": "subscribed json", "type": "subscribed"},
            {"line": 3, "reason": "form", "text": "refused: form: X: not a line M or Q", "type": "refused"},
            {"line": 2, "text": f"R {ONE} {ADDED}", "type": "reply", "modem": ONE, "bytes": ADDED, "message": "DSA-RSP", "transaction": 1, "code": 0},
            {"text": f"S {ONE} NoSuchSid", "type": "drop", "modem": ONE, "cause": "NoSuchSid"},
            {"text": "F A 0 257/6/8/5", "type": "frame", "operator": "A", "frame": 0, "elements": ["257/6/8/5"]}])
        self.assertEqual([json.loads(line) for line in owner.read(3)[1:]], [
            {"line": 2, "text": MAP, "type": "map", "frame": 0, "bytes": MAP.split()[2]}, {"text": "fault: memory", "type": "fault", "fault": "memory"}])
        self.assertEqual(plain.read(3), [f"- R {ONE} {ADDED}", f"- S {ONE} NoSuchSid", "- F A 0 257/6/8/5"])

    def test_objects_of_the_channel_are_passed_on(self):
        """The channel writes objects itself, with its own line numbers. The text of an object is for clients that want lines."""
        client, plain = self.client("A"), self.client("A")
        client.write("subscribe json", f"M {ONE} {ADD}")
        self.passed(1)
        told = {"bytes": ADDED, "check": 22, "check_name": "accepted", "code": 0, "line": 4711, "message": "DSA-RSP", "modem": ONE, "text": f"R {ONE} {ADDED}", "transaction": 1, "type": "reply"}
        self.answer(json.dumps(told), json.dumps({**told, "line": 4712}), "{", '{"text":5}')
        self.assertEqual([json.loads(line) for line in client.read(3)[1:]], [{**told, "line": 2}, {name: value for name, value in told.items() if name != "line"}])
        self.assertEqual(plain.read(2), [f"1 R {ONE} {ADDED}".replace("1 ", "- ", 1), f"- R {ONE} {ADDED}"])


class Recorder:
    """A connection that records what it is sent."""

    def __init__(self, operator, *wanted):
        self.operator, self.wanted, self.unanswered, self.number, self.sent = operator, set(wanted), 0, 0, []

    def send(self, output, number=None):
        self.sent.append((output.text, number))


class Numbers(unittest.TestCase):
    """Random lines of three clients and the owner, answered by the second implementation, which says which line each answer is for."""
    MESSAGES = [f"0F000{tid}180A010200010601060F0102" for tid in (1, 2, 3)] + [f"11000{tid}00" for tid in (1, 2, 3)] + ["15000400000000010100", "150005000000000101", "0F", "-", "09"]
    OWNERS = ["T", "T", "T", "T A", "T B", "Z 900 8/32/32 40/32/32", "Z 900 8/40/32 40/32/32", "Z 901 8/16/16 40/32/32"]

    def random_line(self, random, client):
        if client.operator is None and random.random() < 0.8:
            return random.choice(self.OWNERS)
        modem = THREE if client.operator == "B" else random.choice([ONE, TWO])
        if random.random() < 0.5:
            return f"Q {modem} {random.choice([257, 258, 513, 9])} {random.randrange(9)}"
        return f"M {modem} {random.choice(self.MESSAGES)}"

    def answers_of(self, core, number, line):
        """Returns the answers to a line, each with whether it is one to the line itself and no retransmission."""
        texts = answer_of_line(core, number, line.encode()).splitlines()
        return [(text, not (line.startswith("T") and text.startswith("R "))) for text in texts]

    def counts_of_numbers(self, seed, restarts=0.0):
        """Lets a bridge pass random lines on, and read their answers later. Returns how many answers have a number, and how many could.

        At a restart, the first of the answers that it has not read are lost, and the others follow the line S. After it, a retransmission may
        have the number of the same request, since the tick that it belongs to may be lost."""
        random, plant = Random(seed), PLANT.replace("ucd_count = 1\n", "ucd_count = 1\nack_wait = 2\nresends = 1\nhold = 3\n")
        core, found, numbered = Core(read_plant(plant)), 0, 0
        bridge = BridgeOfModule(type("Plant", (), {"rights": rights_of(plant.encode())}), "", "", {})
        clients = [Recorder("A"), Recorder("A"), Recorder("B"), Recorder(None, "all")]
        bridge.connections = {None: clients[3:], "A": clients[:2], "B": clients[2:3]}
        waiting, requests = [], {}
        for number in range(1, 120):
            client = random.choice(clients)
            line = self.random_line(random, client)
            client.number += 1
            if restarts and line.startswith("M") and line[15:17] == "0F":
                requests.setdefault((line[2:14], line[17:21]), set()).add((client, client.number))
            bridge.pending.add(client, client.number, judge_line(line.encode(), bridge.rights, client.operator))
            if random.random() < restarts:
                del waiting[:random.randrange(len(waiting) + 1)]
                bridge.route(read_output(b"S line 9 frame 9"))
                self.forget_sent(clients)
            waiting += [(text, is_own, client, client.number) for text, is_own in self.answers_of(core, number, line)]
            for text, is_own, sender, its_number in [waiting.pop(0) for _ in range(random.randrange(len(waiting) + 1))]:
                bridge.route(read_output(text.encode()))
                sent = [(one, found_number) for one in clients for sent_text, found_number in one.sent if found_number]
                self.assertLessEqual(set(sent), {(sender, its_number)} if is_own else requests.get((text[2:14], text[17:21]), set()), (seed, number, line, text))
                found, numbered = found + is_own, numbered + bool(sent)
                self.forget_sent(clients)
        return numbered, found

    def forget_sent(self, clients):
        for one in clients:
            one.sent.clear()

    def test_no_number_is_wrong(self):
        counts = [self.counts_of_numbers(seed) for seed in range(200)]
        numbered, found = map(sum, zip(*counts))
        self.assertGreater(numbered / found, 0.9)

    def test_no_number_is_wrong_after_a_restart(self):
        counts = [self.counts_of_numbers(seed, 0.05) for seed in range(200)]
        numbered, found = map(sum, zip(*counts))
        self.assertGreater(numbered / found, 0.7)


class Pressure(Bridge):
    """Clients that write too much, or read too little."""

    def setUp(self):
        super().setUp()
        self.start_bridge()
        self.wait_for_sockets()

    def test_a_client_that_does_not_read_is_disconnected_alone(self):
        deaf, other, second = self.client("B"), self.client("A"), self.client("B")
        deaf.socket.setsockopt(socket.SOL_SOCKET, socket.SO_RCVBUF, 4_096)
        size, count = 10_000, 0
        while not self.counts("B").get("closed_slow"):
            self.assertLess(count * size, 4 * connections.MOST_UNREAD)
            self.answer(*[f"F B {count} " + "0/6/40/32 " * (size // 10 - 1) + "0/6/40/32"] * 5, f"F A {count}")
            self.assertEqual(other.read(), [f"- F A {count}"])
            self.assertEqual(len(second.read(5)), 5)
            count += 5
        self.assertGreater(count * size, connections.MOST_UNREAD)
        self.assertEqual(self.counts("B")["connections"], 1)
        self.assertTrue(deaf.is_closed())

    def test_refusals_that_nobody_reads_end_their_connection(self):
        flood, other = self.client("B"), self.client("A")
        flood.socket.setsockopt(socket.SOL_SOCKET, socket.SO_RCVBUF, 4_096)
        with self.assertRaises(ConnectionError):
            for _ in range(200):
                flood.write(b"X\n" * 1_000)
        wait_until(lambda: self.counts("B").get("closed_slow") == 1)
        other.write("X")
        self.assertEqual(other.read(), ["1 refused: form: X: not a line M or Q"])

    def test_a_flood_is_held_back_and_operators_take_turns(self):
        """Nobody reads the pipe. A client of B can write only so much, and one of A gets its turns among the lines of B that wait."""
        flood, other, owner = self.client("B"), self.client("A"), self.client(None)
        flood.socket.settimeout(SECONDS_OF_SILENCE)
        line, sent, before = f"Q {THREE} 1 1\n".encode(), 0, -1
        while sent != before:
            before = sent
            with contextlib.suppress(TimeoutError):
                while sent < 2_000_000:
                    sent += flood.socket.send(line * 1_000)
            time.sleep(SECONDS_OF_SILENCE)
        self.assertLess(sent, 1_000_000)
        other.write(*[f"Q {ONE} 2 2"] * 3)
        owner.write("T")
        time.sleep(SECONDS_OF_SILENCE)
        first = self.passed(1)
        self.assertEqual({found for found in first}, {f"Q {THREE} 1 1"})
        self.assertLess(sum(len(found) + 1 for found in first), rounds.MOST_IN_PIPE + 4_096)
        found = []
        while "T" not in found or found.count(f"Q {ONE} 2 2") < 3:
            found += self.passed(1)
        # (a batch of B may have been taken before)
        last = len(found) - found[::-1].index(f"Q {ONE} 2 2")
        between = found[found.index(f"Q {ONE} 2 2"):last]
        self.assertEqual(between.count(f"Q {THREE} 1 1"), 2)
        self.assertLess(found.index("T"), 4_096 // len(line) + 4)

    def test_lines_without_an_answer_are_limited(self):
        """A connection has at most 4,096 lines that await an answer. Others are not held back by it."""
        client, other = self.client("A"), self.client("A")
        for _ in range(10):
            client.write(*[f"M {ONE} 0F"] * 410)
        found = self.passed(connections.MOST_UNANSWERED)
        self.assertEqual(len(found), connections.MOST_UNANSWERED)
        other.write(f"M {TWO} 0F")
        self.assertEqual(self.passed(1), [f"M {TWO} 0F"])
        self.answer(*[f"S {ONE} Short"] * 2)
        self.assertEqual(self.passed(2), [f"M {ONE} 0F"] * 2)
        self.assertTrue(self.is_pipe_silent())


class Sockets(Bridge):
    """Files, rights and the start of the bridge."""

    def test_a_socket_has_the_group_of_its_operator_and_no_rights_for_others(self):
        group = grp.getgrgid(os.getgroups()[-1] if os.getuid() else grp.getgrnam("games").gr_gid)
        self.start_bridge(GROUP_A=group.gr_name)
        self.wait_for_sockets()
        for path, number in (("control.sock", os.getgid()), ("operators/A.sock", group.gr_gid), ("operators/B.sock", os.getgid())):
            found = (self.folder / path).stat()
            self.assertEqual((stat.S_IMODE(found.st_mode), found.st_gid), (0o660, number), path)

    @unittest.skipIf(os.getuid(), "only root tries what other users may do")
    def test_a_stranger_is_refused_by_its_rights(self):
        group = grp.getgrnam("games").gr_gid
        self.start_bridge(GROUP_A="games")
        self.wait_for_sockets()
        self.folder.chmod(0o755)
        script = "import socket, sys; socket.socket(socket.AF_UNIX).connect(sys.argv[1])"
        for path, groups, is_allowed in (("operators/A.sock", [], False), ("operators/A.sock", [group], True), ("operators/B.sock", [group], False), ("control.sock", [group], False)):
            done = subprocess.run([sys.executable if sys.executable.startswith("/usr") else "/usr/bin/python3", "-c", script, path], cwd=self.folder, user=65_534, group=65_534,
                                  extra_groups=groups, capture_output=True, text=True, check=False)
            self.assertEqual((done.returncode == 0, "PermissionError" in done.stderr), (is_allowed, not is_allowed), (path, groups, done.stderr))

    def test_a_group_that_is_missing_opens_no_socket(self):
        self.start_bridge(GROUP_A="no_group_has_this_name")
        wait_until(lambda: self.listens("operators/B.sock"), SECONDS_TO_START)
        self.assertFalse((self.folder / "operators/A.sock").exists())
        self.assertIn("GROUP_A: there is no group no_group_has_this_name", (self.folder / "errors").read_text())

    def test_systemd_passes_the_socket_of_the_owner(self):
        made = socket.socket(socket.AF_UNIX)
        self.addCleanup(made.close)
        made.bind(str(self.folder / "passed.sock"))
        made.listen()

        def pass_on():
            os.dup2(made.fileno(), 3)
            os.environ["LISTEN_PID"] = str(os.getpid())

        words = ["sh", "-c", 'LISTEN_PID=$$ exec "$@"', "sh", TOP["service"] / "service/plant_bridge", "plant.toml", "in", "passed.sock", "operators"]
        self.start(*words, cwd=self.folder, env={"PATH": PATH, "ANSWERS": str(self.answers), "LISTEN_FDS": "1"}, preexec_fn=pass_on, pass_fds=[3])
        owner = self.client("passed.sock")
        owner.write("T")
        self.assertEqual(self.passed(1), ["T"])

    def test_readiness_is_reported_once_there_are_sockets(self):
        listener = socket.socket(socket.AF_UNIX, socket.SOCK_DGRAM)
        self.addCleanup(listener.close)
        listener.bind(str(self.folder / "notify"))
        listener.settimeout(SECONDS_TO_START)
        self.start_bridge(NOTIFY_SOCKET=str(self.folder / "notify"))
        self.assertEqual(listener.recv(4_096), b"READY=1\nSTATUS=sockets for the owner and for A, B")
        self.assertTrue(self.listens("operators/B.sock"))

    def test_statuses(self):
        (self.folder / "bad.toml").write_text("[plant]\n")
        place = ["in", "control.sock", "operators"]
        for words, environment, status, reason in ((["plant.toml"], {}, 2, "usage: "), (["plant.toml", *place], {"ANSWERS": ""}, 2, "(ANSWERS)"), (["bad.toml", *place], {}, 3, "the plant file has fault 2 plant.frame_minislots"),
                                                   (["none.toml", *place], {}, 3, "cannot read none.toml"), (["plant.toml", "in", "control.sock", "none"], {}, 6, "cannot lock the folder none"),
                                                   (["plant.toml", "in", "none/control.sock", "operators"], {}, 6, "cannot make the socket none/control.sock")):
            self.assertEqual(self.start_bridge(words, **environment).wait(SECONDS_TO_START), status, words)
            self.assertIn(reason, (self.folder / "errors").read_text())

    def test_sigterm_ends_it_and_a_second_one_of_the_same_folder_does_not_start(self):
        first = self.start_bridge()
        self.wait_for_sockets()
        self.assertEqual(self.start_bridge().wait(SECONDS_TO_START), 6)
        self.assertTrue(self.listens("operators/A.sock"))
        first.terminate()
        self.assertEqual(first.wait(SECONDS), 0)
        self.assertIn('"passed": 0', (self.folder / "errors").read_text())
        self.start_bridge()
        wait_until(lambda: self.listens("operators/A.sock"), SECONDS_TO_START)

    def test_lines_wait_for_a_pipe_and_go_into_no_file(self):
        self.start_bridge()
        self.wait_for_sockets()
        client = self.client("A")
        (self.folder / "in").unlink()
        (self.folder / "in").touch()
        client.write(f"Q {ONE} 257 5")
        time.sleep(3 * rounds.SECONDS_MISSING)
        self.assertEqual((self.folder / "in").read_bytes(), b"")
        (self.folder / "in").unlink()
        os.mkfifo(self.folder / "in")
        os.close(self.pipe)
        self.pipe = os.open(self.folder / "in", os.O_RDWR | os.O_NONBLOCK)
        self.assertEqual(self.passed(1), [f"Q {ONE} 257 5"])

    def write_journal(self, text):
        (self.folder / "folder").mkdir(exist_ok=True)
        lines = "".join(f"={line}\n" for line in text.splitlines())
        (self.folder / "folder/new").write_text(f"=line 5\n=melfjits-snapshot 1 {len(text)}\n{lines}=---\n=frame 0 0\n=end 9 9\n\n+T\n-")
        (self.folder / "folder/new").rename(self.folder / "folder/journal")

    def test_rights_follow_the_plant_file_that_is_in_force(self):
        """PLANT has another text, of a reload that was refused. The journal has the one in force: then modem 2 is that of C, and B is gone."""
        self.write_journal(PLANT)
        (self.folder / "plant.toml").write_text(PLANT.replace(THREE, "0A0B0C0D0E0F"))
        self.start_bridge(FOLDER=str(self.folder / "folder"))
        self.wait_for_sockets()
        of_a, of_b = self.client("A"), self.client("B")
        of_a.write(f"Q {TWO} 1 1")
        of_b.write(f"Q {THREE} 2 2")
        self.assertEqual(len(self.passed(2)), 2)
        self.write_journal(PLANT.replace(f', "{TWO}"', "").replace('name = "B"', 'name = "C"').replace(THREE, TWO))
        self.answer("S line 7 frame 5")
        self.assertEqual(of_a.read(), ["- started frame 5"])
        wait_until(lambda: self.listens("operators/C.sock"))
        self.assertTrue(of_b.is_closed())
        self.assertFalse((self.folder / "operators/B.sock").exists())
        of_a.write(f"Q {TWO} 3 3")
        self.assertEqual(of_a.read(), [f"2 refused: modem: {TWO} is not a modem of A"])
        self.client("C").write(f"Q {TWO} 4 4")
        self.assertEqual(self.passed(1), [f"Q {TWO} 4 4"])


class Channel(Bridge):
    """A channel in service behind the bridge: the script of the unit, with the second implementation."""
    program = None

    def setUp(self):
        super().setUp()
        program = self.folder / "program"
        program.write_text(f'#!/bin/sh\nexec {self.program or f"/usr/bin/python3 -B {ROOT}/service/reference"} "$@"\n')
        program.chmod(0o755)
        self.settings = {"PLANT_SCRIPT": str(program), "ANSWERS": str(self.answers), "FOLDER": str(self.folder / "folder"), "PATH": PATH}
        self.start_bridge(FOLDER=str(self.folder / "folder"))
        wait_until(lambda: self.listens("control.sock") and self.listens("operators/A.sock") and self.listens("operators/B.sock"), SECONDS_TO_START)
        self.owner = self.client(None)
        self.channel = self.start_channel()
        self.owner.socket.settimeout(SECONDS_TO_START)
        self.assertEqual(self.owner.read(), ["- S line 1 frame 0"])
        self.owner.socket.settimeout(SECONDS)

    def start_channel(self):
        with (self.folder / "in").open("r+b", buffering=0) as pipe:
            return self.start(ROOT / "service/systemd/serve_channel", self.folder / "plant.toml", stdin=pipe, env=self.settings, stdout=subprocess.DEVNULL)

    def tick(self, number):
        self.owner.write("T")
        line, = self.owner.read()
        self.assertTrue(line.startswith(f"{number} MAP "), line)
        return line

    def test_two_operators(self):
        of_a, of_b = self.client("A"), self.client("B")
        of_a.write(f"M {ONE} {ADD}", f"M {ONE} {ACK}", f"Q {ONE} 257 5", f"M {THREE} {ADD}")
        of_b.write(f"M {THREE} {ADD}", f"M {THREE} {ACK}", f"Q {THREE} 513 3", "T")
        self.assertEqual(sorted(of_a.read(2)), [f"1 R {ONE} {ADDED}", f"4 refused: modem: {THREE} is not a modem of A"])
        self.assertEqual(sorted(of_b.read(2)), [f"1 R {THREE} 10000100180E0102000102040000020103020201", "4 refused: kind: T: an operator sends lines M and Q"])
        wait_until(lambda: self.counts("A")["passed"] == 3 and self.counts("B")["passed"] == 3)
        self.tick(1)
        self.assertEqual((of_a.read(), of_b.read()), (["- F A 0 257/6/8/5 0/6/13/27"], ["- F B 0 513/5/40/3 0/6/43/29"]))

    def test_a_channel_that_is_killed_and_starts_again(self):
        """The connections stay. The state is that of before, and lines that were written meanwhile wait."""
        of_a = self.client("A")
        of_a.write(f"M {ONE} {ADD}", f"M {ONE} {ACK}")
        self.assertEqual(of_a.read(), [f"1 R {ONE} {ADDED}"])
        self.tick(1)
        self.assertEqual(of_a.read(), ["- F A 0 0/6/8/32"])
        kill_group(self.channel, SECONDS)
        of_a.write(f"Q {ONE} 257 5")
        self.start_channel()
        self.assertEqual((of_a.read(), self.owner.read()), (["- started frame 1"], ["- S line 4 frame 1"]))
        self.tick(2)
        self.assertEqual(of_a.read(), ["- F A 1 257/6/8/5 0/6/13/27"])

    def test_a_reload_gives_an_operator_a_modem(self):
        of_b, new = self.client("B"), "0A0B0C0D0E0F"
        (self.folder / "plant.toml").write_text(PLANT.replace(f'"{THREE}"', f'"{THREE}", "{new}"'))
        of_b.write(f"M {new} {ADD}")
        self.assertEqual(of_b.read(), [f"1 refused: modem: {new} is not a modem of B"])
        words = [ROOT / "service/systemd/serve_channel", "--change", self.folder / "plant.toml", self.folder / "in"]
        done = subprocess.run(words, env=self.settings, capture_output=True, text=True, timeout=SECONDS, check=False)
        self.assertEqual(done.returncode, 0, done.stderr)
        self.assertEqual(of_b.read(), ["- started frame 0"])
        of_b.write(f"M {new} {ADD}")
        self.assertEqual(of_b.read(), [f"2 R {new} 10000100180E0102000102040000020103020201"])

    def test_clients_print_their_grants(self):
        """Both clients get 40 minislots of a slice of 32: 32 in a frame, and 8 in the next one."""
        commands = [[sys.executable, PYTHON_CLIENT]]
        if shutil.which("gcc"):
            subprocess.run(["gcc", "-Wall", "-Wextra", "-Werror", "-o", self.folder / "plant_client", C_CLIENT], check=True)
            commands.append([self.folder / "plant_client"])
        for place, words in enumerate(commands):
            first, sid = (("A", ONE, 8), 257) if place == 0 else (("B", THREE, 40), 513)
            operator, modem, start = first
            process = subprocess.Popen([*words, self.folder / f"operators/{operator}.sock", modem, "40"], stdout=subprocess.PIPE, stderr=subprocess.PIPE, text=True)
            wait_until(lambda: self.counts(operator)["passed"] == 3)
            for number in (1, 2):
                self.tick(2 * place + number)
            output, errors = process.communicate(timeout=SECONDS)
            frames = [f"frame {2 * place + number}: {length} minislots from minislot {start} on\n" for number, length in ((0, 32), (1, 8))]
            self.assertEqual((process.returncode, output, errors), (0, f"flow {sid} has SID {sid}\n" + "".join(frames), ""))

    def test_clients_say_what_is_refused(self):
        commands = [[sys.executable, PYTHON_CLIENT]]
        if shutil.which("gcc"):
            subprocess.run(["gcc", "-Wall", "-Wextra", "-Werror", "-o", self.folder / "plant_client", C_CLIENT], check=True)
            commands.append([self.folder / "plant_client"])
        for words in commands:
            for path, modem, status, text in (("operators/A.sock", THREE, 3, f"refused: modem: {THREE} is not a modem of A"), ("none.sock", ONE, 1, "plant_client: "), ("operators/A.sock", "", 2 if len(words) == 1 else 3, "plant_client")):
                done = subprocess.run([*words, self.folder / path, modem, "5"], capture_output=True, text=True, timeout=SECONDS, check=False)
                self.assertEqual((done.returncode, text in done.stderr), (status, True), (words, done))


@unittest.skipUnless(os.access(PROGRAM, os.X_OK), "the proved program is not built: it was not tried behind the bridge")
class ProvedChannel(Channel):
    program = PROGRAM


# Each edit of a module of the bridge is a fault that the test which is named must notice.
EDITS = [
    (Lines, "lines_of_its_modems_are_passed_on", "lines", "[0-9A-Fa-f]{2})+", "[0-9A-F]{2})+"),
    (Lines, "what_an_operator_may_not_send_is_refused_and_counted", "lines", "if owner is None or operator not in (None, owner):", "if owner is None:"),
    (Lines, "what_an_operator_may_not_send_is_refused_and_counted", "lines", "if operator is None and line[:1]", "if line[:1]"),
    (Lines, "what_an_operator_may_not_send_is_refused_and_counted", "connections", '        self.counts["refused_" + fault.reason] += 1\n', ""),
    (Lines, "the_owner_sends_all_lines_that_services_take", "lines", '    if line == b"K":\n', '    if line == b"":\n'),
    (Lines, "the_owner_sends_all_lines_that_services_take", "lines", " or len(numbers) != 3 * len(rights.names)", ""),
    (Lines, "the_owner_sends_all_lines_that_services_take", "lines", "(0|[1-9][0-9]{0,9})", "([0-9]{1,10})"),
    (Lines, "lines_of_any_bytes_are_refused_alone", "lines", 'line[:SHOWN].decode("latin-1").encode("unicode_escape").decode()', "line[:SHOWN].decode()"),
    (Lines, "half_a_line_spoils_nothing_else", "lines", '        self.rest = b"" if self.is_too_long else rest\n', '        self.rest = b""\n'),
    (Lines, "half_a_line_spoils_nothing_else", "connections", 'self.refuse(Refused("unfinished", "the line has no LF"))', 'self.take(self.splitter.rest)'),
    (Lines, "a_line_that_is_too_long_is_refused", "lines", "len(line) >= MOST_LINE else", "len(line) > MOST_LINE else"),
    (Lines, "a_line_that_is_too_long_is_refused", "lines", "self.is_too_long = self.is_too_long or len(rest) >= MOST_LINE", "self.is_too_long = False"),
    (Lines, "a_client_that_comes_again_counts_its_lines_anew", "bridge", "        self.connections[connection.operator].remove(connection)\n", ""),
    (Lines, "there_are_only_so_many_connections", "bridge", "if len(here) + leaving > MOST_CONNECTIONS:", "if False:"),
    (Lines, "a_client_that_only_reads_from_now_on_gets_its_answers", "connections", "        return True\n\n    # Lines", "        return False\n\n    # Lines"),
    (Lines, "a_client_that_only_reads_from_now_on_gets_its_answers", "connections", "return any(event", "return False and any(event"),
    (Answers, "answers_go_to_the_connections_of_their_operator", "bridge", "for connection in self.connections.get(operator, ()) if operator else ():", "for connection in sum(self.connections.values(), []):"),
    (Answers, "answers_go_to_the_connections_of_their_operator", "bridge", ' or is_map and "maps" in connection.wanted', ""),
    (Answers, "answers_go_to_the_connections_of_their_operator", "bridge", "            connection.send(output, number if connection is sender else None)\n        for", "            connection.send(output, number)\n        for"),
    (Answers, "an_answer_has_the_number_of_its_line", "matching", "step.kind is kind and (kind is not Kind.DROPPED or step.detail == cause)", "True"),
    (Answers, "an_answer_has_the_number_of_its_line", "matching", "barrier, found = self.barrier(), []", "barrier, found = self.sequence, []"),
    (Answers, "a_retransmission_within_a_tick_answers_no_later_line", "matching", "if step.kind not in SILENT and (step.kind is not Kind.TICK or self.ticks_are_sure):", "if step.kind not in SILENT and step.kind is not Kind.TICK:"),
    (Answers, "an_answer_that_may_be_of_two_lines_has_no_number", "matching", "entry.sequence, entry.number = self.sequence, None", "entry.sequence = self.sequence"),
    (Answers, "lines_of_others_take_no_number", "matching", "text.startswith(step.detail)", "True"),
    (Answers, "a_start_is_told_to_all_and_leaves_no_wrong_number", "matching", "        self.ticks_are_sure = not drop_done(self.ticks)\n", ""),
    (Answers, "a_start_is_told_to_all_and_leaves_no_wrong_number", "bridge", "output if key is None else started", "output"),
    (Answers, "objects_of_json", "outputs", '({"line": number} if number else {})', '{"line": number}'),
    (Answers, "objects_of_the_channel_are_passed_on", "outputs", '    members.pop("line", None)\n', ""),
    (Answers, "objects_of_the_channel_are_passed_on", "outputs", "(ValueError, TypeError, KeyError, AttributeError)", "ValueError"),
    (Pressure, "a_client_that_does_not_read_is_disconnected_alone", "connections", "            self.transport.abort()\n            return\n", ""),
    (Pressure, "refusals_that_nobody_reads_end_their_connection", "connections", "> self.most_unread:", "> 100 * self.most_unread:"),
    (Pressure, "a_flood_is_held_back_and_operators_take_turns", "connections", "            self.transport.pause_reading()\n", ""),
    (Pressure, "a_flood_is_held_back_and_operators_take_turns", "rounds", "self.waiting_bytes() >= MOST_IN_PIPE", "False"),
    (Pressure, "a_flood_is_held_back_and_operators_take_turns", "rounds", "                self.turns.append(operator)\n                return", "                self.turns.appendleft(operator)\n                return"),
    (Pressure, "lines_without_an_answer_are_limited", "connections", " and self.unanswered < MOST_UNANSWERED", ""),
    (Pressure, "lines_without_an_answer_are_limited", "bridge", "        self.flush()\n        self.lines_wait()\n", "        self.flush()\n"),
    (Sockets, "a_socket_has_the_group_of_its_operator_and_no_rights_for_others", "listening", "os.chown(path, -1, group)", "pass"),
    (Sockets, "a_socket_has_the_group_of_its_operator_and_no_rights_for_others", "listening", "0o660", "0o666"),
    (Sockets, "a_stranger_is_refused_by_its_rights", "listening", "0o660", "0o666"),
    (Sockets, "a_group_that_is_missing_opens_no_socket", "listening", 'raise NoSocket(f"GROUP_{operator}: there is no group {name}") from fault', "return None"),
    (Sockets, "systemd_passes_the_socket_of_the_owner", "listening", "        return socket.socket(fileno=FIRST_FILE)\n", "        return make_socket(path)\n"),
    (Sockets, "readiness_is_reported_once_there_are_sockets", "listening", "sender.send(text.encode())", "pass"),
    (Sockets, "statuses", "plant_bridge", "raise Ended(3, str(fault))", "raise Ended(6, str(fault))"),
    (Sockets, "sigterm_ends_it_and_a_second_one_of_the_same_folder_does_not_start", "listening", "fcntl.flock(file, fcntl.LOCK_EX | fcntl.LOCK_NB)", "pass"),
    (Sockets, "sigterm_ends_it_and_a_second_one_of_the_same_folder_does_not_start", "plant_bridge", "(signal.SIGTERM, signal.SIGINT)", "(signal.SIGINT,)"),
    (Sockets, "lines_wait_for_a_pipe_and_go_into_no_file", "rounds", "            if not stat.S_ISFIFO(found.st_mode):\n                self.close()\n", ""),
    (Sockets, "lines_wait_for_a_pipe_and_go_into_no_file", "rounds", " and (found.st_dev, found.st_ino) == self.identity", ""),
    (Sockets, "rights_follow_the_plant_file_that_is_in_force", "rights", "self.journal and plant_of_journal(self.journal) or plant_of_file(self.path)", "plant_of_file(self.path)"),
    (Sockets, "rights_follow_the_plant_file_that_is_in_force", "bridge", "                connection.transport.abort()\n\n    async def open_new", "                pass\n\n    async def open_new"),
    (Channel, "two_operators", "bridge", "self.pipe = LinePipe(pipe, self.pending.add)", "self.pipe = LinePipe(pipe, lambda *_: None)"),
    (Channel, "a_channel_that_is_killed_and_starts_again", "bridge", "                connection.send(output if key is None else started)\n", "                connection.transport.abort()\n"),
    (Channel, "a_reload_gives_an_operator_a_modem", "rights", "        self.rights = rights_of(data)\n", "        self.rights = self.rights if self.rights.names else rights_of(data)\n"),
    (Channel, "clients_print_their_grants", "bridge", 'self.send_operators(output, name, pending', 'self.send_operators(output, None, pending'),
    (Channel, "clients_say_what_is_refused", "connections", '        self.tell("refused", str(fault), reason=fault.reason)\n', ""),
]


class Edits(unittest.TestCase):
    """Copies the bridge, and edits the copy."""

    def fails(self, case, test):
        """Returns whether a test fails with the bridge that TOP names."""
        global SECONDS
        seconds, SECONDS = SECONDS, SECONDS if case is Channel else SECONDS_OF_EDIT
        try:
            return not unittest.TextTestRunner(stream=io.StringIO()).run(case(f"test_{test}")).wasSuccessful()
        finally:
            SECONDS = seconds

    def is_noticed(self, case, test, module, old, new):
        with tempfile.TemporaryDirectory() as folder:
            (pathlib.Path(folder) / "service").mkdir()
            for name in ("__init__.py", "bridging", "reference", "watching", "plant_bridge"):
                copy = shutil.copytree if (ROOT / "service" / name).is_dir() else shutil.copy
                copy(ROOT / "service" / name, pathlib.Path(folder, "service", name))
            path = pathlib.Path(folder, "service/bridging", f"{module}.py")
            text = path.read_text()
            self.assertEqual(text.count(old), 1, f"{module}.py has not once: {old}")
            path.write_text(text.replace(old, new))
            TOP["service"] = pathlib.Path(folder)
            try:
                return self.fails(case, test)
            finally:
                TOP["service"] = ROOT

    def edits(self):
        return EDITS if os.environ.get("ALL_EDITS") else EDITS[date.today().toordinal() % EDITS_OF_A_DAY::EDITS_OF_A_DAY]

    def test_each_edit_is_noticed(self):
        self.assertEqual([edit for edit in self.edits() if not self.is_noticed(*edit)], [])

    def test_each_test_of_an_edit_passes_without_it(self):
        self.assertEqual([test for case, test in dict.fromkeys(edit[:2] for edit in self.edits()) if self.fails(case, test)], [])
