"""Tests describe_state: what it says is missing, how it lists the flows of each modem, and the lines of --release.

The channel is served by the second implementation, and by the program if it is built. Messages are typed from docs/FORMATS.md, and the
numbers that are expected follow from docs/RULES.md: the timers of responses, and the frames since which a backlog waits.
"""

import os
import pathlib
import re
import subprocess
import sys
import tempfile
import unittest
from unittest import mock

from service.watching import describe_state, folder_states
from service.watching.folder_states import NoState
from service.watching.outputs import Outputs
from tools import EXAMPLES, ROOT
from tools.compare.program import PROGRAM
from tools.tests.test_watching import RECORDS, SNAPSHOT, journal_text, snapshot_text

P2 = (EXAMPLES / "plant_p2.toml").read_text()
# Operator A has room for 9 flows and 6 responses. A response awaits 4 ticks, then twice 4 more, and is retained for 20.
PLANT = (P2.replace("ucd_count = 1", "ucd_count = 1\nack_wait = 4\nresends = 2\nhold = 20").replace("flows = 4", "flows = 9", 1)
         .replace("transactions = 4", "transactions = 6", 1).replace("elements = 8", "elements = 40", 1))
PROVISIONED = PLANT.replace('"020000000002"]', '"020000000002"]\n[[operator.flow]]\nmodem = "020000000001"\nencoding = "0601070F0102"', 1)
ONE, TWO, THREE = "020000000001", "020000000002", "020000000003"
REFERENCE = [sys.executable, str(ROOT / "service/reference")]
COMMANDS = [REFERENCE] + [[PROGRAM]] * os.access(PROGRAM, os.X_OK)
DELETED = re.compile(rb"R 020000000001 16[0-9A-F]{4}0000")


def added(modem, tid):
    """Returns a DSA-REQ of a best effort flow, admitted and active, and its acknowledgement with code 0."""
    return [f"M {modem} 0F{tid:04X}180A010200010601060F0102", f"M {modem} 11{tid:04X}00"]


def changing(modem, tid, sfid):
    """Returns a DSC-REQ that gives a flow the same sets."""
    return f"M {modem} 12{tid:04X}180C0204{sfid:08X}0601060F0102"


def answers(command, front, lines):
    """Returns what `resume` answers to lines, after a plant file or a snapshot."""
    data = b"".join(line.encode() + b"\n" for line in ("---", *lines))
    done = subprocess.run([*command, "resume"], input=front + data, capture_output=True, check=True)
    return Outputs().take(done.stdout)


def snapshot_after(lines, plant=PLANT, command=REFERENCE):
    return answers(command, plant.encode(), [*lines, "K"])[-1]


def describe(*words, given=b"", **environment):
    done = subprocess.run([ROOT / "service/describe_state", *words], input=given, capture_output=True, check=False, env={**os.environ, **environment})
    return done.returncode, done.stdout.decode(), done.stderr.decode()


def released(snapshot, modem=ONE):
    """Returns the exit status of --release, its lines, and what it says."""
    status, output, errors = describe("--release", modem, "-", given=snapshot)
    return status, output.splitlines(), errors


class Release(unittest.TestCase):
    def assert_deleted(self, found, count):
        self.assertEqual([output for output in found if DELETED.fullmatch(output)], found)
        self.assertEqual(len(found), count)

    def test_the_lines_delete_all_flows_of_the_modem(self):
        """Flow 257 is provisioned, 258 and 260 are added by the same modem, and 259 by another one."""
        lines = [*added(ONE, 1), *added(TWO, 1), *added(ONE, 2), "T"]
        for command in COMMANDS:
            with self.subTest(command[0]):
                before = snapshot_after(lines, PROVISIONED, command)
                status, release, errors = released(before)
                self.assertEqual(release, [f"M {ONE} 157FFF000000000101", f"M {ONE} 157FFE000000000102", f"M {ONE} 157FFD000000000104"])
                self.assertEqual((status, errors.count("\n")), (0, 1))
                self.assertIn("flow 257 is provisioned. A reload or a restart does not bring it back.", errors)
                *replies, after = answers(command, before, [*release, "K"])
                self.assert_deleted(replies, 3)
                text = describe("-", given=after)[1]
                self.assertIn(f"Modem {TWO} of operator A: 1 flow,", text)
                self.assertNotIn(f"Modem {ONE}", text)
                self.assertEqual(released(after)[:2], (0, []))

    def test_a_provisioned_flow_stays_away_after_a_reload(self):
        """It comes back if the channel begins anew, as the remark says."""
        before = snapshot_after(["T"], PROVISIONED)
        after = answers(REFERENCE, before, [*released(before)[1], "P", *PROVISIONED.splitlines(), "---", "K"])
        self.assertEqual(after[1], b"P frame 1")
        self.assertNotIn("flow 257", describe("-", given=after[-1])[1])
        self.assertIn("flow 257", describe("-", given=snapshot_after([], PROVISIONED))[1])

    def test_in_the_folder_of_a_service(self):
        for command in COMMANDS:
            with self.subTest(command[0]), tempfile.TemporaryDirectory() as top:
                program = pathlib.Path(top, "program")
                program.write_text(f"#!/bin/sh\nexec {' '.join(command)} \"$@\"\n")
                program.chmod(0o755)
                folder = pathlib.Path(top, "folder")
                folder.mkdir()

                def serve(lines, program=program, folder=folder):
                    text = "".join(line + "\n" for line in (PLANT + "---", *lines))
                    return subprocess.run([program, "serve", "--state", folder], input=text.encode(), stdout=subprocess.PIPE, check=True).stdout.splitlines()[1:]

                serve([*added(ONE, 1), "T", *added(ONE, 2)])
                status, output, errors = describe("--folder", folder, "--release", ONE, PLANT_SCRIPT=str(program))
                self.assertEqual((status, errors, len(output.splitlines())), (0, "", 2))
                self.assert_deleted(serve(output.splitlines()), 2)
                self.assertIn("flows: 0 of at most 9", describe("--folder", folder, PLANT_SCRIPT=str(program))[1])

    def test_transaction_ids_of_cached_responses_are_left_out(self):
        """A refusal is cached under 0x7FFE, and a response of the other modem under 0x7FFF."""
        before = snapshot_after([*added(ONE, 1), *added(ONE, 2), f"M {ONE} 157FFE000000000999", f"M {TWO} 157FFF000000000999"])
        status, release, _ = released(before)
        self.assertEqual((status, release), (0, [f"M {ONE} 157FFF000000000101", f"M {ONE} 157FFD000000000102"]))
        self.assert_deleted(answers(REFERENCE, before, release), 2)

    def flows_after(self, snapshot, ticks):
        """Returns a snapshot some ticks later, and the SFIDs in its text."""
        later = answers(REFERENCE, snapshot, ["T"] * ticks + ["K"])[-1]
        return later, re.findall(r"(?m)^  flow (\d+)", describe("-", given=later)[1])

    def test_an_added_flow_that_awaits_is_left_for_later(self):
        """Two ticks of the first four are counted. Then come the retransmissions, four ticks each: 10 ticks are left."""
        before = snapshot_after([*added(ONE, 1), added(ONE, 2)[0], "T", "T"])
        status, release, errors = released(before)
        self.assertEqual((status, release), (4, [f"M {ONE} 157FFF000000000101"]))
        self.assertIn("flow 258 awaits an acknowledgement, so that a DSD-REQ of it is refused (check 12, code 3). "
                      "Transaction 2 is abandoned after 10 ticks. Then the flow is removed", errors)
        refused = answers(REFERENCE, before, [f"M {ONE} 157000000000000102"])
        self.assertEqual(refused, [f"R {ONE} 1670000300".encode()])
        self.assertEqual([self.flows_after(before, ticks)[1] for ticks in (9, 10)], [["257", "258"], ["257"]])

    def test_a_changed_flow_that_awaits_can_be_deleted_later(self):
        """The response was retransmitted once: of the next four ticks one is counted, and four more follow."""
        before = snapshot_after([*added(ONE, 1), changing(ONE, 2, 257), *["T"] * 5])
        status, release, errors = released(before)
        self.assertEqual((status, release), (4, []))
        self.assertIn("Transaction 2 is abandoned after 7 ticks. Then its change is undone: give this command once more", errors)
        self.assertEqual(released(self.flows_after(before, 6)[0])[:2], (4, []))
        later = self.flows_after(before, 7)[0]
        status, release, errors = released(later)
        self.assertEqual((status, errors), (0, ""))
        self.assert_deleted(answers(REFERENCE, later, release), 1)

    def test_flows_for_whose_responses_there_is_no_room_are_left_for_later(self):
        """Five responses are cached, that of transaction 1 for 13 ticks more. The first line takes the sixth place, for 20 ticks."""
        before = snapshot_after([*added(ONE, 1), *["T"] * 7, *(line for tid in (2, 3, 4, 5) for line in added(ONE, tid))])
        status, release, errors = released(before)
        self.assertEqual((status, release), (4, [f"M {ONE} 157FFF000000000101"]))
        self.assertIn("4 flows left: operator A caches at most 6 responses (key transactions). Give this command once more after 20 ticks", errors)
        *replies, after = answers(REFERENCE, before, [*release, f"M {ONE} 157000000000000102", "K"])
        self.assertEqual(replies, [f"R {ONE} 167FFF0000".encode(), f"R {ONE} 1670000300".encode()])
        self.assertEqual(len(released(self.flows_after(after, 13)[0])[1]), 1)
        later = self.flows_after(after, 20)[0]
        status, release, errors = released(later)
        self.assertEqual((status, errors), (0, ""))
        self.assert_deleted(answers(REFERENCE, later, release), 4)

    def test_more_flows_than_responses_that_are_cached(self):
        """Nothing is cached, and there is room for 2 responses. So 2 of 5 flows are deleted now, 2 after 20 ticks, and 1 after 20 more."""
        lines = [line for tid in range(1, 6) for line in (*added(ONE, tid), *["T"] * 20)]
        now, counts = snapshot_after(lines, PLANT.replace("transactions = 6", "transactions = 2", 1)), []
        for left in (3, 1, 0):
            status, release, errors = released(now)
            self.assertEqual(status, 4 if left else 0)
            self.assertEqual("Give this command once more after 20 ticks" in errors, left > 0)
            *replies, now = answers(REFERENCE, now, [*release, "K"])
            self.assert_deleted(replies, len(release))
            counts.append(len(release))
            now = self.flows_after(now, 20)[0]
        self.assertEqual(counts, [2, 2, 1])

    def test_a_message_in_the_inbox_takes_room(self):
        """Of 5 responses 4 are cached, and the message that is handled first takes the fifth place."""
        responses = "".join(f"response {ONE} {tid} dsd {tid} held 9 0 -\n" for tid in range(1, 5))
        records = re.sub("(?s)response.*(?=operator B)", f"{responses}message {ONE} 150007000000000999\n", RECORDS).replace("Alfa 5 3 2", "Alfa 5 4 1")
        self.assertEqual(released(snapshot_text(records))[:2], (4, []))
        status, release, _ = released(snapshot_text(records.replace("message 020000000001 150007000000000999", "request 020000000001 257 4")))
        self.assertEqual((status, [line[:1] for line in release]), (4, ["M", "Q"]))

    def test_what_waits_in_the_inbox_is_handled_before(self):
        """The plant of the snapshot has room for 3 in the inbox of Alfa. Flow 257 is of modem 1."""
        waiting = [f"message {ONE} 157FFF000000000999", f"request {ONE} 257 4", f"request {ONE} 257 5"]
        head = RECORDS.split("response")[0].replace("260 020000000001", "260 02000000000A")
        tail = "operator B" + RECORDS.split("operator B")[1]
        for count in range(4):
            records = head.replace("Alfa 5 3 2", f"Alfa 5 0 {count}") + "".join(line + "\n" for line in waiting[:count]) + tail
            before = snapshot_text(records)
            status, release, errors = released(before)
            self.assertEqual((status, f"the inbox of operator Alfa has {count} waiting" in errors), (0, count > 0))
            self.assertEqual(sum(line.startswith("M") for line in release), 2)
            found = answers(REFERENCE, before, [*release, "K"])
            self.assertEqual(sum(DELETED.fullmatch(output) is not None for output in found), 2, found)
            self.assertNotIn(f"Modem {ONE}", describe("-", given=found[-1])[1])

    def test_addresses(self):
        before = snapshot_after(added(ONE, 1))
        for text in ("", "0200000001", "02:00:00:00:00:01", "02000000000g", f"{ONE}\n", f" {ONE}"):
            status, release, errors = released(before, text)
            self.assertEqual((status, release), (2, []), text)
            self.assertIn("is not an address: write 12 hexadecimal digits without separators", errors)
        status, release, errors = released(before, "0A0B0C0D0E0F")
        self.assertEqual((status, release, errors), (2, [], "describe_state: no operator lists the modem 0A0B0C0D0E0F: look at the keys modems of the plant file in service\n"))
        status, release, errors = released(before, THREE)
        self.assertEqual((status, release, errors), (0, [], f"describe_state: the modem {THREE} of operator B has no flows: there is nothing to delete\n"))
        other = snapshot_after([], PLANT.replace(THREE, "0a0b0c0d0e0f"))
        self.assertEqual([released(other, text)[0] for text in ("0A0B0C0D0E0F", "0a0b0c0d0e0f")], [0, 0])

    def test_arguments(self):
        self.assertEqual(describe("--release", ONE)[0], 2)
        self.assertEqual(describe("--release", ONE, "--json", "-", given=SNAPSHOT)[:2], (2, ""))
        self.assertEqual(released(b"not a snapshot")[:2], (3, []))

    def test_each_line_is_one_write(self):
        """A pipe of packets gives each write by itself."""
        before = snapshot_after([*added(ONE, 1), *added(ONE, 2)])
        for unbuffered in ("", "1"):
            output, end = os.pipe2(os.O_DIRECT)
            with open(end, "wb") as file:
                environment = {**os.environ, "PYTHONUNBUFFERED": unbuffered}
                subprocess.run([ROOT / "service/describe_state", "--release", ONE, "-"], input=before, stdout=file, check=True, env=environment)
            with open(output, "rb", buffering=0) as file:
                found = [file.read(4_096), file.read(4_096), file.read(4_096)]
            self.assertEqual(found, [f"M {ONE} 157FFF000000000101\n".encode(), f"M {ONE} 157FFE000000000102\n".encode(), b""])


class Flows(unittest.TestCase):
    def text(self, lines, plant=PLANT):
        return describe("-", given=snapshot_after(lines, plant))[1]

    def test_by_modem(self):
        text = self.text([*added(TWO, 7), *added(ONE, 1), *added(THREE, 1), "T", f"Q {TWO} 257 3"])
        self.assertEqual(re.findall("Modem .*", text), [f"Modem {ONE} of operator A: 1 flow, last transaction 1 tick ago",
                                                       f"Modem {TWO} of operator A: 1 flow, last transaction 1 tick ago",
                                                       f"Modem {THREE} of operator B: 1 flow, last transaction 1 tick ago"])
        self.assertIn("  flow 257, SID 257: admitted and active be\n    backlog of 3 minislots, waiting since frame 1, 0 frames\n", text)

    def test_a_timer_that_is_longer_than_that_of_the_plant(self):
        """The plant of the snapshot has the hold of 1,500 ticks that is the default."""
        for ticks, said in ((1_500, "last transaction 0 ticks ago"), (1_501, "no transaction known")):
            text = describe("-", given=snapshot_text(RECORDS.replace("dsa 0 held 7", f"dsa 0 held {ticks}")))[1]
            self.assertIn(f"Modem 02000000000A of operator Alfa: 2 flows, {said}\n", text)

    def test_the_last_of_two_transactions(self):
        self.assertIn(f"Modem {ONE} of operator A: 2 flows, last transaction 1 tick ago\n", self.text([*added(ONE, 1), "T", "T", *added(ONE, 2), "T"]))
        self.assertEqual(re.findall("last transaction (.*) ago", self.text([*added(ONE, 1), "T", "T", *added(TWO, 1), "T"])), ["3 ticks", "1 tick"])

    def test_a_backlog_that_was_granted(self):
        """The request comes in frame 5, and is granted in it. After frame 104 the response of the flow is not cached any more."""
        text = self.text([*added(ONE, 1), *["T"] * 5, f"Q {ONE} 257 3", *["T"] * 100])
        self.assertIn(f"Modem {ONE} of operator A: 1 flow, no transaction known\n"
                      "  flow 257, SID 257: admitted and active be\n    no backlog, and none has begun since frame 5, 100 frames\n", text)

    def test_a_backlog_that_waits(self):
        """Of 40 minislots 32 are granted in frame 5. What remains waits since frame 6, whatever is requested then."""
        text = self.text([*added(ONE, 1), *["T"] * 5, f"Q {ONE} 257 40", "T", f"Q {ONE} 257 9"])
        self.assertIn("    backlog of 9 minislots, waiting since frame 6, 0 frames\n", text)

    def test_sets_that_await_an_acknowledgement(self):
        text = self.text([*added(ONE, 1), changing(ONE, 2, 257), added(ONE, 3)[0], *["T"] * 5])
        self.assertIn(f"Modem {ONE} of operator A: 2 flows, last transaction 5 ticks ago\n"
                      "  flow 257, SID 257: admitted, active, pending admitted and pending active be\n"
                      "    no backlog, and none has begun since frame 0, 5 frames\n    awaits an acknowledgement of transaction 2\n"
                      "  flow 258, SID 258: pending admitted and pending active be\n"
                      "    no active set: it may not request\n    awaits an acknowledgement of transaction 3\n", text)

    def test_a_provisioned_flow_without_a_transaction(self):
        text = self.text([], PROVISIONED)
        self.assertIn(f"Modem {ONE} of operator A: 1 flow, no transaction known\n  flow 257, SID 257: provisioned, admitted and active be\n", text)


class What(unittest.TestCase):
    """What is missing is named, and where it was looked for."""

    def setUp(self):
        folder = tempfile.TemporaryDirectory()
        self.addCleanup(folder.cleanup)
        self.top = pathlib.Path(folder.name)
        (self.top / "journal").write_bytes(journal_text(b"T"))

    def program(self, text, name="program"):
        path = self.top / name
        path.parent.mkdir(parents=True, exist_ok=True)
        path.write_text(f"#!/bin/sh\n{text}\n")
        path.chmod(0o755)
        return str(path)

    def fault(self, program):
        status, output, errors = describe("--folder", self.top, PLANT_SCRIPT=program)
        self.assertEqual((status, output, errors.count("\n")), (1, "", 1))
        self.assertNotIn("ticked", errors)
        return errors

    def test_the_program_that_the_variable_names(self):
        self.assertIn("the program is missing: the variable PLANT_SCRIPT names /nowhere/program", self.fault("/nowhere/program"))
        (self.top / "plain").write_text("")
        self.assertIn(f"names {self.top}/plain, which is not a file that can be executed", self.fault(str(self.top / "plain")))

    def test_the_program_that_is_installed_or_built(self):
        (self.top / "crates").mkdir()
        with mock.patch.object(folder_states, "INSTALLED", "/nowhere/plant_script"):
            with self.assertRaises(NoState) as found:
                folder_states.program_of(None, self.top)
            self.assertRegex(str(found.exception), f"the program is missing.*at /nowhere/plant_script and at {self.top}/crates/plant_program/out/plant_program")
            self.assertRegex(str(found.exception), "build the program by ./prove .*PLANT_SCRIPT")
            built = self.program("", "crates/plant_program/out/plant_program")
            self.assertEqual(folder_states.program_of("", self.top), built)
            with self.assertRaises(NoState) as found:
                folder_states.program_of(None, pathlib.Path("/nowhere"))
            self.assertNotIn("crates", str(found.exception))
        with mock.patch.object(folder_states, "INSTALLED", self.program("", "installed")):
            self.assertEqual(folder_states.program_of(None, self.top), str(self.top / "installed"))

    def test_how_a_program_ended(self):
        for text, said in (("kill -KILL $$", "was killed by signal 9"), ("echo fault: memory; exit 5", "ran out of memory"),
                           ("echo fault: state; echo the limit of flows >&2; exit 3", "ended with status 3: fault: state; the limit of flows"),
                           ("exit 7", "ended with status 7: it said nothing"), ("echo MAP 7 01", "ended before the last line, after MAP 7 01"),
                           ("echo fault: line 1", "ended before the last line, after fault: line 1")):
            self.assertIn(said, self.fault(self.program(text)))

    def test_operators_that_have_ticked_apart(self):
        (self.top / "journal").write_bytes(journal_text(b"---", b"T B"))
        status, _, errors = describe("--folder", self.top, PLANT_SCRIPT=self.program(f'exec {" ".join(REFERENCE)} "$@"'))
        self.assertEqual((status, errors), (1, f"describe_state: the journal in {self.top} gives no state: some operators have ticked and others not. "
                                               "There is one once the others have had as many ticks\n"))

    def test_folders(self):
        status, _, errors = describe("--folder", "/nowhere")
        self.assertEqual((status, errors.startswith("describe_state: there is no folder /nowhere")), (6, True), errors)
        (self.top / "journal").unlink()
        status, _, errors = describe("--folder", self.top)
        self.assertEqual((status, errors), (6, f"describe_state: the folder {self.top} has no file journal: no channel has run with it\n"))
        with mock.patch("builtins.open", side_effect=PermissionError), self.assertRaisesRegex(describe_state.Missing, "may not read .*journal: only root"):
            describe_state.judge_folder(self.top)

    def test_answers(self):
        for fault, said in ((FileNotFoundError, "there are no answers /nowhere: "), (PermissionError, "you may not read /nowhere: ")):
            with mock.patch("builtins.open", side_effect=fault), self.assertRaisesRegex(describe_state.Missing, said):
                describe_state.judge_answers("/nowhere")

    def test_pipes(self):
        pipe = self.top / "in"
        self.assertIn("it is missing", describe_state.why_not_written(pipe))
        pipe.write_text("")
        self.assertIn("it is not a pipe", describe_state.why_not_written(pipe))
        pipe.unlink()
        os.mkfifo(pipe)
        self.assertIn("nobody reads it", describe_state.why_not_written(pipe))
        file = os.open(pipe, os.O_RDWR | os.O_NONBLOCK)
        self.addCleanup(os.close, file)
        self.assertIn("it is full", describe_state.why_not_written(pipe))

    def test_an_output_that_cannot_be_written(self):
        with open("/dev/full", "wb") as full:
            done = subprocess.run([ROOT / "service/describe_state", "-"], input=SNAPSHOT, stdout=full, stderr=subprocess.PIPE, check=False)
        self.assertEqual((done.returncode, done.stderr.count(b"\n")), (6, 1))


if __name__ == "__main__":
    unittest.main()
