"""Tests `service/dsx split` and `service/dsx join`. All bytes are typed from Annex C of the standard. tshark reads each whole message.

The second implementation replies to what split gives the program. Where tshark is not installed, what it reads is not tested.
"""

import contextlib
import hmac
import io
import random
import re
import shutil
import subprocess
import tempfile
import threading
import unittest

from service.messages.splitting import lines_of_join, lines_of_split
from service.messages.words import WordsFault
from service.reference.captures import framed, little
from service.reference.encodings import split_tlvs, tlv
from service.reference.program import answer
from tools import EXAMPLES, ROOT

CALL = EXAMPLES / "telephone_call"
PLANT = (CALL / "run.txt").read_text().partition("---\n")[0]
MODEM, CMTS = "020000000001", "020000000000"
KEY = bytes(range(20))


def hexed(*pieces):
    """Returns hexadecimal without the blanks that separate its TLVs."""
    return "".join("".join(pieces).split())


# The worked call: G.711 with 20 ms, 232 bytes a packet with its DOCSIS header.
UP_PARAMETERS = "060106 0F0106 1004000001FF 130200E8 140400004E20 150400000320 160101"
UP = hexed("1823 01020001", UP_PARAMETERS)
DOWN_PARAMETERS = "060106 070105 0804000154A0 0904000005F2 0A04000154A0"
# Protocol 17, 10.0.1.5 port 5000 to 10.0.9.2 port 16384, and the other way.
UP_RULE = "0920 02020011 03040A000105 05040A000902 07021388 08021388 09024000 0A024000"
DOWN_RULE = "0920 02020011 03040A000902 05040A000105 07024000 08024000 09021388 0A021388"
REST = hexed("191C 01020002", DOWN_PARAMETERS, "162F 010101 03020001 050180 060101", UP_RULE, "172F 010102 03020002 050180 060101", DOWN_RULE)
KEY_NUMBER, DIGEST = "1F0104", "1B140B6279795672CB9959D847C64F553450AE18EC85"
REQUEST = "0F0007" + UP + REST + KEY_NUMBER + DIGEST
REPLY = hexed("10000700 180E 01020001 020400000101 03020101")
# SFID 257 and SID 257 are the program's; SFID 4097 and the classifiers 1 and 2 are the caller's.
WHOLE_UP = hexed("182D 01020001 020400000101 03020101", UP_PARAMETERS)
WHOLE_REST = hexed("1922 01020002 020400001001", DOWN_PARAMETERS, "1639 010101 02020001 03020001 040400000101 050180 060101", UP_RULE,
                   "1739 010102 02020002 03020002 040400001001 050180 060101", DOWN_RULE)
WHOLE = "10000700" + WHOLE_UP + WHOLE_REST + KEY_NUMBER
IDENTIFIERS = ("sfid=4097", "classifier=1,2")


def noted(lines_of, *words):
    """Returns the lines of split or join, and what it writes to standard error."""
    with contextlib.redirect_stderr(io.StringIO()) as errors:
        lines = list(lines_of(list(words)))
    return lines, errors.getvalue()


def split(text):
    lines, notes = noted(lines_of_split, text)
    return [line.partition("=")[2] for line in lines], notes


def join(*words):
    lines, notes = noted(lines_of_join, *words)
    return lines, notes


def parts(program, rest):
    return f"program={program}", f"rest={rest}"


def run(*lines):
    """Returns what the second implementation prints for a script."""
    status, output = answer(["run"], "\n".join([PLANT + "---", *lines, ""]).encode())
    assert status == 0, output
    return output.splitlines()


def reply_to(message):
    return run(f"M {MODEM} {message}")[0].split(" ")[2]


def dsx(*words, given=""):
    done = subprocess.run([ROOT / "service/dsx", *words], input=given, capture_output=True, text=True, timeout=60, check=False)
    return done.returncode, done.stdout, done.stderr


def tlvs(text, fixed):
    return split_tlvs(bytes.fromhex(text)[fixed:])


class WorkedCall(unittest.TestCase):
    def test_the_request_of_the_example(self):
        self.assertEqual((CALL / "request.hex").read_text(), REQUEST + "\n")
        digest = hmac.new(KEY, bytes.fromhex(REQUEST[2:-44]), "sha1").hexdigest().upper()
        self.assertEqual(REQUEST[-40:], digest)

    def test_there(self):
        self.assertEqual(split(REQUEST), (["0F0007" + UP, "0F0007" + REST + KEY_NUMBER + DIGEST], ""))

    def test_the_program_takes_its_part_alone(self):
        self.assertEqual(reply_to(REQUEST), "10000702")
        self.assertEqual(reply_to(split(REQUEST)[0][0]), REPLY)

    def test_back(self):
        lines, notes = join(*parts(*split(REQUEST)[0]), "reply=" + REPLY, *IDENTIFIERS)
        self.assertEqual(lines, ["unsigned=" + WHOLE])
        self.assertIn(f"over its {len(WHOLE) // 2 - 1} bytes after the type", notes)

    def test_back_with_a_digest(self):
        digest = hmac.new(KEY, bytes.fromhex(WHOLE)[1:], "sha1").hexdigest().upper()
        words = (*parts(*split(REQUEST)[0]), "reply=" + REPLY, *IDENTIFIERS, "hmac=" + digest)
        self.assertEqual(join(*words), (["modem=" + WHOLE + "1B14" + digest], ""))
        other = join(*words, "key=9")[0][0]
        self.assertEqual(other, "modem=" + WHOLE[:-2] + "09" + "1B14" + digest)

    def test_the_flow_of_the_reply_alone(self):
        """Without program= the upstream flow is as the program wrote it."""
        lines, _ = join("rest=" + split(REQUEST)[0][1], "reply=" + REPLY, *IDENTIFIERS)
        self.assertEqual(lines, ["unsigned=" + REPLY + WHOLE_REST + KEY_NUMBER])

    def test_a_repeat_gets_the_same_bytes(self):
        first, again = run(f"M {MODEM} {split(REQUEST)[0][0]}", f"M {MODEM} {split(REQUEST)[0][0]}")
        whole = {tuple(join(*parts(*split(REQUEST)[0]), "reply=" + line.split(" ")[2], *IDENTIFIERS)[0]) for line in (first, again)}
        self.assertEqual(whole, {("unsigned=" + WHOLE,)})


class Commands(unittest.TestCase):
    def test_arguments_and_standard_input(self):
        output = f"program=0F0007{UP}\nrest=0F0007{REST}{KEY_NUMBER}{DIGEST}\n"
        self.assertEqual(dsx("split", REQUEST), (0, output, ""))
        self.assertEqual(dsx("split", given=f"{REQUEST}\nM {MODEM} {REQUEST.lower()}\n"), (0, output * 2, ""))
        status, joined, _ = dsx("join", *output.split(), "reply=" + REPLY, *IDENTIFIERS)
        self.assertEqual((status, joined), (0, f"unsigned={WHOLE}\n"))
        self.assertEqual(dsx("join", given=output + f"reply={REPLY}\n{' '.join(IDENTIFIERS)}\n")[:2], (0, joined))

    def test_help(self):
        for command in ("split", "join"):
            status, output, errors = dsx(command, "--help")
            self.assertEqual((status, errors), (0, ""))
            for word in ("program=HEX", "sfid=N", "classifier=N,N..", "hmac=HEX", "unsigned=HEX"):
                self.assertIn(word, output)

    def test_bytes_that_are_none(self):
        self.assertEqual(dsx("split", "0F0"), (2, "", "dsx: 0F0: `0F0` is no hexadecimal of whole bytes\n"))
        self.assertEqual(dsx("join")[0], 2)

    def test_lines_that_come_one_by_one(self):
        with subprocess.Popen([ROOT / "service/dsx", "split"], stdin=subprocess.PIPE, stdout=subprocess.PIPE, stderr=subprocess.PIPE, text=True) as splitter:
            watch = threading.Timer(10, splitter.kill)
            watch.start()
            self.addCleanup(watch.cancel)
            splitter.stdin.write(f"M {MODEM} {REQUEST}\n")
            splitter.stdin.flush()
            self.assertEqual(splitter.stdout.readline(), f"program=0F0007{UP}\n")
            _, errors = splitter.communicate("0F\n\n0F0\n")
            self.assertEqual(errors.splitlines()[-1], "dsx: line 4: 0F0: `0F0` is no hexadecimal of whole bytes")
            self.assertEqual(splitter.returncode, 2)

    def test_a_full_device(self):
        done = subprocess.run(["bash", "-c", f"yes {REQUEST} | timeout 30 service/dsx split > /dev/full"], cwd=ROOT, capture_output=True, text=True,
                              timeout=60, check=False)
        self.assertEqual(done.stderr, "dsx: standard output cannot be written: No space left on device; the rest of the output is lost\n")
        self.assertEqual(done.returncode, 6)


class OtherRequests(unittest.TestCase):
    def test_a_request_without_a_rest(self):
        self.assertEqual(split("0F0007" + UP), (["0F0007" + UP, "-"], ""))
        self.assertEqual(join(*parts("0F0007" + UP, "-"), "reply=" + REPLY), (["modem=10000700" + WHOLE_UP], ""))

    def test_several_upstream_flows_all_go_to_the_program(self):
        second = "1823 01020003" + UP_PARAMETERS
        (program, rest), _ = split(hexed("0F0007", UP, "1600", second))
        self.assertEqual((program, rest), (hexed("0F0007", UP, second), "0F00071600"))
        self.assertEqual(reply_to(program), "10000713")
        self.assertEqual(join(*parts(program, rest), "reply=10000713")[0], ["modem=10000713"])

    def test_an_admitted_and_an_active_set(self):
        program = hexed("0F0007 180A 01020001 060102 0F0102 180A 01020001 060104 0F0102")
        (mine, rest), _ = split(program[:6] + "1F0103" + program[6:])
        self.assertEqual((mine, rest), (program, "0F00071F0103"))
        right = hexed("10000700 1814 01020001 020400000101 03020101 060102 0F0102 1814 01020001 020400000101 03020101 060104 0F0102 1F0103")
        self.assertEqual(join(*parts(mine, rest), "reply=" + reply_to(mine)), (["modem=" + right], ""))

    def test_no_upstream_flow(self):
        (program, rest), notes = split(hexed("0F0009 191C 01020002", DOWN_PARAMETERS))
        self.assertEqual((program, rest), ("-", hexed("0F0009 191C 01020002", DOWN_PARAMETERS)))
        self.assertIn("the program gets nothing", notes)
        whole = hexed("10000900 1922 01020002 020400001001", DOWN_PARAMETERS)
        self.assertEqual(join(*parts(program, rest), "sfid=4097"), (["modem=" + whole], ""))
        self.assertEqual(join(*parts(program, rest), "code=3")[0], ["modem=10000903"])
        self.assertIn("refuse it with code=21", split(hexed("0F0009 1904 01020002 170A 010101 03020001 050180"))[1])

    def test_a_request_of_nothing_goes_to_the_program(self):
        for message, rest in {"0F0009": "-", "0F00091F01042B00": "0F00091F01042B00"}.items():
            self.assertEqual(split(message), (["0F0009", rest], ""))
            self.assertEqual(reply_to("0F0009"), "10000908")
        self.assertEqual(join("program=0F0009", "rest=0F00091F01042B00", "reply=10000908"), (["modem=100009081F0104"], ""))

    def test_a_cut_message_goes_to_the_program(self):
        for end in (len(REQUEST) - 2, 8, 10, 40):
            (program, rest), notes = split(REQUEST[:end])
            self.assertEqual((program, rest), (REQUEST[:end], "-"))
            self.assertIn("cut", notes)
            self.assertEqual(reply_to(program), "10000701")

    def test_other_messages_go_to_the_program(self):
        for message in ("11000700", "150008000000000101", "0F00", "04AABB"):
            self.assertEqual(split(message)[0], [message, "-"])

    def test_no_tlv_is_lost(self):
        """The two parts have the TLVs of the message, each kind in its order."""
        message = hexed("0F0007 1600 1F0101", UP, "1700 2B03AABBCC 1A00", UP, "1900 2B00 1B00")
        program, rest = (tlvs(part, 3)[0] for part in split(message)[0])
        whole = tlvs(message, 3)[0]
        self.assertEqual((program, rest), ([it for it in whole if it[0] == 24], [it for it in whole if it[0] != 24]))


class Changes(unittest.TestCase):
    """A DSC-REQ: of classifiers, what the request adds gets an identifier. What it replaces or deletes has one, and is not in the reply."""

    RULE = "050140 0908 02020006 0A020050"
    REQUEST = hexed("120008 180C 020400000101 060106 0F0102",
                    "1619 010101 040400000101 070100", RULE, "161A 02020005 040400000101 070101", RULE, "170D 02020006 040400001001 070102",
                    "190C 020400001001 060106 070103")

    def test_there_and_back(self):
        (program, rest), notes = split(self.REQUEST)
        self.assertEqual((program, notes), (hexed("120008 180C 020400000101 060106 0F0102"), ""))
        whole = hexed("13000800 1810 020400000101 03020101 060106 0F0102 161D 010101 02020007 040400000101", self.RULE[:6], "070100", self.RULE[6:])
        reply = "reply=" + hexed("13000800 180A 020400000101 03020101")
        self.assertEqual(join(*parts(program, rest), reply, "classifier=7"), (["modem=" + whole], ""))

    def test_a_rule_without_an_action_is_added(self):
        program, rest = split(hexed("120008 1609 010101 040400000101"))[0]
        whole = hexed("13000800 160D 010101 02020007 040400000101")
        self.assertEqual(join(*parts(program, rest), "classifier=7"), (["modem=" + whole], ""))


class Refusals(unittest.TestCase):
    REFUSAL = hexed("10000717 180C 01020001 0506 010113 020117")

    def test_the_error_encodings_of_the_program_stay(self):
        lines, notes = join(*parts(*split(REQUEST)[0]), "reply=" + self.REFUSAL)
        self.assertEqual(lines, ["unsigned=" + self.REFUSAL + KEY_NUMBER])
        self.assertIn("refuses with code 23: nothing of the rest is in it; drop the rest", notes)
        self.assertNotIn("take it back", notes)

    def test_the_refusal_is_one_of_the_program(self):
        message = REQUEST.replace("130200E8", "13020000")
        self.assertEqual(reply_to(split(message)[0][0]), self.REFUSAL)

    def test_the_caller_refuses_what_the_program_accepted(self):
        program, rest = split(REQUEST)[0]
        lines, notes = join(*parts(program, rest), "reply=" + REPLY, "code=24")
        self.assertEqual(lines, ["unsigned=10000718" + KEY_NUMBER])
        undo = re.search("take it back by ([0-9A-F]+) in the modem's name", notes).group(1)
        self.assertEqual(undo, "11000718")
        again, own = program.replace("0F0007", "0F0008"), "11000700"
        self.assertEqual(run(*(f"M {MODEM} {message}" for message in (program, undo, own, again)))[1:],
                         [f"S {MODEM} UnknownAck", f"R {MODEM} {REPLY.replace('10000700', '10000800')}"])

    def test_what_split_notices(self):
        """A rest that no reply can have is noticed before the program gets its part."""
        for rest, code in {"160A 010101 03020009 050180": 21, "170A 010101 03020001 050180": 21, "1600": 21,
                           "1609 010101 040400000101": 21,
                           "1904 01020002 1904 01020003": 20, "1903 060106": 8, "1A07 03020001 080105": 22, "16020103": 1}.items():
            (program, _), notes = split(hexed("0F0007", UP, rest))
            self.assertEqual(program, "0F0007" + UP)
            self.assertRegex(notes, f"refuse .*with code={code}\\b.*; the program need not get its part", rest)
            with self.assertRaises(WordsFault, msg=rest):
                join(*parts(program, hexed("0F0007", rest)), "reply=" + REPLY, "sfid=4097", "classifier=1")

    def test_a_key_number_that_is_none(self):
        """The caller may give one in its place."""
        for wrong in ("1F020104", "1F00", "1F01041F0104"):
            words = (*parts("0F0007" + UP, "0F0007" + wrong), "reply=" + REPLY)
            with self.assertRaisesRegex(WordsFault, "is not one byte: give key=N"):
                join(*words)
            self.assertEqual(join(*words, "key=4"), (["modem=10000700" + WHOLE_UP + KEY_NUMBER], ""))

    def test_words_that_make_no_reply(self):
        program, rest = parts(*split(REQUEST)[0])
        for words, text in {
            (program, rest, *IDENTIFIERS): "join needs reply=", (program, "reply=" + REPLY): "join needs rest=",
            (program, rest, "reply=" + REPLY, "classifier=1,2"): "give it an SFID", (program, rest, "reply=" + REPLY, "sfid=4097"): "adds 2 classifiers",
            (program, rest, "reply=" + REPLY, "sfid=4097", "classifier=1"): "classifier=1,2", (program, rest, "reply=" + REPLY, "sfid=1", "classifier=0,1"): "not 0",
            (program, rest, "reply=" + REPLY.replace("100007", "100008"), *IDENTIFIERS): "rest=: it is a DSA-REQ of transaction 7, and reply= is a DSA-RSP of transaction 8",
            (program, rest, "reply=13" + REPLY[2:], *IDENTIFIERS): "reply= is a DSC-RSP", (program, rest, "reply=11000700", *IDENTIFIERS): "not a whole DSA-RSP or DSC-RSP",
            (program, rest, "reply=" + REPLY[:-2], *IDENTIFIERS): "its TLVs are cut", (program, rest, "reply=" + REPLY, *IDENTIFIERS, "hmac=AA"): "a digest has 20 bytes, this one 1",
            (program, rest, "reply=" + REPLY, *IDENTIFIERS, "phs=1"): "leave out phs=", (program, rest, "reply=" + REPLY, "sifd=1"): "no such word; there are reply=",
            (program, rest, "reply=10000703", "code=4"): "the program refuses already, with code 3", (program, program): "stands twice",
            ("rest=-", "program=-"): "join needs reply=", (program, rest, "reply=" + REPLY, *IDENTIFIERS, "key=256"): "not between 0 and 255",
        }.items():
            with self.assertRaises(WordsFault) as found:
                join(*words)
            self.assertIn(text, str(found.exception))

    def test_an_encoding_that_is_too_long(self):
        """The two identifiers take 10 bytes."""
        longest = hexed("0F0007", UP, "16F5 010101 03020001 2BEC") + "AA" * 236
        self.assertEqual(split(longest)[1], "")
        self.assertIn("16FF010101", join(*parts(*split(longest)[0]), "reply=" + REPLY, "classifier=1")[0][0])
        longer = hexed("0F0007", UP, "16F6 010101 03020001 2BED") + "AA" * 237
        self.assertRegex(split(longer)[1], "has 256 bytes with its identifiers, .*: refuse the request with code=1")


class RandomRequests(unittest.TestCase):
    """Whatever a modem sends, split gives two parts, and join a reply or what is wrong."""

    IDENTIFIERS_OF = {22: (2, 4), 23: (2, 4), 25: (2,), 26: (2, 4, 8)}

    def encoding(self, rng, kind):
        """Returns an encoding whose flow is mostly one of the request, with subtypes that may be of a wrong length or cut."""
        data = b"".join(tlv(subtype, rng.randbytes(rng.choice((1, 2, 4)))) for subtype in rng.choices((5, 6, 7, 9, 43), k=rng.randrange(3)))
        reference = bytes([0, 1 if kind in (22, 24) else 2])
        named = {22: tlv(1, b"\1") + tlv(3, reference), 23: tlv(1, b"\2") + tlv(3, reference), 26: tlv(1, b"\1") + tlv(3, b"\0\1"), 27: b"", 31: b"\4", 43: b""}
        data = named.get(kind, tlv(1, reference)) + (data if kind != 31 else b"")
        return tlv(kind, data if rng.randrange(12) else data[:rng.randrange(len(data) + 1)])

    def request(self, rng):
        kinds = [24, *rng.choices((22, 22, 23, 24, 25, 26, 27, 31, 43), k=rng.randrange(6))]
        data = bytes([rng.choice((15, 15, 18)), 0, 7]) + b"".join(self.encoding(rng, kind) for kind in kinds)
        return data if rng.randrange(12) else data[:rng.randrange(len(data) + 1)]

    def fields(self, kind, value):
        return sorted(it for it in split_tlvs(value)[0] if it[0] not in self.IDENTIFIERS_OF[kind])

    def replied(self, program, rest):
        """Returns the reply to a request that the program accepts, or None if join names what is wrong."""
        kinds = [kind for kind, _ in tlvs(rest, 3)[0]] if rest != "-" else []
        words = [f"{word}={','.join('9' * count)}" for word, count in
                 (("classifier", kinds.count(22) + kinds.count(23)), ("phs", kinds.count(26)), ("sfid", min(1, kinds.count(25)))) if count]
        try:
            return join(*parts(program, rest), "reply=" + REPLY, "hmac=" + "AA" * 20, *words)[0][0].removeprefix("modem=")
        except WordsFault:
            return None

    def test_there_and_back(self):
        rng, whole = random.Random(7), 0
        for _ in range(3000):
            message = self.request(rng)
            (program, rest), _ = split(message.hex().upper())
            if rest == "-":
                self.assertEqual(program, message.hex().upper() or "-")
                continue
            reply = self.replied(program, rest)
            if reply is not None and message[0] == 15:
                asked = [(kind, self.fields(kind, value)) for kind, value in tlvs(rest, 3)[0] if kind in self.IDENTIFIERS_OF]
                made = [(kind, self.fields(kind, value)) for kind, value in tlvs(reply, 4)[0] if kind in self.IDENTIFIERS_OF]
                self.assertEqual(sorted(made), sorted(asked), message.hex())
                self.assertEqual(tlvs(reply, 4)[0][-1][0], 27)
                whole += 1
        self.assertGreater(whole, 500)


class Suppression(unittest.TestCase):
    RULE = "1A0F 010101 03020001 0703FFFFFF 0A0103"

    def test_a_rule_gets_its_index(self):
        message = hexed("0F0007", UP, "160A 010101 03020001 050180", self.RULE)
        program, rest = split(message)[0]
        whole = hexed("10000700", WHOLE_UP, "1614 010101 02020007 03020001 040400000101 050180",
                      "1A1C 010101 02020007 03020001 040400000101 0703FFFFFF 080105 0A0103")
        self.assertEqual(join(*parts(program, rest), "reply=" + REPLY, "classifier=7", "phs=5"), (["modem=" + whole], ""))
        with self.assertRaisesRegex(WordsFault, "adds 1 payload header suppression rules: .* such as phs=1"):
            join(*parts(program, rest), "reply=" + REPLY, "classifier=7")


# What tshark has to read: for each message, lines of its tree.
FLOW_READ = [".15 Scheduling Type: Unsolicited Grant Service", ".19 Unsolicited Grant Size (bytes): 232", ".20 Nominal Grant Interval (usec): 20000",
             ".22 Grants Per Interval: 1"]
DOWN_READ = [".8 Maximum Sustained Traffic Rate (bps): 87200", ".10 Minimum Traffic Rate (bps): 87200"]
RULES_READ = ["..3 Source Address: 10.0.1.5", "..7 Source Port Start: 5000", "..4 Destination Address: 10.0.1.5", "..9 Dest Port Start: 5000"]
ENCODINGS_READ = ["24 Upstream Service Flow", "25 Downstream Service Flow", "22 Upstream Packet Classifier", "23 Downstream Packet Classifier"]


@unittest.skipUnless(shutil.which("tshark"), "tshark is not installed: nothing else read the messages")
class InTshark(unittest.TestCase):
    def read(self, text):
        """Returns the tree of a message, which must not be malformed and in which each TLV must have a name."""
        data = bytes.fromhex(text)
        ends = (MODEM, CMTS) if data[0] in (16, 19) else (CMTS, MODEM)
        frame = framed(*map(bytes.fromhex, ends), data[0], data[1:])
        file = little(0xA1B2C3D4, 4) + little(2, 2) + little(4, 2) + bytes(8) + little(65_541, 4) + little(143, 4)
        file += bytes(8) + little(len(frame), 4) * 2 + frame
        tree, faults = self.tshark(file, "-V"), self.tshark(file, "-T", "fields", "-e", "_ws.malformed", "-e", "_ws.expert.severity", "-e", "docsis.hcs.status")
        self.assertEqual(faults.split("\t"), ["", "", "1\n"], tree)
        self.assertNotIn("nknown", tree)
        return [line.strip() for line in tree.splitlines()]

    def tshark(self, file, *words):
        with tempfile.NamedTemporaryFile(suffix=".pcap") as capture:
            capture.write(file)
            capture.flush()
            return subprocess.run(["tshark", "-r", capture.name, *words], stdout=subprocess.PIPE, stderr=subprocess.DEVNULL, text=True, timeout=120, check=True).stdout

    def assert_reads(self, text, *wanted):
        tree = self.read(text)
        for line in wanted:
            self.assertTrue(any(found.startswith(line) for found in tree), (line, tree))
        return tree

    def test_the_worked_call(self):
        self.assert_reads(REQUEST, "DOCSIS Dynamic Service Addition Request", "Transaction ID: 7", *ENCODINGS_READ, *FLOW_READ, *DOWN_READ, *RULES_READ,
                          "31 Key Sequence Number: 04", "27 HMAC Digest: 0b6279795672cb9959d847c64f553450ae18ec85")
        program, rest = split(REQUEST)[0]
        self.assert_reads(program, "DOCSIS Dynamic Service Addition Request", ENCODINGS_READ[0], *FLOW_READ)
        self.assert_reads(rest, "DOCSIS Dynamic Service Addition Request", *ENCODINGS_READ[1:], *DOWN_READ, *RULES_READ)
        digest = hmac.new(KEY, bytes.fromhex(WHOLE)[1:], "sha1").hexdigest()
        whole = join(*parts(program, rest), "reply=" + REPLY, *IDENTIFIERS, "hmac=" + digest)[0][0].removeprefix("modem=")
        tree = self.assert_reads(whole, "DOCSIS Dynamic Service Addition Response", "Transaction ID: 7", "Confirmation Code: okay/success (0)",
                                 *ENCODINGS_READ, *FLOW_READ, *DOWN_READ, *RULES_READ, "31 Key Sequence Number: 04", f"27 HMAC Digest: {digest}")
        self.assertEqual([line for line in tree if re.match(r"\.\d+ (Service Flow (Ref|ID)|Service Id|Classifier)", line)], [
            ".1 Service Flow Ref: 1", ".2 Service Flow ID: 257", ".3 Service Identifier: 257", ".1 Service Flow Ref: 2", ".2 Service Flow ID: 4097",
            ".1 Classifier Ref: 1", ".2 Classifier ID: 1", ".3 Service Flow Ref: 1", ".4 Service Flow ID: 257",
            ".1 Classifier Ref: 2", ".2 Classifier ID: 2", ".3 Service Flow Ref: 2", ".4 Service Flow ID: 4097"])

    def test_a_change(self):
        program, rest = split(Changes.REQUEST)[0]
        self.assert_reads(Changes.REQUEST, "DOCSIS Dynamic Service Change Request", *ENCODINGS_READ)
        whole = join(*parts(program, rest), "reply=" + hexed("13000800 180A 020400000101 03020101"), "classifier=7")[0][0].removeprefix("modem=")
        self.assert_reads(whole, "DOCSIS Dynamic Service Change Response", ".2 Classifier ID: 7", ".2 Service Flow ID: 257")

    def test_refusals(self):
        for reply in (Refusals.REFUSAL, "10000703"):
            lines, _ = join(*parts(*split(REQUEST)[0]), "reply=" + reply, "hmac=" + "AA" * 20)
            self.assert_reads(lines[0].removeprefix("modem="), "DOCSIS Dynamic Service Addition Response", "31 Key Sequence Number: 04", "27 HMAC Digest: aaaa")

    def test_tshark_notices_what_is_wrong(self):
        with self.assertRaises(AssertionError):
            self.read(REQUEST[:-10])
        with self.assertRaises(AssertionError):
            self.read("0F0007" + UP + "630100")


if __name__ == "__main__":
    unittest.main()
