"""Tests service/messages/words.py: words and bytes typed from docs/FORMATS.md, and each fault by its text. Every message in the repository, in
the inputs of tools/run compare/handwritten_inputs and in generated cases, with its replies, and random bytes are translated to words and back.
"""

import random
import re
import subprocess
import unittest

from service.messages.verdicts import first_fault
from service.messages.words import WordsFault, bytes_of_flow, bytes_of_message, parts_of_flow, parts_of_message, words_of
from service.reference.encodings import LENGTHS, tlv
from service.reference.messages import FIXED_PART, NoAnswer, read_header
from service.reference.program import answer
from tools import EXAMPLES, ROOT
from tools.compare.handwritten_inputs import all_inputs
from tools.generator.case import case

CASES = 30
TYPED = {
    "dsa tid=1 ref=1 set=6 type=be": "0F0001180A010200010601060F0102",
    "dsa tid=2 ref=1 set=2 flow ref=1 set=4": "0F0002180701020001060102180701020001060104",
    "dsa tid=3 ref=1 set=6 type=ugs size=64 interval=2000 grants=2": "0F00031817010200010601060F0106130200401404000007D0160102",
    "dsa tid=4 ref=65535 class=gold set=2": "0F0004180E0102FFFF0405676F6C6400060102",
    "dsa tid=5 ref=1 set=6 type=rtps polling=4000 poll-jitter=1 reserved=64000 sustained=0 burst=1522 priority=7 policy=256":
        "0F00051831010200010601060F0104110400000FA01204000000010A040000FA000804000000000904000005F2070107100400000100",
    "dsa tid=6": "0F0006",
    "dsa tid=7 flow": "0F00071800",
    "dsa tid=8 tlv22= ref=1 15=0200 cut=07 tlv43=01 rest=18": "0F000816001809010200010F020200072B010118",
    "dsa-rsp tid=1 code=0 ref=1 sfid=257 sid=257": "10000100180E0102000102040000010103020101",
    "dsa-rsp tid=2 code=23 ref=9 error=7/23": "10000217180C010200090506010107020117",
    "dsa-ack tid=1 code=0": "11000100",
    "dsc tid=65535 sfid=257 set=0": "12FFFF1809020400000101060100",
    "dsc-rsp tid=2 code=0 sfid=257": "130002001806020400000101",
    "dsc-ack tid=2 code=255 rest=00": "140002FF00",
    "dsd tid=3 sfid=257": "150003000000000101",
    "dsd tid=3 unused=258 sfid=1 rest=FF": "150003010200000001FF",
    "dsd-rsp tid=3 code=6": "1600030600",
}
FAULTS = {
    "": "no word: no such message; there are dsa,", "dsb tid=1": "dsb: no such message; the nearest is dsd", "dsa ref=1": "dsa: needs tid=",
    "dsd tid=1": "dsd: needs sfid=", "dsa tid=65536": "tid=65536: 65536 is not between 0 and 65535", "dsa tid=1 tid=2": "tid=2: `tid` stands twice",
    "dsa tid=1 prioritty=1": "prioritty=1: no such field; the nearest is priority", "dsa tid=1 ref=0": "ref=0: Service Flow Reference does not take that",
    "dsa tid=1 priority=8": "priority=8: Traffic Priority does not take that; 7=08 gives it", "dsa tid=1 size=x": "size=x: `x` is no number",
    "dsa tid=1 ref=1 ref=2": "ref=2: `ref` stands twice", "dsa-ack tid=1 ref=1": "ref=1: dsa-ack takes no such word",
    "dsa tid=1 class=abcdefghijklmnop": "class=abcdefghijklmnop: a Service Class Name has 2 to 16 bytes, this one 17",
    "dsa tid=1 15=2": "15=2: `2` is no hexadecimal of whole bytes", "dsa tid=1 256=00": "256=00: 256 is not between 0 and 255",
    "dsa tid=1 tlv256=": "tlv256=: 256 is not between 0 and 255", "dsa tid=1 99=" + "00" * 254: "99=",
}
OF_BYTES = {"": "Empty: there is no byte", "17": "NotOurs: the type is 23", "0F00": "Short: a DSA-REQ has 2 bytes behind its type, this one 1",
            "16000100": "Short: a DSD-RSP has 4 bytes behind its type, this one 3"}
FIRST_FAULTS = {
    "0F0001180A010200010601060F0102": None, "11FFFF00": None, "0F8000": "check 1: the transaction ID is of the CMTS's own half, code 10",
    "158000000000000001": "check 1: the transaction ID is of the CMTS's own half, code 10", "": "check 0: Empty", "10000100": "check 0: NotOurs", "0F00": "check 0: Short",
    "0F00011805": "check 4: code 1 (reject-other)", "0F00011600": "check 4: code 2 (reject-unrecognized-configuration-setting)",
    "0F00011807010200090701" + "08": "check 4: code 23 (reject-parameter-invalid-for-context) naming subtype 7 of the encoding with reference 9",
    "1200011809070108020400000101": "check 4: code 23 (reject-parameter-invalid-for-context) naming subtype 7",
}


def of_repository():
    """Yields the hexadecimal texts of the repository's documents, examples and tests that begin as a message does."""
    places = [ROOT / "README.md", *ROOT.glob("docs/*.md"), *ROOT.glob("examples/**/*.*"), *ROOT.glob("tests/*.txt"), *ROOT.glob("crates/test_*/src/**/*.rt")]
    for place in places:
        yield from re.findall(r"\b(?:0F|1[0-6])(?:[0-9A-Fa-f]{2}){2,}\b", place.read_text())


def of_runs():
    """Yields the messages of crafted and of generated inputs, and the replies to them."""
    cases = [(words, data) for _, words, data in all_inputs()] + [case(seed) for seed in range(CASES)]
    for words, data in cases:
        text = data.decode(errors="replace") + "\n" + answer(words, data)[1]
        yield from re.findall(r"^[MR] [0-9A-Fa-f]{12} ((?:[0-9A-Fa-f]{2})+)$", text, re.MULTILINE)
        if words == ["one"]:
            yield from re.findall(r"^(?:[0-9A-Fa-f]{2})+$", text, re.MULTILINE)


class Words(unittest.TestCase):
    def test_typed(self):
        for words, text in TYPED.items():
            self.assertEqual(bytes_of_message(words.split()).hex().upper(), text, words)
            self.assertEqual(" ".join(words_of(parts_of_message(bytes.fromhex(text)))), words)

    def test_other_spellings(self):
        self.assertEqual(bytes_of_message("dsa flow tid=0x10 ref=0x1 set=6 type=2".split()), bytes_of_message("dsa tid=16 ref=1 set=6 type=be".split()))
        self.assertEqual(bytes_of_message("dsa-ack tid=1".split()), bytes.fromhex("11000100"))

    def test_faults(self):
        for words, text in FAULTS.items():
            with self.assertRaises(WordsFault) as found:
                bytes_of_message(words.split())
            self.assertTrue(str(found.exception).startswith(text), (words, str(found.exception)))
        for data, text in OF_BYTES.items():
            with self.assertRaises(WordsFault) as found:
                parts_of_message(bytes.fromhex(data))
            self.assertTrue(str(found.exception).startswith(text), (data, str(found.exception)))

    def test_first_faults(self):
        for data, text in FIRST_FAULTS.items():
            self.assertEqual(first_fault(bytes.fromhex(data)), text, data)

    def there_and_back(self, data):
        """Checks that the words of a message give its bytes, and that its parts are all of them."""
        parts = parts_of_message(data)
        self.assertEqual(b"".join(part.data for part in parts), data)
        self.assertEqual(bytes_of_message(" ".join(words_of(parts)).split()), data)

    def test_there_and_back(self):
        texts = {text.upper() for text in [*of_repository(), *of_runs()]}
        read = 0
        for data in map(bytes.fromhex, texts):
            try:
                self.there_and_back(data)
                read += 1
            except WordsFault as fault:
                self.assertTrue(str(fault).startswith(("NotOurs", "Short")), (data.hex(), str(fault)))
                self.assertTrue(data[0] not in FIXED_PART or self.is_unanswered(data), data.hex())
        self.assertGreater(read, 500)

    def test_there_and_back_of_random_bytes(self):
        rng = random.Random(5)
        for _ in range(1500):
            tlvs = b"".join(tlv(rng.choice((24, 24, 24, 22, 43)), self.random_flow(rng)) for _ in range(rng.randrange(4)))
            data = bytes([rng.choice((15, 16, 18, 19))]) + rng.randbytes(3) + tlvs
            self.there_and_back(data[:rng.randrange(4, len(data) + 1)])
        for _ in range(500):
            self.there_and_back(bytes([rng.randrange(15, 23)]) + rng.randbytes(rng.randrange(8, 40)))

    def random_flow(self, rng):
        """Fields of known and unknown subtypes, mostly of the right length, at times twice or out of range."""
        subtypes = rng.choices([*LENGTHS, 99], k=rng.randrange(5))
        return b"".join(tlv(subtype, rng.randbytes(rng.choice((*LENGTHS.get(subtype, (3, 3)), rng.randrange(5))))) for subtype in subtypes)

    def is_unanswered(self, data):
        try:
            read_header(data)
            return False
        except NoAnswer:
            return True

    def test_encodings(self):
        for text in ("060107", "0601070F0102", "0407676F6C640000", "99", "", "07010708"):
            data = bytes.fromhex(text)
            self.assertEqual(bytes_of_flow(words_of(parts_of_flow(data))), data)

    def dsx(self, *words, given=""):
        done = subprocess.run([ROOT / "service/dsx", *words], input=given, capture_output=True, text=True, check=False)
        return done.returncode, done.stdout, done.stderr

    def test_tool(self):
        self.assertEqual(self.dsx("dsa", "tid=1", "ref=1", "set=6", "type=be"), (0, "0F0001180A010200010601060F0102\n", ""))
        self.assertEqual(self.dsx("flow", "set=7"), (0, "060107\n", ""))
        self.assertEqual(self.dsx("words", "flow", "060107", "-"), (0, "set=7\n-\n", ""))
        self.assertEqual(self.dsx("dsa"), (2, "", "dsx: dsa: needs tid=\n"))
        status, printed, _ = self.dsx("read", "0F0001180A010200010601060F0103")
        self.assertEqual((status, printed.splitlines()[0], printed.splitlines()[-3]),
                         (0, "dsa tid=1 ref=1 set=6 type=nrtps", "  0F0103                            Scheduling Type 3 (non-real-time polling)"))

    def test_copies(self):
        for name in ("two_operators.txt", "first_flow.txt", "other_slices.txt"):
            text = (EXAMPLES / name).read_text()
            self.assertEqual(self.dsx("script", given=self.dsx("lines", given=text)[1])[1], text)
        self.assertEqual(self.dsx("script", given="[plant] # kept\n---\nM 020000000001 dsa-ack tid=1 # it thanks\n\n  dropped\nT # x\n")[1],
                         "[plant] # kept\n---\nM 020000000001 11000100\nT\n")
