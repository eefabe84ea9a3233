"""Tests the command service/dsx: its errors, its streams, and how it marks the TLVs that the program refuses.

Where a mark has a code and a subtype, the second implementation has to reply with these.
"""

import resource
import subprocess
import threading
import unittest

from service.reference.program import answer
from tools import EXAMPLES, ROOT

DSX = ROOT / "service/dsx"
PLANT = (EXAMPLES / "plant_p2.toml").read_text()
FLOW = "180A010200010601060F0102"
# A command needs less memory than this. What reads an endless input as a whole needs more.
MOST_MEMORY = 300_000_000
SCHEDULING_TYPES = "be (best effort), nrtps (non-real-time polling), rtps (real-time polling), ugs (unsolicited grant)"


def limit_memory():
    resource.setrlimit(resource.RLIMIT_AS, (MOST_MEMORY, MOST_MEMORY))


def dsx(*words, given="", **options):
    done = subprocess.run([DSX, *words], input=given, capture_output=True, text=True, timeout=60, check=False, **options)
    return done.returncode, done.stdout, done.stderr


def in_shell(command):
    """Returns the statuses of a pipeline's commands, its output and its errors. The last line of the errors has the statuses."""
    text = f'unset PYTHONUNBUFFERED\n{command}\necho "${{PIPESTATUS[*]}}" >&2'
    done = subprocess.run(["bash", "-c", text], cwd=ROOT, capture_output=True, text=True, timeout=60, check=False, preexec_fn=limit_memory)
    errors = done.stderr.splitlines()
    return errors[-1].split(), done.stdout, errors[:-1]


class Errors(unittest.TestCase):
    def assert_error(self, words, *texts):
        status, output, errors = dsx(*words.split(" "))
        self.assertEqual((status, output), (2, ""), words)
        self.assertEqual(len(errors.splitlines()), 1, errors)
        for text in texts:
            self.assertIn(text, errors)

    def test_a_name_that_is_meant(self):
        for word, meant in {"voice": "ugs (", "BE": "be (", "best-effort": "be (", "rtp": "rtps (", "real-time": "rtps (", "usg": "ugs ("}.items():
            self.assert_error(f"dsa tid=1 type={word}", f"type={word}: no such scheduling type; the nearest is {meant}", f"there are {SCHEDULING_TYPES}")
        self.assert_error("flow set=active", "no such set type; the nearest is 4 (active); there are 0 (no set), 1 (provisioned)")
        self.assert_error("dsa-rsp tid=1 code=not-owner", "no such confirmation code; the nearest is 5 (reject-not-owner); there are 0 (okay)")

    def test_all_names_if_none_is_near(self):
        self.assert_error("dsa tid=1 type=xyzzy", f"type=xyzzy: no such scheduling type; there are {SCHEDULING_TYPES}")
        self.assert_error("dsa tid=1 prioritty=1", "the nearest is priority; there are ref, sfid, ")
        self.assert_error("raed 00", "no such message or command; the nearest is read; there are dsa, ")

    def test_values_that_are_missing(self):
        self.assert_error("dsa tid=1 policy", "policy: it has no value; write policy=NUMBER")
        self.assert_error("dsa tid=1 error=9", "error=9: an error is SUBTYPE/CODE")
        self.assert_error("read", "read needs hexadecimal")
        self.assert_error("lines now", "lines takes no words, and not now")

    def test_a_long_word_is_shortened(self):
        errors = dsx("dsa", "tid=1", "size=" + "9" * 90_000)[2]
        self.assertIn("(90000 characters)", errors)
        self.assertLess(len(errors), 300)

    def test_a_line_of_a_script(self):
        status, output, errors = dsx("script", given="---\nT\nM 020000000001 dsa tid=1 type=voice\nT\n")
        self.assertEqual((status, output), (2, "---\nT\n"))
        self.assertIn("dsx: line 3: type=voice: ", errors)


class Streams(unittest.TestCase):
    """Each command has less memory than an input without an end."""

    def test_a_full_device(self):
        for command in ("lines", "script", "names", f"read 0F0001{FLOW}", "dsa tid=1", "--help", f"read 0F0001{FLOW} XX"):
            statuses, output, errors = in_shell(f"yes 'M 020000000001 0F0001{FLOW}' | timeout 30 service/dsx {command} > /dev/full")
            self.assertEqual((statuses[1], output), ("6", ""), command)
            self.assertEqual(errors, ["dsx: standard output cannot be written: No space left on device; the rest of the output is lost"])

    def test_a_reader_that_leaves(self):
        for command, first in {"lines": f"M 020000000001 0F0001{FLOW}", "script": f"M 020000000001 0F0001{FLOW}"}.items():
            statuses, output, errors = in_shell(f"yes 'M 020000000001 0F0001{FLOW}' | timeout 30 service/dsx {command} | head -1")
            self.assertEqual((statuses[1], output.splitlines()), ("6", [first]), command)
            self.assertEqual(errors, ["dsx: the reader of standard output has left: the rest of the output is lost"])

    def test_a_reader_that_takes_what_it_wants(self):
        self.assertEqual(in_shell("service/dsx names | head -1"), (["0", "0"], "ref=           1  Service Flow Reference\n", []))

    def test_closed_streams(self):
        self.assertEqual(in_shell("service/dsx names >&-"), (["6"], "", ["dsx: standard output is closed: all output is lost"]))
        self.assertEqual(in_shell("service/dsx lines <&-"), (["6"], "", ["dsx: standard input is closed: give it a file or a pipe"]))

    def test_inputs_without_an_end(self):
        for command in ("lines", "script"):
            statuses, _, errors = in_shell(f"timeout 20 tr '\\0' x < /dev/zero | timeout 20 service/dsx {command} > /dev/null")
            self.assertEqual((statuses[1], errors), ("6", ["dsx: line 1 has more than 1048576 characters, which no input of the program has"]))
        statuses, output, errors = in_shell("timeout 20 yes '# of a plant file or of a script' | timeout 20 service/dsx script")
        self.assertEqual((statuses[1], output, errors), ("6", "", ["dsx: the first 1048576 characters of the input are comments"]))

    def test_a_line_is_copied_when_it_comes(self):
        with subprocess.Popen([DSX, "lines"], stdin=subprocess.PIPE, stdout=subprocess.PIPE, text=True) as copier:
            watch = threading.Timer(10, copier.kill)
            watch.start()
            self.addCleanup(watch.cancel)
            copier.stdin.write("R 020000000001 10000103\n")
            copier.stdin.flush()
            self.assertEqual([copier.stdout.readline() for _ in range(2)], ["R 020000000001 10000103\n", "  dsa-rsp tid=1 code=3\n"])
            copier.stdin.close()
            self.assertEqual(copier.wait(30), 0)

    def test_bytes_that_are_no_text(self):
        done = subprocess.run([DSX, "lines"], input=b"\xff\xfe\r\n", capture_output=True, timeout=60, check=False)
        self.assertEqual((done.returncode, done.stdout, done.stderr), (0, b"\xff\xfe\r\n", b""))

    def test_scripts_with_and_without_a_plant(self):
        """The plant file is copied as it is, even with comments in front. A script of `one` has none."""
        plant = "# a channel\n\n[plant] # kept\n  indented = 1\n"
        self.assertEqual(dsx("script", given=plant), (0, plant, ""))
        self.assertEqual(dsx("script", given=plant + "---\n# gone\ndsd tid=1 sfid=1\n"), (0, plant + "---\n150001000000000001\n", ""))
        self.assertEqual(dsx("script", given="# gone\n\n  gone\ndsd tid=1 sfid=1 # gone\n-\n"), (0, "150001000000000001\n-\n", ""))
        self.assertEqual(dsx("script", given="plant.frame_us = 1 # kept\n---\nT\n"), (0, "plant.frame_us = 1 # kept\n---\nT\n", ""))
        self.assertEqual(dsx("script", given="# gone\n"), (0, "", ""))


REFUSED = "  <- refused: check "
# A request, the bytes of the TLV that is marked, the check, the code, and the subtype that the reply names.
MARKED = (
    ("0F0001" + FLOW + "160401010103", "160401010103", 4, 2, None), ("0F0001" + FLOW + "1700", "1700", 4, 2, None),
    ("0F0001" + FLOW + "190401020002", "190401020002", 4, 2, None), ("0F0001" + FLOW + "1A03010101", "1A03010101", 4, 2, None),
    ("0F0001180B01020001060106" + "0F020202", "0F020202"[:8], 4, 2, 15), ("0F0001180A01020001060106070108", "070108", 4, 23, 7),
    ("0F0001180D010200010601060F01020F0102", "0F0102", 4, 23, 15), ("0F0001180801020001060106" + "0F", "0F", 4, 1, None),
    ("0F00011807010200010601" + "03", "060103", 13, 23, 6), ("0F000118040102" + "0001", "1804", 13, 8, 6),
    ("0F0001180A010200010601060F0105", "0F0105", 14, 23, 15), ("0F0001180A010200010601060F0104", "180A", 14, 8, 17),
    ("0F0001180A010200010601060F0104" + "1104000007D0", "180A", 14, 8, 17),
    ("0F00011810010200010601060F0104110400000000", "110400000000", 14, 23, 17),
    ("0F00011817010200010601060F0106130200001404000007D0160101", "13020000", 14, 23, 19),
    ("0F00011817010200010601060F0106130200401404000007D0160180", "160180", 14, 23, 22),
    ("0F00011807010200010601" + "02" + "180A010200010601040F0106", "180A", 14, 8, 19),
)
# Requests that have no mark, and the check that decides.
UNMARKED = {"0F0001" + FLOW: None, "0F0001": 6, "0F000118070102000106010218070102000206010" + "4": 7, "0F0001180401020001180401020001": 8,
            "0F00011803060106": 9, "0F8000": 1, "0F80001600": 1}


class Marks(unittest.TestCase):
    def read(self, message):
        status, output, errors = dsx("read", message)
        self.assertEqual((status, errors), (0, ""))
        return output.splitlines()

    def reply(self, message):
        """Returns the code and the errored parameter of the reply of the second implementation."""
        status, output = answer(["run"], f"{PLANT}---\nM 020000000001 {message}\n".encode())
        self.assertEqual(status, 0)
        data = bytes.fromhex(output.split()[2])
        errors = data[4:].rpartition(bytes.fromhex("0506"))[2] if data[4:] else b""
        return data[3], errors[2] if data[4:] else None

    def test_each_refusal(self):
        for message, tlv, check, code, subtype in MARKED:
            marked = [line for line in self.read(message) if REFUSED in line]
            self.assertEqual([line.split()[0] for line in marked], [tlv], message)
            named = "naming no subtype" if subtype is None else f"naming subtype {subtype}"
            self.assertRegex(marked[0], rf"{REFUSED}{check}, code {code} \(reject-[a-zA-Z-]+\), {named}$")
            self.assertEqual(self.reply(message), (code, subtype), message)

    def test_no_refusal(self):
        for message, check in UNMARKED.items():
            lines = self.read(message)
            self.assertFalse([line for line in lines if REFUSED in line], message)
            self.assertTrue(lines[-1].startswith("nothing" if check is None else f"check {check}: "), lines[-1])

    def test_each_tlv_that_is_left_out(self):
        lines = self.read("0F0001" + "1600" + FLOW + "1700" + "1900" + "1A00" + "1B00" + "1F00" + "2B00")
        self.assertEqual([line.split()[0] for line in lines if REFUSED in line], ["1600", "1700", "1900", "1A00"])
        self.assertEqual(lines[-1], "check 4: code 2 (reject-unrecognized-configuration-setting)")
        for name in ("upstream classifier", "downstream classifier", "downstream flow", "payload header suppression"):
            self.assertEqual(len([line for line in lines if f"({name}), 0 bytes  <-" in line]), 1, name)

    def test_replies_and_classes(self):
        """A reply is not judged. A class may give what an encoding lacks."""
        self.assertFalse([line for line in self.read("100001021600") if REFUSED in line])
        self.assertFalse([line for line in self.read("0F0001180F010200010403676F00" + "0601060F0106") if REFUSED in line])


if __name__ == "__main__":
    unittest.main()
