"""Tests the second implementation with values typed from the tables of docs/FORMATS.md and docs/RULES.md."""

import unittest

from service.reference.captures import captured, header_sum
from service.reference.encodings import FlowFault, read_flow
from service.reference.plant import PlantFault, read_plant
from service.reference.program import answer
from service.reference.schedule import rank_of
from service.reference.sets import NoSet, first_failing, need_of, parameter_set
from service.reference.traces import fixed, traced
from tools import EXAMPLES

P2 = (EXAMPLES / "plant_p2.toml").read_text()
A1 = "020000000001"


def lines(words, *script, plant=P2):
    """Returns the status and the lines of a plant and a script."""
    status, text = answer(words.split(" "), (plant + "---\n" + "".join(f"{line}\n" for line in script)).encode())
    return status, text.splitlines()


def one(*messages):
    return answer(["one"], "\n".join(messages).encode())[1].splitlines()


def plant_with(**keys):
    """Returns the plant of two operators with other values of keys of the table `plant`, or None for a key left out."""
    kept = [line for line in P2.splitlines() if line.split(" = ")[0] not in keys]
    stated = [f"{key} = {value}" for key, value in keys.items() if value is not None]
    return "\n".join([kept[0], *stated, *kept[1:]]) + "\n"


def fault(text):
    try:
        read_plant(text)
        return None
    except PlantFault as found:
        return f"{found.number} {found.detail}".strip()


class FlowEncodings(unittest.TestCase):
    LENGTHS = {1: 2, 2: 4, 3: 2, 5: 6, 6: 1, 7: 1, 8: 4, 9: 4, 10: 4, 15: 1, 16: 4, 17: 4, 18: 4, 19: 2, 20: 4, 21: 4, 22: 1}

    def of(self, text):
        try:
            return read_flow(bytes.fromhex(text))
        except FlowFault as found:
            return found.kind, found.subtype

    def test_lengths(self):
        for subtype, length in self.LENGTHS.items():
            good = bytes.fromhex("010107020118") if subtype == 5 else b"\x01" * length
            self.assertIn(subtype, read_flow(bytes([subtype, length]) + good))
            for wrong in (length - 1, length + 1):
                with self.assertRaises(FlowFault) as found:
                    read_flow(bytes([subtype, wrong]) + b"\x01" * wrong)
                self.assertEqual((found.exception.kind, found.exception.subtype), ("wrong length", subtype))

    def test_class_names(self):
        self.assertEqual(self.of("04024100"), {4: b"A"})
        self.assertEqual(self.of("0410" + "41" * 15 + "00"), {4: b"A" * 15})
        for text, kind in (("0411" + "41" * 16 + "00", "wrong length"), ("040100", "wrong length"), ("04024141", "out of range"),
                           ("0403410000", "out of range"), ("04020000", "out of range")):
            self.assertEqual(self.of(text), (kind, 4))

    def test_ranges(self):
        for text, subtype in (("01020000", 1), ("020400000000", 2), ("070108", 7), ("0506010207020117", 5), ("0506010107020217", 5)):
            self.assertEqual(self.of(text), ("out of range", subtype))
        self.assertEqual(self.of("070107" + "0F01FF" + "0302FFFF"), {7: 7, 15: 255, 3: 65_535})

    def test_first_fault(self):
        self.assertEqual(self.of("0701080601"), ("out of range", 7))
        self.assertEqual(self.of("07010107010807"), ("twice", 7))
        self.assertEqual(self.of("0701010702080807"), ("wrong length", 7))
        self.assertEqual(self.of("07010107020800"), ("wrong length", 7))
        self.assertEqual(self.of("0702"), ("cut", None))
        self.assertEqual(self.of("07"), ("cut", None))
        self.assertEqual(self.of("0B000B000B03FFFFFF"), {})


class ParameterSets(unittest.TestCase):
    plant = read_plant(P2)

    def of(self, stated):
        try:
            return parameter_set(stated, 2000)
        except NoSet as refused:
            return refused.code, refused.subtype

    def test_required(self):
        self.assertEqual(self.of({15: 4}), (8, 17))
        self.assertEqual(self.of({15: 6}), (8, 19))
        self.assertEqual(self.of({15: 6, 19: 1}), (8, 20))
        self.assertEqual(self.of({15: 6, 19: 1, 20: 2000}), (8, 22))
        for other in (0, 1, 5, 7, 255):
            self.assertEqual(self.of({15: other}), (23, 15))

    def test_ranges(self):
        self.assertEqual(self.of({15: 4, 17: 1999}), (23, 17))
        self.assertEqual(self.of({15: 6, 19: 0, 20: 2000, 22: 1}), (23, 19))
        self.assertEqual(self.of({15: 6, 19: 1, 20: 1999, 22: 0}), (23, 20))
        self.assertEqual(self.of({15: 6, 19: 1, 20: 2000, 22: 128}), (23, 22))
        self.assertEqual(self.of({15: 6, 19: 1, 20: 2000, 22: 127})[22], 127)
        self.assertEqual(self.of({17: 5})[17], 0)

    def test_defaults(self):
        self.assertEqual(self.of({})[15], 2)
        self.assertEqual(self.of({15: 3})[17], 1_000_000)
        self.assertEqual(self.of({15: 6, 19: 1, 20: 2000, 22: 1, 10: 9})[10], 0)

    def test_need(self):
        def need(**stated):
            return need_of(self.of({int(key[1:]): value for key, value in stated.items()}), self.plant)
        self.assertEqual(need(s15=2), (0, 2))
        self.assertEqual(need(s15=2, s10=64_000), (1, 2))
        self.assertEqual(need(s15=2, s10=64_001), (2, 2))
        self.assertEqual(need(s15=3), (1, 3))
        self.assertEqual(need(s15=4, s17=2000, s10=128_000), (3, 3))
        self.assertEqual(need(s15=6, s19=17, s20=2000, s22=3), (6, 3))
        self.assertEqual(need_of(None, self.plant), (0, 0))

    def test_within(self):
        polled = {15: 4, 7: 3, 8: 100, 10: 50, 17: 4000}
        granted = {15: 6, 19: 32, 20: 4000, 22: 2}
        for base, change, failing in (
                (polled, {}, None), (polled, {15: 3}, 15), (polled, {7: 4}, 7), (polled, {8: 101}, 8), (polled, {8: 0}, 8),
                (polled, {8: 99}, None), (polled, {10: 51}, 10), (polled, {17: 3999}, 17), (polled, {17: 4001}, None),
                (polled, {9: 5, 16: 6, 18: 7}, None), (polled, {7: 4, 10: 51}, 7), (granted, {19: 33}, 19), (granted, {20: 3999}, 20),
                (granted, {22: 3}, 22), (granted, {22: 1, 21: 9}, None)):
            self.assertEqual(first_failing(self.of(base | change), self.of(base)), failing)
        self.assertIsNone(first_failing(self.of(polled), self.of(polled | {8: 0})))
        self.assertIsNone(first_failing(None, self.of(polled)))


class Ranks(unittest.TestCase):
    def test_ranks(self):
        self.assertEqual(rank_of("strict", 1, 7, 300, 9), 56)
        self.assertEqual(rank_of("aged", 5, 3, 14, 9), 26)
        self.assertEqual(rank_of("aged", 1, 7, 9, 9), 63)
        self.assertEqual(rank_of("aged", 255, 0, 10_000, 9), 1)
        self.assertEqual(rank_of("short", 1, 7, 300, 63), 63)
        self.assertEqual(rank_of("short", 1, 7, 300, 64), 62)
        self.assertEqual(rank_of("short", 1, 7, 300, 65_535), 0)


class Messages(unittest.TestCase):
    def test_first_faults(self):
        self.assertEqual(one("-", "10", "0F00", "110001", "15000000000000"), ["S Empty", "S NotOurs", "S Short", "S Short", "S Short"])
        self.assertEqual(one("0F0001180501" + "1700"), ["10000101"])
        self.assertEqual(one("0F00011700" + "18030701FF"), ["10000102"])
        self.assertEqual(one("0F00011701"), ["10000101"])

    def test_refusals_name_what_stood_before(self):
        self.assertEqual(one("0F0001180701020009070108"), ["10000117180C010200090506010107020117"])
        self.assertEqual(one("0F0001180707010801020009"), ["100001171808" + "0506010107020117"])

    def test_transaction_identifiers(self):
        self.assertEqual(one("0FFFFF", "128000", "158000" + "00" * 6), ["10FFFF0A", "1380000A", "1680000A00"])

    def test_kept(self):
        add = "0F0001180A010200010601060F0102"
        printed = "10000100180E0102000102040000010103020101"
        self.assertEqual(one(add, "0F0001", "120001", "11000100", "0F0001", "11000100"), [printed, printed, "S TidInUse", printed, "S UnknownAck"])


class Timers(unittest.TestCase):
    def test_sent_again_and_given_up(self):
        plant = plant_with(ack_wait=2, resends=1, hold=3)
        status, printed = lines("run", f"M {A1} 0F000118070102000106010" + "2", *["T A"] * 4, f"Q {A1} 257 1", f"M {A1} 0F0001", plant=plant)
        self.assertEqual(status, 0)
        reply = f"R {A1} 10000100180E0102000102040000010103020101"
        self.assertEqual([line for line in printed if line[0] != "F"], [reply, reply, f"S {A1} NoSuchSid", f"R {A1} 10000108"])

    def test_held_and_forgotten(self):
        plant = plant_with(ack_wait=2, resends=1, hold=3)
        printed = lines("run", f"M {A1} 0F0001", "T A", "T A", f"M {A1} 150001" + "00" * 6, "T A", f"M {A1} 150001" + "00" * 6, plant=plant)[1]
        self.assertEqual([line for line in printed if line[0] != "F"], [f"R {A1} 10000108", f"S {A1} TidInUse", f"R {A1} 1600010600"])


class Scripts(unittest.TestCase):
    def test_a_map(self):
        printed = lines("run", "T")[1]
        self.assertEqual(printed, ["F A 0 0/6/8/32", "F B 0 0/6/40/32",
                                "MAP 0 01010400000000000000000000000000FFFC400000018008000180280001C048"])

    def test_lines_at_fault(self):
        for line in ("t", "T ", "T C", f"M {A1}", f"M {A1} 0", f"M {A1[:-1]} -", f"M {A1}  -", f"Q {A1} 1", f"Q {A1} 65536 1", f"Q {A1} 000001 1",
                     "Z 1 8/32/32", "Z 1 8/32/32 40/32", "Z 00000000001 8/32/32 40/32/32", "Z 4294967296 8/32/32 40/32/32"):
            self.assertEqual(lines("check", "", line), (4, ["fault: line 2"]), line)
        self.assertEqual(lines("check", f"Q {A1.upper()} 00001 65535", "Z 0000000001 8/32/32 40/32/32", "T B"), (0, ["ok"]))

    def test_other_slices(self):
        for refused in ("Z 0 8/32/32 40/32/32", "Z 1 7/32/32 40/32/32", "Z 1 8/0/0 40/32/32", "Z 1 8/32/33 40/32/32", "Z 1 8/32/32 41/32/32"):
            self.assertEqual(lines("run", refused), (4, ["fault: line 1"]), refused)
        self.assertEqual(lines("run", "Z 9 8/32/32 40/32/32", "Z 9 8/32/32 40/32/32"), (4, ["fault: line 2"]))
        self.assertEqual(lines("history B", "Z 2 8/8/8 16/4/0", "T", "T"), (0, ["Z 2 16/4/0", "T", "T"]))

    def test_history(self):
        self.assertEqual(lines("history A", f"M {A1} 0f", f"Q {A1} 1 2", "T"), (0, [f"M {A1} 0F", "W", f"Q {A1} 1 2", "W", "T"]))
        self.assertEqual(lines("history B", f"M {A1} -"), (0, []))
        self.assertEqual(lines("history C", "nonsense"), (2, ["fault: words"]))

    def test_captures(self):
        def file(*script):
            status, data = captured((P2 + "---\n" + "".join(f"{line}\n" for line in script)).encode())
            return status, data.hex().upper()

        empty = "D4C3B2A1020004000000000000000000050001008F000000"
        sent = "00000000D00700001E0000001E000000" "C2000018B8620200000000000200000000030006000003019900D9D4DCCD"
        self.assertEqual(file(), (0, empty))
        self.assertEqual(file(f"Q {A1} 257 1", f"M {A1} -", "T A"), (0, empty))
        of_a_frame = file("T")[1]
        self.assertEqual(of_a_frame[:92], empty + "00000000000000003E0000003E000000" "C2000038BA43")
        self.assertEqual(file("T", "M 020000000003 99"), (0, of_a_frame + sent))
        self.assertEqual(file("T", "Z 1 8/32/32 40/32/32"), (4, of_a_frame))
        self.assertEqual(file("T", "T C"), (4, b"fault: line 2\n".hex().upper()))
        self.assertEqual(header_sum(b"123456789"), 0x906E)

    def test_traces(self):
        def checks(*script):
            status, text = traced((P2 + "---\n" + "".join(f"{line}\n" for line in script)).encode())
            return status, [line.split(",")[0].removeprefix("  check ") for line in text.splitlines()]

        self.assertEqual(checks(f"M {A1} -", f"M {A1} 0F8000", f"M {A1} 0F00011805"), (0, ["0", "1", "4"]))
        addition = f"M {A1} 0F0001180A010200010601060F0102"
        self.assertEqual(checks(addition, addition, f"M {A1} 11000100", "T", f"Q {A1} 257 5"), (0, ["22", "2"]))
        self.assertEqual(checks(f"M {A1} 0F0001", "T", "Z 1 8/32/32 40/32/32"), (4, ["6", "fault: line 3"]))
        self.assertEqual(checks(f"M {A1} 0F0001", "T C"), (4, ["fault: line 2"]))
        self.assertEqual(fixed(b"x\n  check 6, no encoding\n y\nfault: line 3\n"), b"  check 6, no encoding\nfault: line 3\n")

    def test_words(self):
        for words in ([], ["walk"], ["run", "run"], ["history"], ["history", "A", "B"]):
            self.assertEqual(answer(words, b""), (2, "fault: words\n"))

    def test_input(self):
        self.assertEqual(answer(["one"], b"\xff"), (6, "fault: io\n"))
        self.assertEqual(answer(["one"], b"\n" * 1_048_577), (6, "fault: io\n"))
        self.assertEqual(answer(["one"], b"\n" * 1_048_576), (0, ""))


class PlantFiles(unittest.TestCase):
    LIMITS = {"frame_minislots": (1, 4096), "head": (0, 72), "frame_us": (1, 1_000_000), "bytes_per_minislot": (1, 65_535), "short_max": (0, 4096),
              "channel": (0, 255), "ucd_count": (0, 255), "ranging_start": (0, 15), "ranging_end": (0, 15), "data_start": (0, 15), "data_end": (0, 15),
              "ack_wait": (1, 65_535), "resends": (0, 255), "hold": (1, 65_535), "first_frame": (0, 4_294_967_295)}
    OF_OPERATOR = {"flows": ("4", 1, 1024), "transactions": ("4", 1, 256), "inbox": ("4", 1, 256), "budget": ("32", 0, 4096), "elements": ("8", 0, 235)}

    def test_limits(self):
        for key, (least, greatest) in self.LIMITS.items():
            for value in (least - 1, greatest + 1, "true", "1.5", '"1"'):
                self.assertEqual(fault(plant_with(**{key: value})), f"3 plant.{key}", (key, value))
            if key not in ("frame_minislots", "head"):
                self.assertIsNone(fault(plant_with(**{key: least})))
                self.assertIsNone(fault(plant_with(**{key: greatest})))

    def test_defaults(self):
        plant = read_plant(P2)
        self.assertEqual((plant.ack_wait, plant.resends, plant.hold, plant.first_frame, plant.backoffs), (150, 3, 1500, 0, (0, 0, 0, 0)))
        for key in ("frame_minislots", "head", "frame_us", "bytes_per_minislot", "short_max", "channel", "ucd_count"):
            self.assertEqual(fault(plant_with(**{key: None})), f"2 plant.{key}")

    def test_operator_limits(self):
        for key, (value, least, greatest) in self.OF_OPERATOR.items():
            for wrong in (least - 1, greatest + 1):
                self.assertEqual(fault(P2.replace(f"{key} = {value}", f"{key} = {wrong}", 1)), f"3 operator[0].{key}")

    def test_first_faults(self):
        self.assertEqual(fault(""), "2 plant.frame_minislots")
        self.assertEqual(fault("plant = 1"), "3 plant")
        self.assertEqual(fault("[plant"), "1")
        self.assertEqual(fault(P2.split("[[operator]]")[0]), "2 operator")
        self.assertEqual(fault(P2.split("[[operator]]")[0].replace("[plant]", "operator = []\n[plant]")), "3 operator")
        self.assertEqual(fault(P2.replace('policy = "strict"', 'policy = "aged"')), "2 operator[0].step")
        self.assertEqual(fault(P2.replace("[40, 32]", "[39, 32]")), "4 A B")
        self.assertEqual(fault(P2.replace("sids = [513, ", "sids = [272, ")), "5 A B")
        self.assertEqual(fault(P2.replace("sfids = [513, ", "sfids = [512, ")), "6 A B")
        self.assertEqual(fault(P2.replace("020000000003", "020000000002")), "7 020000000002")
        self.assertEqual(fault(P2.replace("elements = 8", "elements = 117")), "8 241")
        self.assertIsNone(fault(P2.replace("elements = 8", "elements = 116", 1).replace("elements = 8", "elements = 117")))
        self.assertEqual(fault(P2.replace("budget = 32", "budget = 33")), "9 A")
        flow = '[[operator.flow]]\nmodem = "020000000003"\nencoding = "%s"\n'
        self.assertEqual(fault(P2 + flow % "060107" * 1), None)
        self.assertEqual(fault(P2 + flow % "060107" * 5), "10 B")
        self.assertEqual(fault(P2 + flow % "060102"), "3 operator[1].flow[0].encoding")
        self.assertEqual(fault(P2 + flow.replace("3", "1") % "060101"), "3 operator[1].flow[0].modem")
        self.assertEqual(fault(P2 + '[[class]]\nname = "a"\nencoding = "060101"\n'), "3 class[0].encoding")
