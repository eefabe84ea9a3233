"""Tests the figures of docs/SCOPE.md with the second implementation. A plant with as many flows as the table of capacity says admits them all
and refuses one more of each operator, and no plant has room for one flow more. The sums of the other tables are computed again.
"""

import re
import unittest

from service.reference.program import answer
from tools import ROOT

TEXT = (ROOT / "docs/SCOPE.md").read_text()
CHANNEL = """[plant]
frame_minislots = 4096
head = 8
frame_us = 2000
bytes_per_minislot = 16
short_max = 4
channel = 1
ucd_count = 1
"""
OPERATOR = """[[operator]]
name = "O{at}"
slice = [{start}, {length}]
sfids = [{first}, {last}]
sids = [{first}, {last}]
flows = 256
transactions = 256
inbox = 1
budget = {length}
elements = {quota}
policy = "strict"
modems = ["0200000000{at:02X}"]
"""
# The columns of flows, each with the elements of a flow and its parameters besides reference and set type.
FLOWS = {"best effort": (2, "0F0102"), "polling": (3, "0F01041104000007D0"), "unsolicited, one grant": (1, "0F0106130200011404000007D0160101")}


def rows_of(*heads):
    """Returns the rows of the table whose columns begin with these heads, as cells by column."""
    lines = TEXT.splitlines()
    at = next(at for at, line in enumerate(lines) if line.startswith("| " + " | ".join(heads)))
    names, rows = [name.strip() for name in lines[at].strip("|").split("|")], []
    for line in lines[at + 2:]:
        if not line.startswith("|"):
            return rows
        rows.append(dict(zip(names, (cell.strip() for cell in line.strip("|").split("|")))))
    return rows


def result(cell):
    """Returns the number at the end of a cell."""
    return int(re.search(r"([\d,]+)$", cell)[1].replace(",", ""))


def plant_of(quotas):
    length = 4000 // len(quotas)
    rows = [OPERATOR.format(at=at, start=8 + at * length, length=length, first=1 + at * 240, last=240 + at * 240, quota=quota) for at, quota in enumerate(quotas)]
    return CHANNEL + "".join(rows)


def shares(whole, parts):
    """Returns the whole in so many parts that differ by one at most."""
    return [whole // parts + (at < whole % parts) for at in range(parts)]


def codes(quotas, flows, parameters):
    """Returns the confirmation codes that each operator's modem gets for so many additions and one more."""
    script = ["---"]
    for at, number in enumerate(flows):
        for tid in range(1, number + 2):
            encoding = f"0102{tid:04X}060106{parameters}"
            script.append(f"M 0200000000{at:02X} 0F{tid:04X}18{len(encoding) // 2:02X}{encoding}")
    status, text = answer(["run"], (plant_of(quotas) + "\n".join(script)).encode())
    assert status == 0, text
    got = [[] for _ in flows]
    for line in text.splitlines():
        got[int(line.split()[1][-2:], 16)].append(int(line.split()[2][6:8], 16))
    return got


def is_plant(quotas):
    return answer(["check"], plant_of(quotas).encode())[0] == 0


class Capacity(unittest.TestCase):
    def check_row(self, operators, quotas_of, row):
        for flow, (elements, parameters) in FLOWS.items():
            flows = shares(result(row[flow]), operators)
            quotas = quotas_of(flows, elements)
            self.assertTrue(is_plant(quotas), row)
            self.assertEqual(codes(quotas, flows, parameters), [[0] * number + [3] for number in flows], (row, flow))

    def test_flows(self):
        found = rows_of("operators", "sum of quotas")
        self.assertEqual(len(found), 5)
        for row in found:
            operators, *equal = map(int, re.findall(r"\d+", row["operators"]))
            if equal:
                self.assertEqual(operators * equal[0], result(row["sum of quotas"]))
                self.assertFalse(is_plant([equal[0] + 1] * operators))
                self.check_row(operators, lambda flows, _: equal * len(flows), row)
                continue
            most = result(row["sum of quotas"])
            self.assertTrue(is_plant(shares(most, operators)))
            self.assertFalse(is_plant(shares(most + 1, operators)))
            for flow, (elements, _) in FLOWS.items():
                self.assertEqual(result(row[flow]), most // elements, row)
            self.check_row(operators, lambda flows, elements: [number * elements for number in flows], row)

    def test_frames(self):
        found = rows_of("frame_us", "frames last")
        self.assertEqual(len(found), 4)
        for row in found:
            seconds = (2 ** 32 - 1) * result(row["frame_us"]) / 1_000_000
            self.assertEqual(row["frames last"], f"{seconds:,.0f} s = {seconds / 86_400:.1f} days")

    def test_timers(self):
        found = {row["key"].strip("`"): row for row in rows_of("Annex B", "value")}
        for key, ticks, unit in (("ack_wait", 150, 1), ("hold", 1500, 1000)):
            self.assertEqual(result(found[key]["default"].removesuffix(" ticks")), ticks)
            for milliseconds in (1, 2, 4):
                time = float(found[key][f"at {milliseconds} ms"].split()[0])
                self.assertEqual(time, ticks * milliseconds / unit, key)

    def test_kept_responses_end_after_the_default_ticks(self):
        request = "M 020000000000 0F0001180A010200010601060F0102"
        for ticks, is_kept in ((599, True), (600, False)):
            text = plant_of([2]) + "\n".join(["---", request, *["T"] * ticks, "M 020000000000 11000100"])
            last = answer(["run"], text.encode())[1].splitlines()[-1]
            self.assertEqual(last.startswith("MAP"), is_kept, last)
