"""Tests tools/run plant_view.

Sums, times and slice changes are typed by hand from a few lines of output, and so is what a service prints. What the page's script reads is
compared with the frames, what is committed with a whole run, and the kind of each grant with the flow that a whole run gives it to. No two of
32 operators look alike, and each of their names is on the page and in the picture. A browser opens the page, if chromium is installed. It
measures whether texts are cut or overprint each other; whether a page looks well is not tested.
"""

import html
import itertools
import json
import math
import pathlib
import random
import re
import shutil
import subprocess
import tempfile
import unittest

from service.reference.answers import reference_answer
from service.reference.book import StepRefused, all_committed
from service.reference.encodings import SCHEDULING
from service.reference.program import Core, Fault, answer, judged_plant, judged_script
from service.viewing.axis import slice_changes, spread, time_of
from service.viewing.budgets import Budgets, read_budgets
from service.viewing.kinds import kinds_in, kinds_of
from service.viewing.page import page
from service.viewing.picture import picture
from service.viewing.run_output import NoOutput, part_of, read_output
from service.viewing.styles import COLOURS, ink_on, styles
from service.viewing.sums import sums_of
from tools import EXAMPLES, ROOT
from tools.generator.case import case
from tools.measure.large_script import of_maps

OUTPUT = """R 020000000001 10000100180E0102000102040000010103020101
S 020000000003 Empty
S 020000000003 Empty
R 020000000003 1600020600
F A 7 257/1/8/1 257/5/9/4 258/6/13/5 0/6/18/22
F B 7 513/6/40/32 513/P 514/P
F A 8 0/6/8/32
fault: line 9
"""
# What a service prints that `run` does not: its beginning, refused lines, a snapshot with lines of any form in its plant file, and changes.
SERVICE = '''S line 1 frame 6
fault: line 2
F A 6 0/6/8/32
melfjits-snapshot 1 49
text = """
end 1 2
F A 6 nonsense
melfjits
"""
---
frame 7 1
operator A 0 0 0
slice 8 32 32
next -
end 11 1234567
P frame 7
F B 7 0/6/8/32
fault: memory
N frame 536870919
F B 536870919 0/6/8/32

S line 18
F B 536870920 0/6/8/32
F B 536870920 0/6/8/31
'''
# Two frames of a flow with two unsolicited grants (257), a polled flow (258) and a best effort flow (259).
GRANTS = """[plant]
frame_minislots = 72
head = 8
frame_us = 2000
bytes_per_minislot = 16
short_max = 4
channel = 1
ucd_count = 1
[[operator]]
name = "A"
slice = [8, 64]
sfids = [257, 512]
sids = [257, 272]
flows = 4
transactions = 8
inbox = 4
budget = 64
elements = 24
policy = "strict"
modems = ["020000000001"]
---
M 020000000001 0F00011817010200010601060F010613020040140400000FA0160102
M 020000000001 11000100
M 020000000001 0F00021810010200020601060F0104110400000FA0
M 020000000001 11000200
M 020000000001 0F0003180A010200030601060F0102
M 020000000001 11000300
Q 020000000001 259 5
T
Q 020000000001 259 5
T
"""
FRAMES = ["F A 0 257/5/8/4 257/5/12/4 258/1/16/1 259/6/17/5 0/6/22/50", "F A 1 259/6/8/5 0/6/13/59"]
CASES = 40
MANY = of_maps(32, 2, 3)
MANY_NAMES = [f"OP{place}" for place in range(32)]
CHROMIUM = shutil.which("chromium")
# What of linear red, green and blue is seen without the cones for green, and without those for red (Machado, Oliveira and Fernandes, 2009).
NO_GREEN = ((0.367322, 0.860646, -0.227968), (0.280085, 0.672501, 0.047413), (-0.011820, 0.042940, 0.968881))
NO_RED = ((0.152286, 1.052583, -0.204868), (0.114503, 0.786281, 0.099216), (-0.003882, -0.048116, 1.051998))
ALL = ((1, 0, 0), (0, 1, 0), (0, 0, 1))


def cases():
    """Yields generated inputs of `run` whose plant and script are valid, with what the second implementation prints."""
    for words, data in map(case, range(CASES)):
        try:
            if words == ["run"]:
                yield data.decode(), answer(words, data)[1]
        except UnicodeDecodeError:
            pass


def committed_in(text):
    """Returns what is committed when each operator's frame is ticked, by a core that does all of a script."""
    plant, script = judged_plant(text)
    core, found = Core(plant), {}
    try:
        for _, step in judged_script(plant, script):
            if step[0] != "tick":
                core.step(*step)
                continue
            book = core.books[step[1]]
            frame, share = book.frame, book.share
            core.step(*step)
            found[plant.rows[step[1]].name, frame] = (share.start, share.length, share.budget, all_committed(book)[0])
    except StepRefused:
        pass
    return found


def granted_in(text):
    """Returns which SIDs have unsolicited grants when each operator's frame is ticked, by a core that does all of a script."""
    plant, script = judged_plant(text)
    core, found = Core(plant), {}
    try:
        for _, step in judged_script(plant, script):
            if step[0] != "tick":
                core.step(*step)
                continue
            book = core.books[step[1]]
            frame, active = book.frame, [flow for flow in book.flows.values() if flow.active is not None]
            core.step(*step)
            found[plant.rows[step[1]].name, frame] = {flow.sid for flow in active if flow.active[SCHEDULING] == 6}
    except StepRefused:
        pass
    return found


def lab_of(colour, eye):
    """Returns a colour as an eye sees it, in the space CIELAB, in which equal distances look equal."""
    channels = [int(colour[place:place + 2], 16) / 255 for place in (1, 3, 5)]
    linear = [value / 12.92 if value <= 0.04045 else ((value + 0.055) / 1.055) ** 2.4 for value in channels]
    red, green, blue = (min(1, max(0, sum(part * value for part, value in zip(row, linear)))) for row in eye)
    of_white = ((0.4124 * red + 0.3576 * green + 0.1805 * blue) / 0.9505, 0.2126 * red + 0.7152 * green + 0.0722 * blue,
                (0.0193 * red + 0.1192 * green + 0.9505 * blue) / 1.089)
    x, y, z = (value ** (1 / 3) if value > 0.008856 else 7.787 * value + 16 / 116 for value in of_white)
    return 116 * y - 16, 500 * (x - y), 200 * (y - z)


def many():
    """Returns the output of a plant of 32 operators, and its budgets."""
    return read_output(answer(["run"], MANY.encode())[1].splitlines()), read_budgets(MANY)


class RunLines(unittest.TestCase):
    def test_sums(self):
        run = read_output(OUTPUT.splitlines())
        sums = sums_of(run)
        of_a, of_b = sums.operators
        self.assertEqual((of_a.frames, of_a.of_slice, of_a.given, of_a.polls, of_a.short_grants, of_a.long_grants), (2, 64, 10, 1, 1, 1))
        self.assertEqual((of_b.frames, of_b.of_slice, of_b.given, of_b.pending_frames, of_b.most_pending), (1, 32, 32, 1, 2))
        self.assertEqual(of_a.filled, {7: (10, 32), 8: (0, 32)})
        self.assertEqual(sums.replies, {("020000000001", "DSA-RSP", 0): 1, ("020000000003", "DSD-RSP", 6): 1})
        self.assertEqual(sums.causes, {("020000000003", "Empty"): 2})
        self.assertEqual((run.numbers(), run.faults, run.is_of_service), ([7, 8], ["line 9"], False))

    def test_map(self):
        run = read_output((EXAMPLES / "two_operators.out").read_text().splitlines())
        self.assertEqual((run.maps, run.frame_minislots, run.head), (1, 72, 8))

    def test_what_a_service_prints(self):
        run = read_output(SERVICE.splitlines())
        self.assertEqual((run.starts, run.changes, run.renumberings), ([(1, 6), (18, None)], [7], [536870919]))
        self.assertEqual((run.faults, run.snapshots, run.replaced, run.is_of_service), (["line 2", "memory"], 1, 1, True))
        self.assertEqual(run.frames["A"], {6: "0/6/8/32"})
        self.assertEqual(run.frames["B"], {7: "0/6/8/32", 536870919: "0/6/8/32", 536870920: "0/6/8/31"})

    def test_what_the_second_implementation_serves(self):
        """The frames of `resume` are read, whatever is between them, and the answers to `K`, `P`, `N` and invalid lines are counted."""
        plant = (EXAMPLES / "plant_p2.toml").read_text()
        lines = f"T\nX\nK\nP\n{plant}---\nT\nN 536870914\nT\nN 1\nK\n"
        status, output = reference_answer(["resume"], f"{plant}---\n{lines}".encode())
        run = read_output(output.decode().splitlines())
        self.assertEqual((status, run.numbers()), (0, [0, 1, 536870914]))
        self.assertEqual((run.changes, run.renumberings, run.snapshots, len(run.faults)), ([1], [536870914], 2, 2))

    def test_what_is_refused(self):
        for line in ("ok", "F A x 0/6/8/32", "F A 1 0/6/8", "F A 1 257/P", "R 020000000001 1", "R 020000000001 0F0001", "S 020000000001",
                     "S line x", "S line 1 frame", "P frame", "N 5", "MAP 0 01", "MAP 1 0x", "melfjits-snapshot 1 x", "melfjits-snapshot 1 3", "<html>"):
            with self.assertRaises(NoOutput) as found:
                read_output(["F A 0 0/6/8/32", line, "F A 2 0/6/8/32"])
            self.assertRegex(str(found.exception), f"^line 2.*: {re.escape(line)}$")
        for elements in ("", "0/6/8", "x"):
            with self.assertRaises(NoOutput):
                part_of(elements)

    def test_most_operators(self):
        lines = [f"F OP{place} 0 0/6/{place}/1" for place in range(33)]
        self.assertEqual(len(read_output(lines[:32]).names), 32)
        with self.assertRaises(NoOutput):
            read_output(lines)


class Axis(unittest.TestCase):
    def test_times(self):
        typed = {(0, 2000): "0", (7, 2000): "14", (3, 1500): "4.5", (2, 1500): "3.0", (1, 250): "0.25", (2, 250): "0.50", (3, 1): "0.003",
                 (1000, 1): "1.000", (1, 1_000_000): "1000", (4_294_967_295, 1_000_000): "4294967295000", (4_294_967_295, 999_999): "4294963000032.705"}
        self.assertEqual({asked: time_of(*asked) for asked in typed}, typed)

    def test_changes(self):
        lines = ["F A 0 0/6/8/32", "F B 0 0/6/40/32", "F A 1 257/5/8/4 0/6/12/28", "F B 1 0/6/40/32 513/P", "F A 2 0/6/8/16", "F B 2 0/6/40/32",
                 "F A 3 0/6/8/16", "F B 3 0/6/24/32", "F B 4 0/6/24/32"]
        self.assertEqual(slice_changes(read_output(lines)), [2, 3])
        self.assertEqual(slice_changes(read_output(OUTPUT.splitlines())), [])
        self.assertEqual(slice_changes(read_output((EXAMPLES / "other_slices.out").read_text().splitlines())), [1])

    def test_spread(self):
        self.assertEqual(spread([20, 40, 60], 13, 0, 100), [20, 40, 60])
        self.assertEqual(spread([0, 1, 2], 13, 5, 100), [5, 18, 31])
        self.assertEqual(spread([97, 98, 99], 13, 0, 100), [74, 87, 100])
        pick = random.Random(1)
        for _ in range(300):
            placed = spread(sorted(pick.uniform(0, 432) for _ in range(pick.randint(1, 32))), 13, 0, 432)
            self.assertTrue(all(after - before > 12.99 for before, after in itertools.pairwise(placed)), placed)
            self.assertTrue(-0.01 < placed[0] and placed[-1] < 432.01, placed)


class OfBudgets(unittest.TestCase):
    def test_typed(self):
        budgets = read_budgets((EXAMPLES / "other_slices.txt").read_text())
        at = [budgets.at("B", frame) for frame in (0, 1, 9)]
        self.assertEqual([(share.start, share.length, share.budget) for share in at], [(40, 32, 32), (24, 48, 32), (24, 48, 32)])
        alone = read_budgets((EXAMPLES / "plant_p2.toml").read_text())
        self.assertEqual((alone.at("A", 5).budget, alone.at("A", 5).committed, alone.operator_of["020000000003"]), (32, None, "B"))

    def test_as_a_whole_run(self):
        compared = 0
        for text, _ in cases():
            try:
                budgets, of_script = read_budgets(text), committed_in(text)
            except Fault:
                continue
            for (name, frame), whole in of_script.items():
                share = budgets.at(name, frame)
                self.assertEqual((share.start, share.length, share.budget, share.committed), whole)
                compared += 1
        self.assertGreater(compared, 150)


class Kinds(unittest.TestCase):
    def test_what_frames_show(self):
        """Without a script, a grant before a poll and one of two with a SID are unsolicited. One of a flow that may request is not."""
        for elements, kinds in (
                ("257/5/8/4 258/1/12/1 259/6/13/5 0/6/18/22", "unsolicited poll unknown idle"),
                ("257/5/8/4 257/5/12/4 259/6/16/5", "unsolicited unsolicited unknown"),
                ("256/5/8/4 257/5/12/4 257/5/16/4", "unsolicited unsolicited unsolicited"),
                ("258/1/8/1 259/6/9/5 258/6/14/9 260/5/23/1", "poll unknown requested requested"),
                ("257/5/8/4 259/6/12/5 260/5/17/1 259/P", "unknown requested requested"), ("0/6/8/32", "idle")):
            self.assertEqual(" ".join(kinds_of(elements)), kinds, elements)

    def test_what_a_script_shows(self):
        run, budgets = read_output(FRAMES), read_budgets(GRANTS)
        self.assertEqual(kinds_in(run, budgets, "A", 0), ("unsolicited", "unsolicited", "poll", "requested", "idle"))
        self.assertEqual(kinds_in(run, budgets, "A", 1), ("requested", "idle"))
        self.assertEqual(kinds_in(run, read_budgets(GRANTS.split("---")[0]), "A", 1), ("unknown", "idle"))
        later = read_output(["F A 2 259/6/8/5 0/6/13/59"])
        self.assertEqual(kinds_in(later, budgets, "A", 2), ("unknown", "idle"), "no line of the script is of frame 2")
        for line in ("P", "N 8"):
            cut = GRANTS.replace("T\nQ", f"T\n{line}\nQ")
            self.assertEqual(kinds_in(run, read_budgets(cut), "A", 1), ("unknown", "idle"), line)
        invalid = GRANTS.replace("T\nQ", "T\nX\nM 020000000009 00\nZ 0 8/64/64\nK\nQ")
        self.assertEqual(kinds_in(run, read_budgets(invalid), "A", 1), ("requested", "idle"), "a service goes on after an invalid line")

    def test_as_a_whole_run(self):
        """With the script each kind is right. Without it, each kind that the frames show is right."""
        found = {}
        for text, output in cases():
            try:
                run, budgets, granted = read_output(output.splitlines()), read_budgets(text), granted_in(text)
            except Fault:
                continue
            for (name, number), sids in granted.items():
                right = tuple("idle" if not sid else "poll" if code == 1 else "unsolicited" if sid in sids else "requested"
                              for sid, code, _, _ in part_of(run.frames[name][number]).spans)
                shown = kinds_in(run, Budgets(), name, number)
                self.assertEqual(kinds_in(run, budgets, name, number), right)
                self.assertEqual([kind for kind, _ in zip(right, shown)], [one if other == "unknown" else other for one, other in zip(right, shown)])
                for kind in right + shown:
                    found[kind] = found.get(kind, 0) + 1
        for kind in ("poll", "unsolicited", "requested", "unknown"):
            self.assertGreater(found[kind], 10, found)


class Page(unittest.TestCase):
    def data_of_page(self, text):
        return json.loads(re.search(r"^const DATA = (.*);$", text, re.MULTILINE).group(1))

    def frames_of_page(self, text):
        """Yields the frames as the page's script takes them apart."""
        data = self.data_of_page(text)
        for row in filter(None, data["rows"].split("\n")):
            number, _, *indices = row.split(" ")
            for operator, index in zip(data["operators"], indices):
                if index != "-":
                    yield (operator["name"], int(number)), self.elements(data["parts"][int(index, 36)])

    def elements(self, packed):
        start, spans, pending = packed.split(";")
        place, elements = int(start), []
        for span in spans.split(","):
            sid, code, length, *_ = span.split(".")
            elements.append(f"{sid}/{code}/{place}/{length}")
            place += int(length)
        return " ".join(elements + [f"{sid}/P" for sid in pending.split(",") if sid])

    def test_frames(self):
        for text, output in cases():
            try:
                run, budgets = read_output(output.splitlines()), read_budgets(text)
            except Fault:
                continue
            made = page("a title", run, sums_of(run), budgets)
            stated = {(name, number): elements for name in run.names for number, elements in run.frames[name].items()}
            self.assertEqual(dict(self.frames_of_page(made)), stated)

    def test_one_file(self):
        run = read_output(OUTPUT.splitlines())
        made = page("<b> & {{data}}", run, sums_of(run), Budgets())
        self.assertIn("<h1>&lt;b&gt; &amp; ", made)
        self.assertIn("The output ends with fault: line 9.", made)
        self.assertNotIn("A service began", made)
        for text in ("http:", "https:", "src=", "@import", "url(", "fetch("):
            self.assertNotIn(text, made)

    def test_service(self):
        run = read_output(SERVICE.splitlines())
        made = re.sub("<[^>]*>", "", page("", run, sums_of(run), Budgets()))
        for text in ("2 faults: line 2, memory.", "A service began at line 1, before frame 6.", "A service began at line 18.", "The plant changed before frame 7.",
                     "The next frame got the number 536870919.", "1 snapshot left out.", "1 frame left out, whose number came again"):
            self.assertIn(text, made)
        self.assertNotIn("The output ends", made)

    def test_kinds(self):
        """The page's script has the kind of each grant. The legend says what marks it, and the page of how many grants no kind is known."""
        run, budgets = read_output(FRAMES), read_budgets(GRANTS)
        made = page("", run, sums_of(run, budgets), budgets)
        self.assertEqual(self.data_of_page(made)["parts"], ["8;257.5.4.u,257.5.4.u,258.1.1,259.6.5.r,0.6.50;", "8;259.6.5.r,0.6.59;"])
        for text in ("grant that answers a request, with its SID", "unsolicited grant (marked corner)", "poll (diagonal stripes)", "<td>2</td>"):
            self.assertIn(text, made)
        self.assertNotIn("is not known", made)
        made = page("", run, sums_of(run), Budgets())
        self.assertEqual(self.data_of_page(made)["parts"], ["8;257.5.4.u,257.5.4.u,258.1.1,259.6.5,0.6.50;", "8;259.6.5,0.6.59;"])
        self.assertIn("The kind of 2 grants is not known, unsolicited or on request.", made)
        self.assertIn("<td>2 to 4</td>", made)
        self.assertNotIn("grant that answers a request, with its SID", made)

    def test_axis(self):
        run, budgets = read_output(OUTPUT.splitlines()), read_budgets((EXAMPLES / "two_operators.txt").read_text())
        with_times = self.data_of_page(page("", run, sums_of(run), budgets))
        self.assertEqual([row.split(" ")[:2] for row in with_times["rows"].split("\n")], [["7", "14"], ["8", "16"]])
        without = self.data_of_page(page("", run, sums_of(run), Budgets()))
        self.assertEqual([row.split(" ")[:2] for row in without["rows"].split("\n")], [["7", "-"], ["8", "-"]])
        changed = read_output((EXAMPLES / "other_slices.out").read_text().splitlines())
        made = page("", changed, sums_of(changed), Budgets())
        self.assertEqual(self.data_of_page(made)["changes"], [1])
        self.assertEqual(re.findall(r'class="to" data-frame="(\d+)"', made), ["1"])

    def test_names_and_styles(self):
        run, budgets = many()
        made = page("", run, sums_of(run), budgets, "OP17")
        self.assertEqual(re.findall(r'<button type="button" class="operator" aria-pressed="false">.*</svg> (\w+)</button>', made), MANY_NAMES)
        self.assertEqual(re.findall(r"<option>(\w+)</option>", made), MANY_NAMES)
        data = self.data_of_page(made)
        self.assertEqual([of["name"] for of in data["operators"]], MANY_NAMES)
        self.assertEqual(len({(of["colour"], tuple(map(tuple, data["patterns"][of["pattern"]]))) for of in data["operators"]}), 32)
        swatches = re.findall(r'<button type="button" class="operator"[^>]*>(<svg.*</svg>)', made)
        self.assertEqual((len(swatches), len(set(swatches))), (32, 32))
        self.assertEqual(data["highlighted"], 17)
        self.assertEqual(self.data_of_page(page("", run, sums_of(run), budgets))["highlighted"], -1)


class Styles(unittest.TestCase):
    def test_no_two_alike(self):
        for count in range(33):
            self.assertEqual(len(set(styles(count))), count)
        self.assertEqual(len({style.colour for style in styles(8)}), 8)
        with self.assertRaises(NoOutput):
            styles(33)

    def test_colours_differ(self):
        for eye in (ALL, NO_GREEN, NO_RED):
            for one, other in itertools.combinations(COLOURS, 2):
                self.assertGreater(math.dist(lab_of(one, eye), lab_of(other, eye)), 20, (one, other, eye))

    def test_ink(self):
        self.assertEqual((ink_on("#ffffff"), ink_on("#000000"), ink_on("#2f6fb7"), ink_on("#d9822b")), ("#000000", "#ffffff", "#ffffff", "#000000"))


class Picture(unittest.TestCase):
    def test_two_operators(self):
        made = picture([("one & two", read_output(OUTPUT.splitlines()))], Budgets())
        self.assertIn(">one &amp; two</text>", made)
        self.assertEqual(made.count("url(#poll"), 2, "in A's slice, and in the key")
        self.assertEqual(made.count('class="waits"'), 2, "below B's slice, and in the key")
        self.assertEqual(re.findall(r'class="on"[^>]*>(\d+)<', made), ["257", "258", "513"])
        self.assertEqual(re.findall(r'class="number">([^<]*)<', made), ["frame", "7", "8"])
        self.assertNotIn("slices change", made)
        self.assertNotIn("unsolicited", made)

    def test_unsolicited_grants(self):
        made = picture([("", read_output(FRAMES))], read_budgets(GRANTS))
        self.assertEqual(made.count('class="unsolicited"'), 3, "two grants, and the key")
        self.assertIn(">unsolicited grant</text>", made)

    def test_axis(self):
        budgets = read_budgets((EXAMPLES / "other_slices.txt").read_text())
        made = picture([("", read_output((EXAMPLES / "other_slices.out").read_text().splitlines()))], budgets)
        self.assertEqual(re.findall(r'class="number">([^<]*)<', made), ["ms", "0", "2", "frame", "0", "1"])
        self.assertEqual(made.count('class="change"'), 2, "above frame 1, and in the key")

    def test_many(self):
        run, budgets = many()
        made = picture([("", run)], budgets, "OP31")
        self.assertEqual(re.findall(r'rotate\(-90\)" class="name">(\w+)<', made), MANY_NAMES)
        strips = re.findall(r'<g class="(?:faded|operator)">\n<rect [^>]*height="7" fill="(#\w+)"/>\n(?:<rect [^>]* height="7" fill="(url[^"]*)"/>\n)?<path', made)
        self.assertEqual((len(strips), len(set(strips))), (32, 32))
        self.assertEqual((made.count('class="faded"'), made.count('class="operator"')), (31 * 4, 4), "its name and its three frames")

    def test_no_frame(self):
        with self.assertRaises(NoOutput):
            picture([("", read_output([]))], Budgets())


@unittest.skipUnless(CHROMIUM, "chromium is not installed: no browser opened a page")
class Browser(unittest.TestCase):
    """What the page's script does in a browser. A second script reports in the page's title."""

    def reported(self, made, script, width=1300):
        with tempfile.TemporaryDirectory() as folder:
            path = pathlib.Path(folder) / "page.html"
            path.write_text(made.replace("</html>", f"<script>document.title = JSON.stringify({script});</script></html>"))
            done = subprocess.run([CHROMIUM, "--headless", "--no-sandbox", "--disable-gpu", f"--window-size={width},900", "--dump-dom",
                                   f"--user-data-dir={folder}/profile", path.as_uri()], capture_output=True, text=True, timeout=60, check=False)
        return json.loads(html.unescape(re.search("<title>(.*)</title>", done.stdout).group(1)))

    def test_names_are_drawn(self):
        lines = [f"F OP{place} 0 0/6/{place}/1" for place in range(31)] + ["F OP31 0 0/6/31/369"]
        run = read_output(lines)
        drawn = self.reported(page("", run, sums_of(run), Budgets()), "labels.map(of => [of.place, Math.round(of.at), of.upright])")
        self.assertEqual([place for place, _, _ in drawn], list(range(32)))
        self.assertTrue(all(upright for _, _, upright in drawn))
        self.assertTrue(all(after[1] - before[1] >= 12 for before, after in itertools.pairwise(drawn)), drawn)

    def test_highlight(self):
        run, budgets = many()
        made = page("", run, sums_of(run), budgets, "OP3")
        state = '[highlighted, byId("highlight").value, [...byId("legend").children].findIndex(of => of.ariaPressed === "true")]'
        click = 'byId("legend").children[5].click()'
        self.assertEqual(self.reported(made, f"[{state}, ({click}, {state}), ({click}, {state})]"),
                         [[3, "OP3", 3], [5, "OP5", 5], [-1, "all operators", -1]])

    def test_highlighted_is_in_sight(self):
        run, budgets = many()
        of_slice = "xOf(frame(0).parts[20].start) > axis.left && xOf(frame(0).parts[20].end) < scroller.clientWidth"
        zoomed = 'byId("zoom").value = "8", byId("zoom").dispatchEvent(new Event("change")), draw()'
        self.assertEqual(self.reported(page("", run, sums_of(run), budgets), f'({zoomed}, [{of_slice}, (byId("legend").children[20].click(), {of_slice})])'),
                         [False, True])

    def test_hover(self):
        run, budgets = read_output(OUTPUT.splitlines()), read_budgets((EXAMPLES / "two_operators.txt").read_text())
        at = "(() => {{ const box = scroller.getBoundingClientRect(); tell({{clientX: box.left + xOf({}) + 1, clientY: box.top + 5}}); return reading.textContent; }})()"
        self.assertEqual(self.reported(page("", run, sums_of(run), budgets), f"[{at.format(6)}, {at.format(8)}]"), [
            "frame 7 at 14 ms, minislot 6: the head, in which every modem may send a request",
            "frame 7 at 14 ms, minislot 8: operator A, SID 257, poll (IUC 1), 1 minislot from 8 on"])

    def test_hover_says_the_kind_of_a_grant(self):
        run, budgets = read_output(FRAMES), read_budgets(GRANTS)
        at = "(() => {{ const box = scroller.getBoundingClientRect(); tell({{clientX: box.left + xOf({}) + 1, clientY: box.top + 5}}); return reading.textContent.split(', ').slice(3, -1).join(', '); }})()"
        script = f"[{', '.join(map(at.format, (8, 16, 17)))}]"
        self.assertEqual(self.reported(page("", run, sums_of(run, budgets), budgets), script),
                         ["unsolicited short grant (IUC 5)", "poll (IUC 1)", "long grant (IUC 6) on request"])
        self.assertEqual(self.reported(page("", run, sums_of(run), Budgets()), script),
                         ["unsolicited short grant (IUC 5)", "poll (IUC 1)", "long grant (IUC 6), unsolicited or on request"])

    def test_a_corner_is_marked(self):
        """The corner of an unsolicited grant has the ink of the operator, and that of a grant on request its colour."""
        run, budgets = read_output(FRAMES), read_budgets(GRANTS)
        pixel = '[...view.getContext("2d").getImageData(Math.ceil(xOf({})) + 1, 2, 1, 1).data].slice(0, 3)'
        self.assertEqual(self.reported(page("", run, sums_of(run, budgets), budgets), f"[{', '.join(map(pixel.format, (8, 17)))}]"),
                         [[255, 255, 255], [0x2f, 0x6f, 0xb7]])

    def test_no_text_is_cut_or_overprinted(self):
        """Each word of a table's head is within its cell, and only the frames and the tables are wider than the window: they scroll."""
        causes = [f"S 020000000001 {cause}" for cause in ("Empty", "InboxFull", "NoSuchSid", "NotOurs", "NotRequesting", "Short", "TidInUse", "UnknownAck")]
        cut = '[...document.querySelectorAll("th")].filter(of => of.scrollWidth > of.clientWidth).map(of => of.textContent)'
        over = '[...document.querySelectorAll("body > *")].filter(of => of.getBoundingClientRect().right > innerWidth).map(of => of.outerHTML.slice(0, 60))'
        wrapped = '[...document.querySelectorAll("th span")].filter(of => of.getClientRects().length > 1).map(of => of.textContent)'
        for count, width in itertools.product((2, 8, 32), (800, 1280)):
            run = read_output([f"F Operator{place:08} 0 0/6/{place * 64}/64" for place in range(count)] + causes)
            self.assertEqual(self.reported(page("", run, sums_of(run), Budgets()), f"[{cut}, {over}, {wrapped}]", width), [[], [], []], (count, width))


class Tool(unittest.TestCase):
    def tool(self, *words, given=""):
        done = subprocess.run([ROOT / "tools/run", "plant_view", *words], input=given, capture_output=True, text=True, check=False)
        return done.returncode, done.stdout, done.stderr

    def test_csv(self):
        status, text, _ = self.tool("--csv", "--plant", EXAMPLES / "two_operators.txt", given=(EXAMPLES / "two_operators.out").read_text())
        self.assertEqual(status, 0)
        lines = text.splitlines()
        for line in ("table,frame,operator,modem,what,number", "operator,,A,,given,5", "operator,,B,,of_slice,32", "frame,0,B,,given,3",
                     "frame,0,A,,budget,32", "reply,,B,020000000003,DSA-RSP 0,1", "run,,,,maps,1", "run,,,,faults,0", "operator,,A,,requested_grants,1"):
            self.assertIn(line, lines)

    def test_a_service(self):
        """Its output is drawn. Where numbers of frames came again, no script says which grant is unsolicited."""
        with tempfile.TemporaryDirectory() as folder:
            path = pathlib.Path(folder) / "input"
            path.write_text(GRANTS)
            output = "S line 1 frame 0\n" + "\n".join(FRAMES) + "\nfault: line 11\n"
            status, text, errors = self.tool("--csv", "--plant", path, given=output)
            self.assertEqual((status, errors), (0, ""))
            self.assertIn("operator,,A,,requested_grants,2\n", text)
            self.assertIn("run,,,,faults,1\n", text)
            status, text, errors = self.tool("--csv", "--plant", path, given=output + FRAMES[1] + "\n")
            self.assertEqual((status, errors), (0, ""))
            self.assertIn("operator,,A,,unknown_grants,2\n", text)
            self.assertIn("run,,,,replaced_frames,1\n", text)

    def test_faults(self):
        self.assertEqual(self.tool(given="no\n"), (1, "", "plant_view: line 1 is no line that `run` or `serve` prints: no\n"))
        self.assertEqual(self.tool("--svg", "x=/dev/null")[2], "plant_view: an output has no frame to draw\n")
        self.assertEqual(self.tool("--svg", f"x={EXAMPLES / 'plant_p2.toml'}")[2],
                         f"plant_view: {EXAMPLES / 'plant_p2.toml'}: line 1 is no line that `run` or `serve` prints: [plant]\n")
        status, _, errors = self.tool("--plant", EXAMPLES / "first_flow.txt", given="")
        self.assertEqual((status, errors), (1, f"plant_view: {EXAMPLES / 'first_flow.txt'}: fault: plant 1\n"))
        self.assertEqual(self.tool(given="")[0], 0)

    def test_a_script_is_of_one_output(self):
        """Of several outputs, no script says which of their grants are unsolicited."""
        folder = EXAMPLES / "isolation"
        words = ["--plant", folder / "run_flood.txt", "--svg", f"flood={folder / 'run_flood.out'}", f"alone={folder / 'run_alone.out'}"]
        self.assertEqual([self.tool(*words[:count])[1].count('class="unsolicited"') for count in (4, 5)], [5, 0])

    def test_highlight(self):
        output = (EXAMPLES / "two_operators.out").read_text()
        status, made, _ = self.tool("--highlight", "B", given=output)
        self.assertEqual((status, '"highlighted":1,' in made), (0, True))
        status, made, _ = self.tool("--highlight", "B", "--svg", f"two={EXAMPLES / 'two_operators.out'}")
        self.assertEqual((status, made.count('class="faded"'), made.count('class="operator"')), (0, 2, 2))
        self.assertEqual(self.tool("--highlight", "C", given=output), (1, "", "plant_view: no operator is called C; there are A, B\n"))
        self.assertEqual(self.tool("--highlight", "A", "--csv", given=output)[0], 2)
