"""Tests service/prometheus: each alert fires when it should and only then, and the dashboard shows metrics that there are.

Debian's package `prometheus` has promtool. Without it nothing here runs but what reads the files.
"""

import json
import pathlib
import re
import shutil
import subprocess
import tempfile
import unittest

from tools import ROOT

FOLDER = ROOT / "service/prometheus"
RULES, TESTS = ((FOLDER / name).read_text() for name in ("alerts.yml", "alerts_test.yml"))
NO_PROMTOOL = "promtool is not installed: neither alerts nor queries were tried"
# A number of an expression: not in a name, in a text, or in a range such as [10m].
NUMBER = re.compile(r"(?<![\w.\[\"])\d+(?:\.\d+)?(?:e\d+)?(?![\w.\"])")


def rules():
    """Returns the text of each rule by its name, from its expression on."""
    parts = re.split(r"(?m)^      - alert: (\w+)\n", RULES)
    return dict(zip(parts[1::2], parts[2::2]))


def expression(rule):
    return re.match(r"        expr: (?:>-\n)?((?:.*\n)*?)        (?:for|labels):", rule)[1]


def others(expr):
    """Yields expressions that differ in one number: twice and half of it, or a great one with either sign in place of 0."""
    for found in NUMBER.finditer(expr):
        number = float(found[0])
        for other in (2 * number, number / 2) if number else (1e12, -1e12):
            yield expr[:found.start()] + f"{other:.12g}" + expr[found.end():]


def run_promtool(folder, *words):
    done = subprocess.run(["promtool", *words], cwd=folder, capture_output=True, text=True, check=False)
    return done.returncode, done.stdout + done.stderr


class Text(unittest.TestCase):
    def test_each_rule_has_a_name_a_severity_a_summary_and_a_test(self):
        self.assertGreater(len(rules()), 20)
        for name, text in rules().items():
            self.assertRegex(name, "^Melfjits[A-Z]")
            self.assertRegex(text, "severity: (page|ticket)\n")
            self.assertRegex(text, r"summary: ['\"]\{\{ \$labels.channel \}\}: ")
            self.assertIn(f"  - name: {name}\n", TESTS)
        self.assertEqual(sorted(set(re.findall("(?m)^  - name: (.*)$", TESTS))), sorted(rules()))


@unittest.skipUnless(shutil.which("promtool"), NO_PROMTOOL)
class Alerts(unittest.TestCase):
    def setUp(self):
        folder = tempfile.TemporaryDirectory()
        self.addCleanup(folder.cleanup)
        self.folder = pathlib.Path(folder.name)

    def status(self, text, name=None):
        """Returns whether the tests of a rule, or all of them, succeed with other rules."""
        parts = re.split("(?m)^(?=  - name: )", TESTS)
        (self.folder / "alerts.yml").write_text(text)
        (self.folder / "alerts_test.yml").write_text(parts[0] + "".join(part for part in parts[1:] if name is None or part.startswith(f"  - name: {name}\n")))
        return run_promtool(self.folder, "test", "rules", "alerts_test.yml")

    def test_promtool_accepts_the_rules(self):
        status, output = run_promtool(FOLDER, "check", "rules", "alerts.yml")
        self.assertEqual(status, 0, output)
        self.assertIn(f"SUCCESS: {len(rules())} rules found", output)

    def test_each_rule_fires_when_it_should(self):
        self.assertEqual(self.status(RULES)[0], 0, self.status(RULES)[1])

    def assert_noticed(self, name, before, after):
        self.assertNotEqual(before, after)
        status, output = self.status(RULES.replace(before, after), name)
        self.assertIn("FAILED", output, f"{name}: {after}")
        self.assertNotEqual(status, 0)

    def test_a_rule_with_another_number_is_noticed(self):
        for name, text in rules().items():
            for other in others(expression(text)):
                self.assert_noticed(name, f"- alert: {name}\n{text}", f"- alert: {name}\n{text.replace(expression(text), other)}")

    def test_a_rule_that_never_fires_or_always_is_noticed(self):
        for name, text in rules().items():
            series = re.search(r"melfjits_\w+", expression(text))[0]
            for other in ("vector(0) == 1", series):
                changed = re.sub(r"expr: (?:>-\n)?(?:.*\n)*?(?=        (?:for|labels):)", f"expr: {other}\n", text, count=1)
                self.assert_noticed(name, f"- alert: {name}\n{text}", f"- alert: {name}\n{changed}")

    def test_a_rule_that_fires_at_once_is_noticed(self):
        for name, text in rules().items():
            without = re.sub("        for: .*\n", "", text)
            if without != text:
                self.assert_noticed(name, f"- alert: {name}\n{text}", f"- alert: {name}\n{without}")


def written_metrics():
    """Returns the names of the samples of all metrics that there are, by docs/METRICS.md, which test_watching.py compares with what is written."""
    rows = re.findall(r"(?m)^\| `(melfjits_\w+)`[^|]*\| (\w+) \|", (ROOT / "docs/METRICS.md").read_text())
    return {name + end for name, kind in rows for end in (("_bucket", "_sum", "_count") if kind == "histogram" else ("",))}


class Dashboard(unittest.TestCase):
    """The structure is that of Grafana's JSON model. No Grafana has loaded it."""

    def setUp(self):
        self.dashboard = json.loads((FOLDER / "dashboard.json").read_text())
        self.panels = self.dashboard["panels"]

    def test_its_structure(self):
        for name, kind in (("title", str), ("uid", str), ("schemaVersion", int), ("version", int), ("time", dict), ("templating", dict), ("annotations", dict)):
            self.assertIsInstance(self.dashboard[name], kind, name)
        self.assertEqual([one["name"] for one in self.dashboard["templating"]["list"]], ["datasource", "channel"])
        self.assertEqual(len({panel["id"] for panel in self.panels}), len(self.panels))
        for panel in self.panels:
            self.assertIn(panel["type"], ("stat", "timeseries"))
            self.assertTrue(panel["title"] and panel["targets"] and panel["fieldConfig"]["defaults"]["unit"])
            self.assertEqual(len({target["refId"] for target in panel["targets"]}), len(panel["targets"]))
            for one in (panel, *panel["targets"]):
                self.assertEqual(one["datasource"], {"type": "prometheus", "uid": "${datasource}"})

    def test_no_panel_covers_another(self):
        seen = set()
        for panel in self.panels:
            place = panel["gridPos"]
            cells = {(x, y) for x in range(place["x"], place["x"] + place["w"]) for y in range(place["y"], place["y"] + place["h"])}
            self.assertEqual((seen & cells, {x for x, _ in cells} - set(range(24))), (set(), set()), panel["title"])
            seen |= cells

    def queries(self):
        return [target["expr"] for panel in self.panels for target in panel["targets"]]

    def test_its_metrics_and_those_of_the_alerts_are_written(self):
        self.assertGreater(len(self.queries()), 20)
        for text in (*self.queries(), *map(expression, rules().values()), self.dashboard["templating"]["list"][1]["query"]):
            names = set(re.findall(r"melfjits_\w+", text))
            self.assertTrue(names and names <= written_metrics(), text)
        for text in self.queries():
            self.assertEqual(text.count("melfjits_"), text.count('channel="$channel"'), text)

    def test_its_panels_belong_to_alerts(self):
        """A panel names the alerts that belong to it."""
        named = {name for panel in self.panels for name in re.findall(r"Melfjits\w+", panel["description"])}
        self.assertLessEqual(named, set(rules()))
        self.assertEqual(set(rules()) - named, {"MelfjitsBeganAnew", "MelfjitsStateUnknown"})

    @unittest.skipUnless(shutil.which("promtool"), NO_PROMTOOL)
    def test_promtool_reads_its_queries(self):
        with tempfile.TemporaryDirectory() as folder:
            for queries, status in ((self.queries(), 0), (["rate(melfjits_flows{[5m])"], 1)):
                lines = [f"      - {{record: 'query_{place}', expr: {json.dumps(self.filled(query))}}}" for place, query in enumerate(queries)]
                pathlib.Path(folder, "rules.yml").write_text("groups:\n  - name: queries\n    rules:\n" + "\n".join(lines) + "\n")
                found, output = run_promtool(folder, "check", "rules", "rules.yml")
                self.assertEqual(found, status, output)

    def filled(self, query):
        """Returns a query as Grafana sends it."""
        return query.replace("$channel", "east").replace("$__rate_interval", "1m")


if __name__ == "__main__":
    unittest.main()
