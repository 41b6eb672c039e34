"""The rules for Prometheus and the dashboard for Grafana: they use the metrics that a hub serves, and docs/ALARMS.md has each alarm."""
import json
import pathlib
import re
import shutil
import subprocess
import unittest
from typing import Any

from tests.hub_support import wait_until
from tests.made_records import make_records
from tests.support import TOP, FolderCase, metric_rows, read_document
from tests.test_hub_web import WebCase

RULES = TOP / "deploy" / "prometheus" / "dmr_site.rules.yml"
TESTS = TOP / "deploy" / "prometheus" / "dmr_site.test.yml"
DASHBOARD = TOP / "deploy" / "grafana" / "dmr_site.json"
ALARMS = read_document("ALARMS.md")
# The metrics of the hub with their labels, and the one that Prometheus adds of its own.
METRICS = metric_rows(read_document("HUB.md"))
LABELS = {name: labels for name, _, labels in METRICS}
HISTOGRAMS = [name for name, kind, _ in METRICS if kind == "histogram"]
METRICS = {**LABELS, "up": set(), **{f"{name}_bucket": {"le"} for name in HISTOGRAMS}}
# Labels that each series has in Prometheus, the last one if the target has it (deploy/prometheus/scrape.yml).
OF_PROMETHEUS = {"job", "instance", "site"}
# The words of PromQL that the expressions use.
WORDS = {"and", "or", "sum", "rate", "increase", "changes", "absent", "time", "histogram_quantile", "max_over_time"}
CLAUSES = r"\b(?:by|without|ignoring)\s*\(([^)]*)\)"
# The panels and units that the dashboard uses, of those that Grafana has since version 8 by itself.
PANELS = {"stat", "timeseries", "state-timeline"}
UNITS = {"none", "short", "s", "bytes", "percentunit"}
# The lines of the part of YAML that the rules and their tests are written in.
YAML_LINE = re.compile(r"( *)(- )?(?:([a-z_]+):(?: (.*))?|(.+))")


def quoted(text: str) -> bool:
    """Whether a value is one that YAML reads as its text: in single quotes, or plain without a character that has a meaning."""
    return re.fullmatch(r"'(?:[^']|'')*'|[A-Za-z0-9_./][A-Za-z0-9_./ ,-]*", text) is not None


def alerts() -> dict[str, dict[str, str]]:
    """The alerts of the rules, each with its keys."""
    found = {}
    for part in RULES.read_text(encoding="utf-8").split("- alert: ")[1:]:
        found[part.split("\n", 1)[0]] = {key: value.strip("'") for key, value in re.findall(r"^ +(expr|for|severity|summary): (.*)$", part, re.M)}
    return found


def dashboard() -> dict[str, Any]:
    """The dashboard."""
    board: dict[str, Any] = json.loads(DASHBOARD.read_text(encoding="utf-8"))
    return board


def expressions() -> dict[str, str]:
    """Every expression, by its place."""
    found = {name: keys["expr"] for name, keys in alerts().items()}
    for panel in dashboard()["panels"]:
        for target in panel["targets"]:
            found[f"panel {panel['title']}, {target['refId']}"] = target["expr"]
    return found


def values_in(expression: str) -> set[tuple[str, str]]:
    """The labels with one value that an expression asks for, apart from those of Prometheus."""
    return {(label, value) for label, value in re.findall(r'(\w+)="([^"]*)"', expression) if label not in OF_PROMETHEUS}


def names_in(expression: str) -> tuple[set[str], set[str]]:
    """The metrics that an expression names, and the labels."""
    bare = re.sub(r'"[^"]*"', '""', expression)
    labels = set(re.findall(r"(\w+)\s*(?:=~|!~|!=|=)\s*\"\"", bare))
    labels |= {it.strip() for inner in re.findall(CLAUSES, bare) for it in inner.split(",")}
    bare = re.sub(r"\{[^}]*\}|\[[^]]*\]", "", re.sub(CLAUSES, "", bare))
    return set(re.findall(r"[A-Za-z_]\w*", bare)) - WORDS, labels


def expect_accepted(*words: object) -> None:
    """promtool, with these words, ends with status 0. SkipTest: there is none."""
    if not shutil.which("promtool"):
        raise unittest.SkipTest("there is no promtool: the package prometheus has it")
    done = subprocess.run(["promtool", *map(str, words)], capture_output=True, text=True, check=False)
    if done.returncode:
        raise AssertionError(done.stdout + done.stderr)


class Named(unittest.TestCase):
    """The metrics and labels of all expressions."""

    def test_metrics_are_the_hubs(self) -> None:
        self.assertGreater(len(expressions()), 30)
        for place, expression in expressions().items():
            with self.subTest(place):
                metrics, labels = names_in(expression)
                self.assertTrue(metrics)
                self.assertEqual(metrics - set(METRICS), set())
                self.assertEqual(labels - set().union(*(METRICS[it] for it in metrics)) - OF_PROMETHEUS, set())

    def test_what_is_read_of_an_expression(self) -> None:
        self.assertEqual(names_in('sum without (a, b) (increase(x_total{c="no up"}[5m])) > 3 and ignoring (d) time() - y > 0'), ({"x_total", "y"}, {"a", "b", "c", "d"}))


class Rules(unittest.TestCase):
    """The alerts, their tests and their document."""

    def test_each_alert_has_its_paragraph(self) -> None:
        headings = re.findall(r"^### (\w+)$", ALARMS, re.M)
        self.assertEqual(len(headings), len(set(headings)))
        self.assertEqual(set(headings), set(alerts()))
        severities = dict(re.findall(r"^### (\w+)\n\*\*(\w+)\*\*: ", ALARMS, re.M))
        self.assertEqual(severities, {name: keys["severity"] for name, keys in alerts().items()})
        for name in alerts():
            text = re.split(r"^#", ALARMS[ALARMS.index(f"### {name}\n") + 4:], maxsplit=1, flags=re.M)[0]
            self.assertGreater(len(text.split()), 30, name)

    def test_each_alert_has_its_tests(self) -> None:
        parts = re.split(r"^  - name: ", TESTS.read_text(encoding="utf-8"), flags=re.M)[1:]
        for name in alerts():
            raised = [part for part in parts if part.startswith(f"{name}\n")]
            self.assertEqual(len(raised), 1, name)
            self.assertEqual(re.findall(r"alertname: (\w+)", raised[0]), [name, name])
            self.assertIn("exp_alerts:", raised[0].rpartition("alertname:")[2])
        self.assertEqual(set(re.findall(r"alertname: (\w+)", parts[-1])), set(alerts()))
        self.assertNotIn("exp_alerts:", parts[-1])

    def test_form(self) -> None:
        for path in (RULES, TESTS):
            text = path.read_text(encoding="utf-8")
            self.assertTrue(text.isascii() and "\t" not in text)
            depth = 0
            for number, line in enumerate(text.splitlines(), 1):
                if not line.strip() or line.lstrip().startswith("#"):
                    continue
                found = YAML_LINE.fullmatch(line)
                assert found, f"{path.name}:{number}"
                indent = len(found[1])
                # a line is at most one level deeper than the one before it; an item of a list is one level by itself
                self.assertTrue(indent % 2 == 0 and indent <= depth + 2, f"{path.name}:{number}")
                depth = indent + (2 if found[2] else 0)
                value = found[4] if found[3] else found[5]
                self.assertTrue(value is None or quoted(value), f"{path.name}:{number}: {value}")

    def test_promtool(self) -> None:
        expect_accepted("check", "rules", RULES)
        expect_accepted("test", "rules", TESTS)


class ScrapeConfig(FolderCase):
    """The job for Prometheus."""

    def test_promtool_accepts_it(self) -> None:
        text = (RULES.parent / "scrape.yml").read_text(encoding="utf-8")
        self.assertRegex(text, r'- job_name: dmr_site\n(?:.*\n)* +labels: \{site: ')
        config = self.write("prometheus.yml", f'rule_files: ["{RULES}"]\n{text}')
        expect_accepted("check", "config", config)


class Scraped(WebCase):
    """The expressions, compared with a scrape of a hub."""

    async def test_a_hub_serves_each_metric(self) -> None:
        hub = await self.serve(records=str(make_records(pathlib.Path(self.folder, "site.db"))))
        await wait_until(lambda: hub.records and hub.records.last)
        octets = (await self.get("/metrics")).body.decode("utf-8")
        # a counter with labels has no sample before its first event
        declared = set(re.findall(r"^# TYPE (\w+) \w+$", octets, re.M))
        samples = set(re.findall(r"^(\w+)[{ ]", octets, re.M))
        for place, expression in expressions().items():
            with self.subTest(place):
                self.assertEqual(names_in(expression)[0] - samples - declared - {"up"}, set())
        for name in declared & {"dmr_site_info", "dmr_site_slots"}:
            self.assertIn(name, samples)
        # the values that are asked for: of gauges in the scrape, of counters in the hub's own text
        sources = "".join(path.read_text(encoding="utf-8") for path in (TOP / "python" / "temzaar" / "hub").glob("*.py"))
        for label, value in set().union(*map(values_in, expressions().values())):
            self.assertTrue(f'{label}="{value}"' in octets or f'"{value}"' in sources, f"{label}={value}")


class Dashboard(FolderCase):
    """The panels."""

    def test_panels(self) -> None:
        panels = dashboard()["panels"]
        self.assertEqual(len({panel["id"] for panel in panels}), len(panels))
        cells: set[tuple[int, int]] = set()
        for panel in panels:
            at = panel["gridPos"]
            own = {(x, y) for x in range(at["x"], at["x"] + at["w"]) for y in range(at["y"], at["y"] + at["h"])}
            self.assertFalse(own & cells, panel["title"])
            self.assertLessEqual(at["x"] + at["w"], 24)
            cells |= own
            self.assertTrue(panel["description"].endswith("."))

    def test_what_grafana_knows(self) -> None:
        """Kinds of panels, units, the letters of targets, thresholds that begin at no value, and one source of data."""
        for panel in dashboard()["panels"]:
            with self.subTest(panel["title"]):
                defaults = panel["fieldConfig"]["defaults"]
                self.assertIn(panel["type"], PANELS)
                self.assertIn(defaults["unit"], UNITS)
                self.assertEqual(panel["datasource"], {"type": "prometheus", "uid": "${datasource}"})
                self.assertEqual([it["refId"] for it in panel["targets"]], ["A", "B", "C", "D"][:len(panel["targets"])])
                steps = [it["value"] for it in defaults.get("thresholds", {"steps": [{"value": None}]})["steps"]]
                self.assertTrue(steps[0] is None and steps[1:] == sorted(steps[1:]), steps)

    def test_legends_name_labels_that_are_left(self) -> None:
        for panel in dashboard()["panels"]:
            for target in panel["targets"]:
                with self.subTest(f"{panel['title']}, {target['refId']}"):
                    expression, named = target["expr"], set(re.findall(r"\{\{(\w+)\}\}", target["legendFormat"]))
                    left = set().union(*(METRICS[it] for it in names_in(expression)[0])) | OF_PROMETHEUS
                    if kept := re.match(r"sum by \(([^)]*)\)", expression):
                        left = set(re.split(r",\s*", kept[1]))
                    self.assertEqual(named - left, set())
                    self.assertLessEqual({"site", "instance"}, named)

    def test_variables(self) -> None:
        self.assertEqual([it["name"] for it in dashboard()["templating"]["list"]], ["datasource", "site", "instance"])
        used = set(re.findall(r"\$\{?(\w+)", DASHBOARD.read_text(encoding="utf-8")))
        self.assertEqual(used, {"datasource", "site", "instance", "__rate_interval", "__all"})
        for it in dashboard()["templating"]["list"][1:]:
            metrics, labels = names_in(re.sub(r"^label_values\((.*), (\w+)\)$", r"sum by (\2) (\1)", it["query"]))
            self.assertEqual((metrics, labels - OF_PROMETHEUS), ({"dmr_site_info"}, set()))
        for place, expression in expressions().items():
            if place.startswith("panel "):
                self.assertEqual(expression.count('instance=~"$instance"'), expression.count("{"), place)

    def test_promtool_reads_the_expressions(self) -> None:
        rules = "".join(f"      - record: panel:{number}\n        expr: '{it}'\n" for number, it in enumerate(expressions().values())).replace("$__rate_interval", "5m")
        text = f"groups:\n  - name: panels\n    rules:\n{rules}"
        expect_accepted("check", "rules", self.write("panels.yml", text))
