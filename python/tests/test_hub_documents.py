"""The hub's documents and files: docs/HUB.md has its metrics, and deploy/ its config file, with each key, and its unit."""
import dataclasses
import re
import tomllib
import unittest

from temzaar.console import Parties
from temzaar.hub import audit, eventfeed, eventwatch, lineport, namebook, notes, places, recordreader, roles, session, turn
from temzaar.hub.boardviews import CALL_KEYS, EVENT_KEYS, NAME_KEYS, RADIO_KEYS, call_view
from temzaar.hub.config import Config, RoleKeys, read_config
from temzaar.hub.counts import Histogram
from temzaar.hub.eventlog import EventFilter, EventLog, KeptEvent
from temzaar.hub.eventviews import event_view, events_view
from temzaar.hub.lines import OWN
from temzaar.hub.model import SiteModel
from temzaar.hub.moment import Moment
from temzaar.hub.newrecords import EVENT_SECONDS
from temzaar.hub.pagefiles import load_page
from temzaar.hub.samples import FIGURES, KINDS, Samples, count_spans
from temzaar.hub.seencalls import MOST_ENDED, CallLog, SeenCall
from temzaar.hub.session import HELP
from temzaar.names import MOST_PRINTED, NO_NAMES, Kind, names_of
from temzaar.siteevents import MOST_OF_A_KIND, NEED_ACKNOWLEDGEMENT, EventKind, SiteEvent
from tests.hub_support import HubCase, array_octets, wait_until
from tests.made_records import make_records
from tests.support import TOP, metric_rows, read_document, table_rows

HUB = read_document("HUB.md")
SECTIONS = {field.name: type(field.default) for field in dataclasses.fields(Config)}


class Documented(unittest.TestCase):
    """The document, the config file and the unit."""

    def test_keys(self) -> None:
        """deploy/hub.toml says of each key what it is, and its range, and of each section what it is for."""
        lines = (TOP / "deploy" / "hub.toml").read_text(encoding="utf-8").splitlines()
        for name, section in SECTIONS.items():
            at = lines.index(f"[{name}]")
            self.assertEqual(lines[at - 1], f"# {section.__doc__}")
            for field in dataclasses.fields(section):
                at = next(n for n in range(at, len(lines)) if lines[n].startswith(f"{field.name} = "))
                begins = next(n for n in range(at, 0, -1) if not lines[n - 1].startswith("#"))
                unit = " s" if field.name.endswith("_seconds") else ""
                about = field.metadata["about"]
                self.assertTrue(lines[begins].startswith(f"# {about[:1].upper()}{about[1:]}: {field.metadata['kind'].says}{unit}."), (field.name, lines[begins]))

    def test_the_config_file_has_every_key(self) -> None:
        text = (TOP / "deploy" / "hub.toml").read_text(encoding="utf-8")
        tables = tomllib.loads(text)
        self.assertEqual({name: [*table] for name, table in tables.items()}, {name: [field.name for field in dataclasses.fields(section)] for name, section in SECTIONS.items()})
        config = read_config(text)
        differing = {(name, field.name) for name, section in SECTIONS.items() for field in dataclasses.fields(section)
                     if getattr(getattr(config, name), field.name) != field.default}
        self.assertEqual(differing, {("roles", "full_users"), ("audit", "max_octets")})
        self.assertEqual(RoleKeys().full_users, ())

    def test_the_page(self) -> None:
        """Queries, keys and figures of the page's paths, and how much memory they take."""
        queries = [(title, name, kind.says) for title, kinds in (("radios", RADIO_KEYS), ("names", NAME_KEYS), ("calls", CALL_KEYS), ("events", EVENT_KEYS)) for name, kind in kinds.items()]
        # a row may be of several paths and keys with one range
        self.assertEqual(sorted((title, name, row[2]) for row in table_rows(HUB, "| query of | key") for title in row[0].split(", ") for name in row[1].split(", ")), sorted(queries))
        self.assertEqual([name for row in table_rows(HUB, "| figure, count | what it is") for name in row[0].split(", ")], [*FIGURES, *KINDS])
        call = call_view(SeenCall(1, (0, 1), Parties("group", 91, 1001), Moment(0, 0), False), NO_NAMES)
        named = " ".join(cell for row in table_rows(HUB[HUB.index("### Seen calls"):], "| key | value") for cell in row)
        self.assertEqual([name for name in call if not re.search(rf"\b{name}\b", named)], [])
        memory = dict(table_rows(HUB, "| what | limit |"))["memory of the page"]  # type: ignore[arg-type]
        for text in ("files, about 70,000 octets", f"samples, {array_octets(Samples()):,}", f"the last {MOST_ENDED:,} calls that ended, {len(CallLog().ended.octets):,}", f"their counts {array_octets(count_spans()):,}"):
            self.assertIn(text, memory)
        self.assertIn(f"at most, {MOST_ENDED:,}", HUB)
        self.assertEqual(round(sum(len(it.body) for it in load_page().values()), -4), 70_000)

    def test_the_limits(self) -> None:
        """The numbers of the table of limits are those of the code."""
        rows = dict(table_rows(HUB, "| what | limit |"))  # type: ignore[arg-type]
        for what, said in (
                ("silent connections", f"for {places.SILENT_SECONDS:g} s at least"), ("refused HTTP connections", f"at most {places.MOST_REFUSED} at a time"),
                ("connects to a port", f"{lineport.ACCEPTS_PER_SECOND:g} a second, and {lineport.ACCEPTS_AT_ONCE} at once after a rest; {lineport.BACKLOG:,} wait"),
                ("lines of a user", f"{session.LINES_PER_SECOND:g} a second over all connections, and {session.LINES_AT_ONCE} at once after a rest; further ones wait. {session.PIECE:,} octets"),
                ("notes", f"{notes.MOST_NOTES} about a user of each kind in a minute"),
                ("a user's name, the audit log, the records, the file of names",
                 f"{roles.NAME_SECONDS:g} s, {audit.WRITE_SECONDS:g} s, {recordreader.LOOK_SECONDS:g} s and {namebook.LOOK_SECONDS:g} s")):
            self.assertIn(said, rows[what])
        self.assertEqual((session.REFUSALS_PER_SECOND, session.MOST_REFUSALS, session.REFUSALS_SECONDS, notes.NOTES_SECONDS, turn.SHARE), (2, 10, 3600, 60, 0.25))

    def test_names(self) -> None:
        """What the hub notes of bad lines."""
        self.assertEqual(MOST_PRINTED, 5)
        self.assertIn("The hub notes five of them", HUB)

    def test_events(self) -> None:
        """The kinds, and which need an acknowledgement; how many are kept, and how much is read; and the keys of an event."""
        rows = table_rows(HUB, "| event | what happened")
        self.assertEqual({name: row[3] != "no" for row in rows for name in row[0].split(", ")}, {kind.value: kind in NEED_ACKNOWLEDGEMENT for kind in EventKind})
        limits = dict(table_rows(HUB, "| what | limit |"))  # type: ignore[arg-type]
        self.assertIn(f"the newest {MOST_OF_A_KIND} of each kind", limits["events"])
        self.assertIn(f"{audit.TAIL_OCTETS // 1024} KiB each", limits["events"])
        self.assertEqual((EVENT_SECONDS, eventfeed.SLACK_SECONDS, eventfeed.SLACK_POLLS, eventwatch.AWAY_SECONDS, eventwatch.REJOIN_SECONDS, eventwatch.RECORDS_SECONDS), (86_400, 5, 5, 1, 10, 60))
        event = SiteEvent(0, EventKind.REFUSED, 1, 2, 3, "none", "stay", "alice", "ok", 2, 5)
        names = names_of([((Kind.CARRIER, 1), "A"), ((Kind.RADIO, 2), "B"), ((Kind.RADIO, 3), "C")])
        keys = [*event_view(KeptEvent(1, event, True), None, names), *events_view(EventLog(), EventFilter(), 1, None, NO_NAMES)]
        named = " ".join(cell for row in table_rows(HUB, "| key of the list of events") for cell in row)
        self.assertEqual([name for name in keys if not re.search(rf"\b{name}\b", named)], [])

    def test_own_commands(self) -> None:
        self.assertEqual({row[0].split()[0].rstrip(",") for row in table_rows(HUB, "| line | reply")}, set(OWN))
        commands = [row[0] for row in table_rows(read_document("FORMATS.md"), "## Console")]
        self.assertEqual([command for command, _ in HELP][:len(commands)], commands)

    def test_the_unit_is_as_hard_as_the_controllers(self) -> None:
        """Each setting of the controller's unit that takes something away is in the hub's too, but for those that the hub cannot work with, and for the output of dmr_check."""
        ours, other = ((TOP / "deploy" / name).read_text(encoding="utf-8") for name in ("dmr_hub.service", "dmr_trunk.service"))
        settings = re.findall(r"^((?:Protect|Private|Restrict|Capability|Ambient|NoNew|Lock|MemoryDeny|SystemCall|Remove|ProcSubset|LimitCORE|DynamicUser|Standard)\w*=.*)$", other, re.M)
        self.assertGreater(len(settings), 25)
        self.assertEqual([it for it in settings if f"\n{it}\n" not in ours], ["PrivateUsers=yes", "RestrictAddressFamilies=AF_INET", "StandardOutput=journal"])
        for line in ("User=dmr_hub", "After=dmr_trunk.service", "Wants=dmr_trunk.service", "Type=notify", "RestrictAddressFamilies=AF_INET AF_UNIX"):
            self.assertIn(f"\n{line}\n", ours)


class Metrics(HubCase):
    """The table of metrics."""

    async def test_metrics(self) -> None:
        make_records(self.db).with_name("site.lock").write_text("dmr_trunk 0.1.0\n", encoding="utf-8")
        hub = await self.start(config=self.config(records=self.db))
        await wait_until(lambda: hub.model.picture is not None and hub.records and hub.records.last)
        series = hub.views.all_series()
        shown = [(it.name, "histogram" if isinstance(it, Histogram) else it.kind) for it in series]
        rows = metric_rows(HUB)
        self.assertEqual({name: kind for name, kind, _ in rows}, dict(shown))
        self.assertEqual(len(rows), len(shown))
        # what each is only its HELP says
        self.assertEqual([it.name for it in series if not re.fullmatch(r"[A-Z].*\.", it.about)], [])
        # without records, and while the controller is away too
        unread = {it.name for it in dataclasses.replace(hub.views, records=None).all_series()}
        always = {it.name for it in dataclasses.replace(hub.views, records=None, model=SiteModel()).all_series()}
        there = {name: row[2] for row in table_rows(HUB, "| metrics, with their labels") for name in re.findall(r"\w+_\w+", row[0])}
        self.assertEqual(there, {name: "always" if name in always else "up" if name in unread else "records" for name, _ in shown})
        labels = {name: used for name, _, used in rows}
        for it in series:
            if not isinstance(it, Histogram):
                for used in it.values:
                    self.assertEqual({label for label, _ in used}, labels[it.name])
