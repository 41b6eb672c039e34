"""The hub as a whole, from start to stop."""
import asyncio
import contextlib
import os
import signal
import stat
from http import HTTPStatus

from temzaar.faults import ToolFault
from temzaar.hub.audit import AuditFault, AuditLog
from temzaar.hub.boardviews import BoardViews
from temzaar.hub.config import Config
from temzaar.hub.counts import HubCounts
from temzaar.hub.eventfeed import EventFeed
from temzaar.hub.eventlog import EventLog
from temzaar.hub.eventwatch import LOOK_SECONDS, EventWatch
from temzaar.hub.httpread import Request
from temzaar.hub.lineport import STOP_SECONDS, LinePort
from temzaar.hub.link import ConsoleLink
from temzaar.hub.model import SiteModel
from temzaar.hub.moment import Moment
from temzaar.hub.namebook import NameBook
from temzaar.hub.newrecords import EVENT_SECONDS
from temzaar.hub.notes import note, notify_systemd, warn, watchdog_seconds
from temzaar.hub.pagefiles import PREFIX, load_page
from temzaar.hub.poller import Poller
from temzaar.hub.recordreader import RecordReader
from temzaar.hub.roles import Rules
from temzaar.hub.session import Desk
from temzaar.hub.turn import repeat
from temzaar.hub.views import Views
from temzaar.hub.web import JSON, METRICS, TEXT, Response, View, WebPort
from temzaar.sitefile import ConsolePlace, SiteFault, read_console_place


class Hub:
    """The parts of the hub."""

    def __init__(self, config: Config, rules: Rules) -> None:
        self.config, self.counts, self.model = config, HubCounts(), SiteModel()
        begun = Moment.now()
        self.events = EventLog(int(1000 * (begun.wall - EVENT_SECONDS)))
        self.feed = EventFeed(self.events, config.poll.state_seconds, int(1000 * begun.wall))
        self.link = ConsoleLink(self._read_place, config.controller, self.counts, self._report_link)
        self.poller = Poller(self.link, self.model, config.poll)
        self.audit = AuditLog(config.audit)
        self.book = NameBook(config.names)
        self.desk = Desk(self.link, self.audit, config.line_port, self.counts, self.poller.hurry, config.controller.name, self.book, self.events, lambda: self.model.control)
        self.line_port = LinePort(self.desk, rules)
        self.records = RecordReader(config.records, self.model.samples, self.feed.take_recorded) if config.records.file else None
        self.watch = EventWatch(self.feed, self.link, self.model, self.book, self.records)
        self.poller.on_picture = self._look
        self.views = Views(config, self.link, self.model, self.counts, self.desk.sessions, begun, self.records, self.book, self.events)
        self.board = BoardViews(self.views)
        views = {**self._load_page(), **self._views_for_machines()}
        self.web_port = WebPort(config.http, views, self.counts, [path for path in views if not path.startswith(PREFIX)])
        self.stopping = asyncio.Event()

    def _views_for_machines(self) -> dict[str, View]:
        """The views for machines, by their paths."""
        board = self.board
        return {"/v1/site.json": lambda _: Response(self.views.site_json(), JSON), "/v1/state.json": board.state_json, "/v1/radios.json": board.radios_json,
                "/v1/names.json": board.names_json, "/v1/calls.json": board.calls_json, "/v1/events.json": board.events_json, "/v1/history.json": board.history_json,
                "/metrics": lambda _: Response(self.views.metrics(), METRICS), "/healthz": self._health}

    def _load_page(self) -> dict[str, View]:
        """The files of the page as views, by their paths. There are none without an HTTP port, or if they cannot be read: the hub does its other work then."""
        try:
            files = load_page() if self.config.http.port else {}
        except ToolFault as fault:
            warn(f"page: cannot read {fault}")
            files = {}
        return {path: constant_view(response) for path, response in files.items()}

    def _read_place(self) -> ConsolePlace:
        """The console that the site file names now. SiteFault: it names none."""
        path = self.config.controller.site_file
        # a pipe would keep the loop waiting for somebody who writes
        with contextlib.suppress(OSError):
            if not stat.S_ISREG(os.stat(path).st_mode):
                raise SiteFault(f"site file {path}: not a file")
        return read_console_place(path)

    def _health(self, _: Request) -> Response:
        """Whether all is well, as a response."""
        faults = self.views.health_faults()
        return Response("".join(f"{it}\n" for it in faults or ["ok"]).encode("utf-8", "replace"), TEXT, HTTPStatus.SERVICE_UNAVAILABLE if faults else HTTPStatus.OK)

    def _look(self) -> None:
        """Looks for events."""
        self.watch.look(Moment.now())

    def _report_link(self) -> None:
        """Notes that the controller answers, or why it does not."""
        state = self.link.state
        self._look()
        if state.is_up:
            note(f"controller: the console {self.link.place.name if self.link.place else ''} answers")
            self.poller.hurry()
        elif not self.stopping.is_set():
            warn(f"controller: away: {state.reason}")

    def stop(self) -> None:
        """Begins the end."""
        self.stopping.set()

    async def run(self) -> None:
        """Serves until a signal or `stop` ends it. AuditFault, PortFault: it cannot begin."""
        loop = asyncio.get_running_loop()
        for number in (signal.SIGTERM, signal.SIGINT):
            with contextlib.suppress(ValueError, RuntimeError):
                loop.add_signal_handler(number, self.stop)
        # a terminal that is closed, or a habit of those who rotate logs, does not end the hub
        with contextlib.suppress(ValueError, RuntimeError):
            loop.add_signal_handler(signal.SIGHUP, note, "SIGHUP: the config file is read at the start alone")
        try:
            await self.audit.begin()
        except AuditFault as fault:
            self.audit.close()
            raise AuditFault(f"audit log: {fault}") from fault
        await self._restore_events()
        tasks: list[asyncio.Task[None]] = []
        files = [it for it in (self.records, self.book) if it and it.keys.file]
        waiting = asyncio.create_task(self.stopping.wait())
        try:
            await self.line_port.open()
            await self.web_port.open()
            works = [self.link.run(), self.poller.run(), repeat(self._look, LOOK_SECONDS), *(repeat(it.look, it.keys.read_seconds) for it in files)]
            if seconds := watchdog_seconds():
                works.append(feed_watchdog(seconds / 3))
            tasks += map(asyncio.create_task, works)
            notify_systemd("READY=1")
            await asyncio.wait({waiting, *tasks}, return_when=asyncio.FIRST_COMPLETED)
            for task in tasks:
                if task.done():
                    task.result()
        finally:
            self.stop()
            notify_systemd("STOPPING=1")
            await self.web_port.close()
            await self.line_port.close()
            for task in (*tasks, waiting):
                task.cancel()
            await asyncio.wait({*tasks, waiting}, timeout=STOP_SECONDS)
            for it in files:
                it.worker.close()
            await self.desk.end()
            self.audit.close()

    async def _restore_events(self) -> None:
        """Begins the events with what the audit log has of them."""
        try:
            self.feed.restore(await self.audit.read_last(), self.events.begins_ms)
        except AuditFault as fault:
            warn(f"audit log: {fault}; who sent earlier commands is not known")
        self.audit.on_record = self.feed.take_audit
        self.watch.begin(self.views.begun)


async def feed_watchdog(seconds: float) -> None:
    """Reports to systemd again and again that the loop turns, until it is cancelled."""
    while True:
        await asyncio.sleep(seconds)
        notify_systemd("WATCHDOG=1")


def constant_view(response: Response) -> View:
    """A view that is always the same."""
    return lambda _: response
