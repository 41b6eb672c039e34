"""A small HTTP server on loopback: GET and HEAD of a few paths, a request a connection, limits on all of it. Nothing of a request goes anywhere else.

Here are connections and their times. `httpread` reads the requests.
"""
import asyncio
import email.utils
import hashlib
from collections.abc import Callable, Iterable, Mapping
from dataclasses import dataclass, field
from http import HTTPStatus

from temzaar.hub.config import HttpKeys
from temzaar.hub.counts import HubCounts
from temzaar.hub.httpread import END, BadRequest, Request
from temzaar.hub.lineport import LOOPBACK, SHORT_OCTETS, SHORT_SECONDS, Listener, listen_on_loopback, read_on
from temzaar.hub.notes import note
from temzaar.hub.places import NoPlace, Place, Places
from temzaar.hub.roles import Role
from temzaar.hub.turn import LongWork

# For how long, and how many octets, the hub reads on after it has refused a request.
LINGER_SECONDS, LINGER_OCTETS = 0.5, 65536
TEXT, JSON, METRICS = "text/plain; charset=utf-8", "application/json", "text/plain; version=0.0.4; charset=utf-8"
# What a browser may do with a response: load nothing but the page's own files, from here, and send nothing to anywhere else.
CONTENT_POLICY = ("default-src 'none'; script-src 'self'; style-src 'self'; connect-src 'self'; img-src 'self'; "
                  "base-uri 'none'; form-action 'none'; frame-ancestors 'none'")
BROWSER_RULES = {"X-Content-Type-Options": "nosniff", "Content-Security-Policy": CONTENT_POLICY, "Referrer-Policy": "no-referrer",
                 "Cross-Origin-Resource-Policy": "same-origin"}
TAG_DIGITS = 32
# The statuses after which the hub has read the whole request, and need not read on.
WHOLE = (HTTPStatus.OK, HTTPStatus.NOT_MODIFIED, HTTPStatus.SERVICE_UNAVAILABLE)


@dataclass(frozen=True)
class Response:
    """A response."""
    body: bytes
    kind: str = TEXT
    status: HTTPStatus = HTTPStatus.OK
    headers: Mapping[str, str] = field(default_factory=dict)


def tagged_response(body: bytes, kind: str, is_stored: bool = False) -> Response:
    """A response with a tag, by which a client that has the same one already is answered 304. A browser keeps it on its disk only if `is_stored`."""
    tag = f'"{hashlib.sha256(body).hexdigest()[:TAG_DIGITS]}"'
    return Response(body, kind, HTTPStatus.OK, {"Cache-Control": "no-cache" if is_stored else "no-store", "ETag": tag})


# A path's response to a request. BadRequest: its query is refused.
View = Callable[[Request], Response]


class WebPort:
    """The port. `views` has the view of each path, and `listed` the paths that are named to those who ask for another."""

    def __init__(self, keys: HttpKeys, views: Mapping[str, View], counts: HubCounts, listed: Iterable[str]) -> None:
        self.keys, self.views, self.counts = keys, views, counts
        self.listed, self.hosts = tuple(listed), frozenset(str(it).lower() for it in keys.hosts)
        self.work, self.places = LongWork(), Places(keys.connections, keys.connections)
        self.tasks: set[asyncio.Task[None]] = set()
        self.listener: Listener | None = None

    async def open(self) -> None:
        """Opens the port, if the config has one. PortFault: it cannot be opened."""
        if not self.keys.port:
            return
        self.listener = listen_on_loopback(self.keys.port, self._accept, self.keys.header_octets)
        note(f"http: listening on {LOOPBACK}:{self.keys.port}")

    async def close(self) -> None:
        """Closes the port, and ends the connections."""
        if self.listener:
            self.listener.close()
        for task in self.tasks:
            task.cancel()
        if self.tasks:
            await asyncio.wait(set(self.tasks), timeout=self.keys.request_seconds)

    async def _accept(self, reader: asyncio.StreamReader, writer: asyncio.StreamWriter) -> None:
        """Serves a connection, unless too many are served."""
        task = asyncio.current_task()
        assert task
        self.tasks.add(task)
        try:
            await self._admit(reader, writer)
        except asyncio.CancelledError:
            pass
        except (OSError, TimeoutError):
            writer.transport.abort()
        finally:
            self.tasks.discard(task)
            writer.close()

    async def _admit(self, reader: asyncio.StreamReader, writer: asyncio.StreamWriter) -> None:
        """Serves a connection if there is a place for it. OSError, TimeoutError: the peer has gone, or does not read."""
        try:
            place = self.places.take("", Role.READ, lambda: self._give_way(writer))
        except NoPlace:
            await self._refuse(reader, writer)
            return
        try:
            await self._serve(place, reader, writer)
        finally:
            self.places.leave(place)

    def _give_way(self, writer: asyncio.StreamWriter) -> None:
        """Ends a connection whose request has not come, since another one needs its place."""
        self.counts.http_refusals.add()
        writer.transport.abort()

    async def _refuse(self, reader: asyncio.StreamReader, writer: asyncio.StreamWriter) -> None:
        """Answers that all places are taken. OSError: the peer has gone."""
        self.counts.http_refusals.add()
        with self.places.refusing() as has_time:
            writer.write(response_octets(Response(b"too many connections\n", TEXT, HTTPStatus.SERVICE_UNAVAILABLE, {"Retry-After": "1"}), False))
            if has_time:
                await read_on(reader, writer, SHORT_SECONDS, SHORT_OCTETS)

    async def _serve(self, place: Place, reader: asyncio.StreamReader, writer: asyncio.StreamWriter) -> None:
        """Reads a request and writes its response. OSError, TimeoutError: the peer has gone, or does not read."""
        is_head = False
        try:
            async with asyncio.timeout(self.keys.request_seconds):
                request = Request.read(await reader.readuntil(END), self.hosts)
            place.has_spoken = True
            is_head = request.is_head
            response = await self.work.do(lambda: self._respond(request))
        except BadRequest as fault:
            response = Response(f"{fault.reason}\n".encode(), TEXT, fault.status, fault.headers)
        except asyncio.LimitOverrunError:
            response = Response(b"the request is too large\n", TEXT, HTTPStatus.REQUEST_HEADER_FIELDS_TOO_LARGE)
        except TimeoutError:
            response = Response(b"the request did not come in time\n", TEXT, HTTPStatus.REQUEST_TIMEOUT)
        except asyncio.IncompleteReadError as fault:
            if not fault.partial or writer.transport.is_closing():
                return
            response = Response(b"the request is not whole\n", TEXT, HTTPStatus.BAD_REQUEST)
        self.counts.http_requests.add(code=str(response.status.value))
        writer.write(response_octets(response, is_head))
        async with asyncio.timeout(self.keys.request_seconds):
            await writer.drain()
            if response.status not in WHOLE:
                await read_on(reader, writer, LINGER_SECONDS, LINGER_OCTETS)
            writer.close()
            await writer.wait_closed()

    def _respond(self, request: Request) -> Response:
        """The response to a request, without a body if the client has it. BadRequest: there is none."""
        view = self.views.get(request.path)
        if view is None:
            raise BadRequest(HTTPStatus.NOT_FOUND, "there is " + ", ".join(self.listed))
        response = view(request)
        return Response(b"", response.kind, HTTPStatus.NOT_MODIFIED, response.headers) if request.has(response.headers.get("ETag")) else response


def response_octets(response: Response, is_head: bool) -> bytes:
    """A response as octets, to HEAD without its body."""
    status = response.status
    # 304 has no body, and no headers of one
    content = {} if status == HTTPStatus.NOT_MODIFIED else {"Content-Type": response.kind, "Content-Length": str(len(response.body))}
    headers = {"Date": email.utils.formatdate(usegmt=True), "Server": "dmr_hub", **content, "Cache-Control": "no-store", **BROWSER_RULES, **response.headers,
               "Connection": "close"}
    head = f"HTTP/1.1 {status.value} {status.phrase}\r\n" + "".join(f"{name}: {value}\r\n" for name, value in headers.items()) + "\r\n"
    return head.encode("latin-1") + (b"" if is_head else response.body)
