"""A request of HTTP, read from octets, and its query. Nothing here waits, reads or writes.

The octets are those of strangers. So no pattern has two parts that can trade the same octets, and a test measures how long
64 KiB of each kind of octet take.
"""
import re
from collections.abc import Collection, Iterator, Mapping
from dataclasses import dataclass
from http import HTTPStatus
from itertools import islice
from typing import Any

from temzaar.hub.keys import Kind

END = b"\r\n\r\n"
MOST_HEADERS = 64
# How many tags of responses that the client has are looked at. A browser sends one.
MOST_TAGS = 16
# How many digits a number of a query has at most, and how much of an unknown key is shown.
MOST_DIGITS, MOST_SHOWN = 8, 40
VERSION = re.compile(r"HTTP/([0-9]\.[0-9])")
NAME = re.compile(r"[!#$%&'*+.^_`|~0-9A-Za-z-]+")
TAG = re.compile(r'"[^"]*"|\*')
Headers = list[tuple[str, str]]
# The keys of a query, each with the kind of its value.
Kinds = Mapping[str, Kind]


class BadRequest(Exception):
    """A request that is refused: with which status, why, and further headers of the response."""

    def __init__(self, status: HTTPStatus, reason: str, headers: Mapping[str, str] | None = None) -> None:
        super().__init__(reason)
        self.status, self.reason = status, reason
        self.headers: Mapping[str, str] = headers or {}


@dataclass(frozen=True)
class Request:
    """What the hub needs of a request: its path and query, and the tags of the responses that the client has."""
    is_head: bool
    path: str
    query: str = ""
    tags: tuple[str, ...] = ()

    @classmethod
    def read(cls, octets: bytes, hosts: Collection[str]) -> "Request":
        """The request of some octets, up to the empty line; `hosts` has the names in lower case that it may give as its host.
        BadRequest: it is refused."""
        lines = octets.removesuffix(END).decode("latin-1").split("\r\n", MOST_HEADERS + 1)
        method, target, version = read_first_line(lines[0])
        if version not in ("1.0", "1.1"):
            raise BadRequest(HTTPStatus.HTTP_VERSION_NOT_SUPPORTED, "HTTP/1.0 or HTTP/1.1")
        if method not in ("GET", "HEAD"):
            raise BadRequest(HTTPStatus.METHOD_NOT_ALLOWED, "only GET and HEAD", {"Allow": "GET, HEAD"})
        headers = read_headers(lines[1:])
        check_headers(headers, version, hosts)
        if not target.startswith("/"):
            raise BadRequest(HTTPStatus.BAD_REQUEST, "a path is needed")
        path, _, query = target.partition("?")
        return cls(method == "HEAD", path, query, tuple(islice(read_tags(headers), MOST_TAGS)))

    def has(self, tag: str | None) -> bool:
        """Whether the client has the response with this tag already."""
        return tag is not None and ("*" in self.tags or tag in self.tags)


def read_first_line(line: str) -> tuple[str, str, str]:
    """The method, the target and the version of a request. BadRequest: it is not one."""
    words = line.split(" ", 3)
    version = VERSION.fullmatch(words[-1])
    if len(words) != 3 or not version or not all(word and word.isascii() and word.isprintable() for word in words):
        raise BadRequest(HTTPStatus.BAD_REQUEST, "not a request")
    return words[0], words[1], version[1]


def read_headers(lines: list[str]) -> Headers:
    """The names, in lower case, and values of header lines. BadRequest: one of them is not a header."""
    if len(lines) > MOST_HEADERS:
        raise BadRequest(HTTPStatus.REQUEST_HEADER_FIELDS_TOO_LARGE, "too many headers")
    headers = []
    for line in lines:
        name, colon, value = line.partition(":")
        if not colon or not NAME.fullmatch(name) or not value.replace("\t", " ").isprintable():
            raise BadRequest(HTTPStatus.BAD_REQUEST, "not a header")
        headers.append((name.lower(), value.strip(" \t")))
    return headers


def read_tags(headers: Headers) -> Iterator[str]:
    """The tags of the responses that a client has."""
    for name, value in headers:
        if name == "if-none-match":
            yield from (found[0] for found in TAG.finditer(value))


def host_name(value: str) -> str:
    """The name of a host in lower case, without the port."""
    name, colon, port = value.rpartition(":")
    is_port = colon and port.isascii() and (port.isdecimal() or not port)
    return (name if is_port else value).lower()


def check_headers(headers: Headers, version: str, hosts: Collection[str]) -> None:
    """Checks the host, by which a web page of elsewhere is kept from reading the site through a browser here.
    BadRequest: it or a body is refused."""
    named = [value for name, value in headers if name == "host"]
    if len(named) > 1 or (not named and version == "1.1"):
        raise BadRequest(HTTPStatus.BAD_REQUEST, "one host is needed")
    if named and host_name(named[0]) not in hosts:
        raise BadRequest(HTTPStatus.MISDIRECTED_REQUEST, "not a host of this port")
    if any(name == "transfer-encoding" or (name == "content-length" and value != "0") for name, value in headers):
        raise BadRequest(HTTPStatus.BAD_REQUEST, "a request has no body here")


def read_query(text: str, kinds: Kinds) -> dict[str, Any]:
    """The values of a query, as `radio=1001&last=50`, by its keys, each of its kind. BadRequest: a key is unknown, given twice, or of a wrong value; the
    text names it."""
    values: dict[str, Any] = {}
    for part in filter(None, text.split("&")):
        name, _, value = part.partition("=")
        try:
            if name not in kinds:
                raise ValueError(f"unknown key: there is {', '.join(kinds)}")
            if name in values:
                raise ValueError("given twice")
            # in a text zeros before a number count, and a time has more digits
            is_number = not kinds[name].is_text and value.isascii() and value.isdecimal() and len(value) <= MOST_DIGITS
            values[name] = kinds[name].read(int(value) if is_number else value)
        except ValueError as fault:
            raise BadRequest(HTTPStatus.BAD_REQUEST, f"{name[:MOST_SHOWN]}: {fault}") from fault
    return values
