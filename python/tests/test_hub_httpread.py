"""Requests of HTTP from octets: what is read, what is refused, and how long the octets of strangers take. Their queries have values of each kind, and refusals
that name the key."""
import time
import unittest
from http import HTTPStatus

from temzaar.hub.boardviews import CALL_KEYS, EVENT_KEYS, HISTORY_KEYS, NAME_KEYS, RADIO_KEYS
from temzaar.hub.httpread import MOST_TAGS, BadRequest, Request, read_query
from tests.made_records import NOON

NO_NUMBER = "not a whole number: 1 to 16777215"
NO_TIME = "not a time with a zone, as 2026-11-27T08:00:00Z, or milliseconds since 1970"
HOSTS = frozenset({"localhost"})
# The most octets that a request may have, and the seconds of the processor that they may take.
MOST_OCTETS, SECONDS = 65536, 0.005
# One octet of each kind, and a few that a pattern may take together.
KINDS = (b" ", b"\t", b"a", b"A", b"0", b":", b'"', b'""', b"*", b",", b";", b"/", b"?", b"&", b"=", b"&a=1", b"%41", b"W/", b'W/"', b".", b"-",
         b"!", b"[", b"\\", b"\r", b"\n", b"\r\n", b"\0", b"\x1b", b"\x7f", b"\x85", b"\xa0", b"\xb2", b"\xff", b": ", b" :", b" a", b"a:b\r\n")
# The places of a request at which the octets may be.
PLACES = (b"%s", b"%s / HTTP/1.1\r\nHost: localhost", b"GET %s HTTP/1.1\r\nHost: localhost", b"GET /%s HTTP/1.1\r\nHost: localhost",
          b"GET /?%s HTTP/1.1\r\nHost: localhost", b"GET / %s\r\nHost: localhost", b"GET / HTTP/1.1\r\n%s: b\r\nHost: localhost",
          b"GET / HTTP/1.1\r\na: b%sc\r\nHost: localhost", b"GET / HTTP/1.1\r\na: %s\r\nHost: localhost", b"GET / HTTP/1.1\r\nHost: localhost:%s1x",
          b"GET / HTTP/1.1\r\nHost: %s:80", b"GET / HTTP/1.1\r\nHost: localhost\r\nIf-None-Match: %s",
          b'GET / HTTP/1.1\r\nHost: localhost\r\nIf-None-Match: "%s')


def seconds_of(octets: bytes) -> float:
    """How much of the processor's time a request takes, in the best of three tries."""
    times = []
    for _ in range(3):
        began = time.thread_time()
        try:
            Request.read(octets, HOSTS)
        except BadRequest:
            pass
        times.append(time.thread_time() - began)
        if times[-1] < SECONDS:
            break
    return min(times)


class Read(unittest.TestCase):
    """Single requests."""

    def test_each_kind_of_octet_takes_little_time(self) -> None:
        for place in PLACES:
            for kind in KINDS:
                count = (MOST_OCTETS - len(place)) // len(kind)
                with self.subTest(place=place, kind=kind):
                    self.assertLess(seconds_of(place.replace(b"%s", kind * count)), SECONDS)

    def test_values(self) -> None:
        request = Request.read(b'HEAD /a?b?c HTTP/1.0\r\nX:\t a  b \t\r\nIf-None-Match: W/"1", "2"\r\nIF-NONE-MATCH:*', HOSTS)
        self.assertEqual(request, Request(True, "/a", "b?c", ('"1"', '"2"', "*")))
        self.assertTrue(request.has('"9"'))
        self.assertFalse(Request(False, "/").has('"9"'))
        self.assertFalse(request.has(None))

    def test_tags_are_read_up_to_a_limit(self) -> None:
        tags = ", ".join(f'"{number}"' for number in range(MOST_TAGS + 1))
        self.assertEqual(len(Request.read(f"GET / HTTP/1.0\r\nIf-None-Match: {tags}".encode(), HOSTS).tags), MOST_TAGS)

    def test_hosts(self) -> None:
        for host, is_ours in (("localhost", True), ("LocalHost:7190", True), ("localhost:", True), ("localhost:7190:7190", False), ("localhost:x", False),
                              ("localhost.", False), ("localhost:\xb2", False), ("", False), ("evil.example", False)):
            octets = f"GET / HTTP/1.1\r\nHost: {host}".encode("latin-1")
            with self.subTest(host):
                if is_ours:
                    Request.read(octets, HOSTS)
                else:
                    with self.assertRaises(BadRequest) as refused:
                        Request.read(octets, HOSTS)
                    self.assertEqual(refused.exception.status, HTTPStatus.MISDIRECTED_REQUEST)

    def test_first_lines(self) -> None:
        for line, status in (("GET / HTTP/1.1 ", 400), (" GET / HTTP/1.1", 400), ("GET /a b HTTP/1.1", 400), ("GET  HTTP/1.1", 400), ("GET / HTTP/1.\xb2", 400),
                             ("GET /\xff HTTP/1.1", 400), ("GET / HTTP/11", 400), ("GET / HTTP/1.10", 400), ("GET / HTTP/0.9", 505), ("get / HTTP/1.1", 405)):
            with self.subTest(line), self.assertRaises(BadRequest) as refused:
                Request.read(f"{line}\r\nHost: localhost\r\n\r\n".encode("latin-1"), HOSTS)
            self.assertEqual(refused.exception.status, status)


class Queries(unittest.TestCase):
    """Queries that are accepted, and others."""

    def test_values(self) -> None:
        self.assertEqual(read_query("", CALL_KEYS), {})
        self.assertEqual(read_query("radio=1001&group=91&last=7", CALL_KEYS), {"radio": 1001, "group": 91, "last": 7})
        self.assertEqual(read_query("&radio=0001&", CALL_KEYS), {"radio": 1})
        self.assertEqual(read_query("span=day", HISTORY_KEYS), {"span": "day"})
        self.assertEqual(read_query("begins=10&most=200", RADIO_KEYS), {"begins": 10, "most": 200})
        for text, found in (("007", "007"), ("Bus%2012", "Bus 12"), ("s%C3%BCd", "süd"), ("a+b", "a+b"), ("%zz", "%zz"), ("%26%3D", "&="), ("x" * 40, "x" * 40)):
            self.assertEqual(read_query(f"find={text}&most=5", NAME_KEYS), {"find": found, "most": 5})

    def test_times(self) -> None:
        """Half past twelve in UTC, in each form: milliseconds, and ISO 8601 with a zone."""
        for text in (f"{NOON + 1_800_000}", f"0{NOON + 1_800_000}", "2026-11-27T12:30:00Z", "2026-11-27T12:30:00.000Z", "2026-11-27T12:30Z", "2026-11-27T14:30:00+02:00", "2026-11-27T14:30:00%2B02:00", "20261127T123000Z",
                     "2026-11-27T11:00:00-01:30", "2026-11-27%2012:30:00Z"):
            for kinds in (CALL_KEYS, EVENT_KEYS):
                self.assertEqual(read_query(f"from={text}&to=0", kinds), {"from": NOON + 1_800_000, "to": 0}, text)

    def assert_refused(self, kinds: object, query: str, said: str) -> None:
        """A query is refused, with a text."""
        with self.subTest(query[:40]), self.assertRaises(BadRequest) as refused:
            read_query(query, kinds)  # type: ignore[arg-type]
        self.assertEqual((refused.exception.status, refused.exception.reason), (400, said))

    def test_refusals(self) -> None:
        unknown = "unknown key: there is radio, group, from, to, last"
        for kinds, query, said in ((CALL_KEYS, "colour=red", f"colour: {unknown}"), (CALL_KEYS, "x" * 5000, f"{'x' * 40}: {unknown}"), (CALL_KEYS, "=5", f": {unknown}"),
                                   (CALL_KEYS, "radio=1&radio=2", "radio: given twice"), (CALL_KEYS, "group=91;last=2", f"group: {NO_NUMBER}"),
                                   (CALL_KEYS, "radio=0", "radio: out of range: 1 to 16777215"), (CALL_KEYS, "radio=16777216", "radio: out of range: 1 to 16777215"),
                                   (CALL_KEYS, "last=1001", "last: out of range: 1 to 1000"), (CALL_KEYS, "last=" + "9" * 5000, "last: not a whole number: 1 to 1000"),
                                   (HISTORY_KEYS, "span=week", 'span: not "hour" or "day"'), (EVENT_KEYS, "refusals=maybe", 'refusals: not "yes" or "no"'),
                                   (EVENT_KEYS, "last=0", "last: out of range: 1 to 1000"), (RADIO_KEYS, "begins=0", "begins: out of range: 1 to 16777215"),
                                   (RADIO_KEYS, "begins=x", f"begins: {NO_NUMBER}"), (RADIO_KEYS, "most=1001", "most: out of range: 1 to 1000")):
            self.assert_refused(kinds, query, said)
        for text in ("", "=", "=-1", "=1e3", "=%31", "=\xb2"):
            self.assert_refused(CALL_KEYS, f"radio{text}", f"radio: {NO_NUMBER}")
        for text in ("", "%00", "%1B%5B2J", "%0A", "2%0a", "%C3", "%FF", "x" * 41, "%41" * 20_000, "%" * 64_000):
            self.assert_refused(NAME_KEYS, f"find={text}", "find: not a text of 1 to 40 characters")
        for text in ("", "noon", "2026-11-27", "2026-11-27T12:00:00", "12:00Z", "-1", "1e12", "253402300800000", "9" * 5000, "%FF", "2026-13-01T00:00:00Z", "1969-12-31T23:59:59Z", "0001-01-01T00:00:00%2B23:59"):
            for kinds in (CALL_KEYS, EVENT_KEYS):
                self.assert_refused(kinds, f"to={text}", f"to: {NO_TIME}")
