"""The hub's audit log."""
import asyncio
import json
import os
import shutil
import tempfile
import unittest
from unittest import mock

from temzaar.hub.audit import TAIL_OCTETS, AuditFault, AuditLog
from temzaar.hub.config import AuditKeys
from tests.hub_support import HubCase, wait_until


class Written(unittest.TestCase):
    """The file."""

    def setUp(self) -> None:
        self.folder = self.enterContext(tempfile.TemporaryDirectory())
        self.path = os.path.join(self.folder, "audit.jsonl")

    def log(self, **keys: int) -> AuditLog:
        """A log in the test's folder."""
        made = AuditLog(AuditKeys(file=self.path, **keys))
        self.addCleanup(made.close)
        return made

    def read(self, name: str = "") -> str:
        """A file of the log."""
        with open(self.path + name, encoding="ascii") as it:
            return it.read()

    def test_lines_are_appended_and_on_the_disk(self) -> None:
        log = self.log()
        with mock.patch("os.fsync", wraps=os.fsync) as synced:
            asyncio.run(log.record({"line": "drop \u00e9\n"}))
            asyncio.run(log.record({"line": "stay"}))
        self.assertEqual(self.read(), '{"line":"drop \\u00e9\\n"}\n{"line":"stay"}\n')
        self.assertGreaterEqual(synced.call_count, 2)
        self.assertEqual(os.stat(self.path).st_mode & 0o777 & ~0o640, 0)
        again = self.log()
        again.append(b"{}\n")
        self.assertEqual(self.read().count("\n"), 3)

    def test_a_torn_line_is_ended(self) -> None:
        with open(self.path, "w", encoding="ascii") as it:
            it.write('{"a":1}\n{"b"')
        self.log().append(b"{}\n")
        self.assertEqual(self.read(), '{"a":1}\n{"b"\n{}\n')

    def test_a_file_that_was_moved_away(self) -> None:
        log = self.log()
        log.append(b"1\n")
        os.rename(self.path, self.path + ".old")
        log.append(b"2\n")
        self.assertEqual((self.read(".old"), self.read()), ("1\n", "2\n"))

    def test_files_by_size(self) -> None:
        log = self.log(max_octets=20, keep=2)
        for number in range(1, 8):
            log.append(b"%d23456789\n" % number)
        # two lines a file; the oldest file is lost
        self.assertEqual((self.read(".2"), self.read(".1"), self.read()), ("323456789\n423456789\n", "523456789\n623456789\n", "723456789\n"))
        self.assertFalse(os.path.exists(self.path + ".3"))
        log.append(b"x" * 100 + b"\n")
        self.assertEqual(self.read(), "x" * 100 + "\n")

    def test_a_link_is_not_followed(self) -> None:
        os.symlink("/dev/null", self.path)
        self.assertRaises(OSError, self.log().append, b"1\n")

    def test_the_last_records(self) -> None:
        """Those of the file before this one come first. Lines that are torn or no object are left out; of a long file the end is read; other things than files are not."""
        log = self.log()
        self.assertEqual(asyncio.run(log.read_last()), [])
        for name, text in (("", '{"n":3}\n{"n":4}\n[5]\n"x"\n{"n":'), (".1", '{"n":1}\nnothing\n\xff\n{"n":2}\n')):
            with open(self.path + name, "w", encoding="latin-1") as it:
                it.write(text)
        self.assertEqual(asyncio.run(log.read_last()), [{"n": number} for number in (1, 2, 3, 4)])
        with open(self.path, "w", encoding="ascii") as it:
            it.writelines(f'{{"n":{number:010}}}\n'.replace("0000", "1111", 1) for number in range(100_000))
        found = asyncio.run(log.read_last())
        # a line has 17 octets
        self.assertEqual((len(found), found[-1]), (2 + TAIL_OCTETS // 17, {"n": 1111099999}))
        os.remove(self.path + ".1")
        os.mkfifo(self.path + ".1")
        self.assertEqual(len(asyncio.run(log.read_last())), TAIL_OCTETS // 17)
        with open(self.path, "w", encoding="ascii") as it:
            it.write("[" * 400_000 + "\n" + '{"n":1}\n')
        self.assertEqual(asyncio.run(log.read_last()), [{"n": 1}])

    def test_refusals_do_not_displace_commands(self) -> None:
        log = self.log()
        log.append = lambda _: None  # type: ignore[method-assign, assignment]
        for number in range(300):
            record = {"time": f"{number:03}", "event": "refused" if number else "answered"}
            asyncio.run(log.record(record))
            asyncio.run(log.record({**record, "event": "asked"}))
        self.assertEqual([it["time"] for it in log.last(2)], ["000", "298", "299"])
        self.assertEqual(len(log.last(100)), 101)

    def test_a_fault_and_its_end(self) -> None:
        """Who hears of records hears of one once it is on the disk, and not if it cannot be written."""
        log, told = self.log(), list[object]()
        log.on_record = told.append
        with mock.patch("os.fsync", side_effect=OSError(28, "No space left on device")):
            self.assertRaisesRegex(AuditFault, "No space left on device", asyncio.run, log.record({"n": 1}))
        self.assertIsNotNone(log.fault)
        asyncio.run(log.record({"n": 2}))
        self.assertIsNone(log.fault)
        self.assertEqual(([*log.recent], told), ([{"n": 2}], [{"n": 2}]))


class Recorded(HubCase):
    """Commands of operators."""

    async def test_a_command_is_recorded_before_it_is_sent(self) -> None:
        operator = await self.operate()
        self.fake.is_hung = True
        operator.writer.write(b"drop 1001\n")
        await wait_until(self.records)
        asked = self.records()
        self.assertEqual([(it["event"], it["line"], it["reply"]) for it in asked], [("asked", "drop 1001", None)])
        self.fake.is_hung = False
        self.assertEqual(await operator.reader.readline(), b"ok\n")
        _, answered = self.records()
        self.assertEqual((answered["event"], answered["reply"], answered["id"]), ("answered", "ok", asked[0]["id"]))
        self.assertEqual((answered["uid"], answered["pid"], answered["role"]), (os.getuid(), os.getpid(), "full"))
        self.assertRegex(answered["time"], r"^\d{4}-\d\d-\d\dT\d\d:\d\d:\d\d\.\d{3}Z$")

    async def test_what_cannot_be_recorded_is_not_done(self) -> None:
        operator = await self.operate()
        os.rename(self.folder, self.folder + ".away")
        self.addCleanup(shutil.rmtree, self.folder + ".away", ignore_errors=True)
        self.assertEqual(await operator.ask(b"drop 1001"), b"error not done: the audit log cannot be written\n")
        self.assertEqual((self.changes_asked(), self.hub.counts.audit_faults.get()), ([], 1))
        os.rename(self.folder + ".away", self.folder)
        self.assertEqual(await operator.ask(b"drop 1001"), b"ok\n")

    async def test_control_characters_do_not_reach_the_log_or_the_history(self) -> None:
        operator = await self.operate()
        await operator.ask(b'drop \x1b[2J"\xff')
        with open(self.audit, encoding="ascii") as it:
            self.assertEqual([json.loads(line)["line"] for line in it], ['drop \\x1b[2J"\\xff'] * 2)
        self.assertNotIn(b"\x1b", await operator.ask(b"history"))

    async def test_a_log_that_cannot_be_opened(self) -> None:
        config = self.config()
        os.mkdir(self.audit)
        with self.assertRaisesRegex(AuditFault, "audit log: cannot write"):
            await self.start(config=config)
