"""The hub's port for operators: lines and replies, roles, limits, and the stop."""
import asyncio
import os
import pathlib
import socket
import unittest

from temzaar.console import CHANGES, QUESTIONS
from temzaar.hub.lineport import PortFault, bind_socket
from temzaar.hub.lines import OWN, Line, LineCutter, LineKind, escape_octets
from temzaar.hub.roles import ConfigFault, Role, Rules, find_rules
from temzaar.hub.config import RoleKeys
from temzaar.ports import free_ports
from tests.fake_console import STATUS
from tests.hub_support import FULL, NOBODY, READ, HubCase, wait_until


class Lines(unittest.TestCase):
    """Lines from octets."""

    def test_cutting(self) -> None:
        cutter = LineCutter()
        self.assertEqual(cutter.feed(b"sta"), [])
        self.assertEqual(cutter.feed(b"tus\n\nslots\r\nend"), [b"status", b"", b"slots\r"])
        self.assertEqual(cutter.feed(b" 0 1\n"), [b"end 0 1"])

    def test_a_line_has_80_octets_at_most(self) -> None:
        cutter = LineCutter()
        self.assertEqual(cutter.feed(b"x" * 80 + b"\n" + b"x" * 80 + b"\r\n"), [b"x" * 80, None])
        for _ in range(100):
            self.assertEqual(cutter.feed(b"x" * 1000), [])
            self.assertLessEqual(len(cutter.begun), 80)
        self.assertEqual(cutter.feed(b"\nstay\n"), [None, b"stay"])

    def test_what_lines_do(self) -> None:
        for octets, kind in ((b"status", LineKind.QUESTION), (b"  lines  1 \r", LineKind.QUESTION), (b"drop 1", LineKind.CHANGE), (b" stay", LineKind.CHANGE), (b"who", LineKind.OWN),
                             (b"", LineKind.UNKNOWN), (b"\r", LineKind.UNKNOWN), (b"Drop 1", LineKind.UNKNOWN), (b"\tdrop 1", LineKind.UNKNOWN), (b"status\rdrop 1", LineKind.UNKNOWN),
                             (b"drop\t1", LineKind.UNKNOWN), (b"\xffstay", LineKind.UNKNOWN)):
            with self.subTest(octets):
                self.assertEqual(Line.read(octets).kind, kind)

    def test_text_for_people(self) -> None:
        self.assertEqual(escape_octets(b"a\x1b[2J\\\xff\n"), "a\\x1b[2J\\x5c\\xff\\x0a")


class Roles(unittest.TestCase):
    """Roles by user and group."""

    def test_the_greatest_counts(self) -> None:
        rules = Rules(frozenset({1}), frozenset({20}), frozenset({1, 2}), frozenset({30}), Role.NONE)
        for uid, groups, role in ((1, [9], Role.FULL), (5, [9, 20], Role.FULL), (2, [20, 30], Role.FULL), (2, [9], Role.READ), (5, [30], Role.READ), (5, [9], Role.NONE), (20, [1], Role.NONE)):
            self.assertEqual(rules.role_of(uid, groups), role, (uid, groups))
        self.assertEqual(Rules(NOBODY, NOBODY, NOBODY, NOBODY, Role.READ).role_of(7, []), Role.READ)

    def test_nobody_has_a_role_by_default(self) -> None:
        self.assertEqual(find_rules(RoleKeys()).role_of(0, [0]), Role.NONE)

    def test_names(self) -> None:
        rules = find_rules(RoleKeys(full_users=("root",), read_groups=("root", 77)))
        self.assertEqual((rules.full_users, rules.read_groups), (frozenset({0}), frozenset({0, 77})))
        self.assertRaisesRegex(ConfigFault, "roles.read_groups: there is no group no-such-group", find_rules, RoleKeys(read_groups=("no-such-group",)))
        self.assertRaisesRegex(ConfigFault, "roles.full_users: there is no user no-such-user", find_rules, RoleKeys(full_users=("no-such-user",)))


class Served(HubCase):
    """Lines and their replies."""

    async def test_the_commands_of_the_controller(self) -> None:
        operator = await self.operate()
        for line, reply in ((b"status", STATUS), (b"slots\r", b"slot 0 0 control\nslot 0 1 call\nslot 1 0 call\nslot 1 1 free\nend\n"), (b"calls  0", b"call 0 1 group 91 from 1001\nend\n"),
                            (b"lines 1", b"line 1 group 94 from 1004\nend\n"), (b"radios 1039", b"radio 1039\nradio 1040\nend\n"), (b"drop 1001", b"ok\n"), (b"drop 1001", b"error not registered\n"),
                            (b"end 0 1", b"ok\n"), (b"move 7", b"ok\n"), (b"stay", b"ok\n"), (b"move", b"error unknown command\n"), (b"radios x y", b"error unknown command\n")):
            with self.subTest(line):
                self.assertEqual(await operator.ask(line), reply)
        self.assertIn("calls  0", self.fake.asked)

    async def test_lines_that_are_not_passed_on(self) -> None:
        operator = await self.operate()
        for line in (b"", b"hello", b"Status", b"status\rdrop 1001", b"\tdrop 1001", b"history 0", b"history 101", b"history x", b"who am i", b"help me"):
            self.assertEqual(await operator.ask(line), b"error unknown command\n", line)
        self.assertEqual(await operator.ask(b"y" * 81), b"error line too long\n")
        self.assertEqual(self.changes_asked(), [])
        self.assertEqual(set(self.fake.asked) & {"", "hello", "Status", "who am i"}, set())

    async def test_many_lines_at_once_and_an_end_of_input(self) -> None:
        operator = await self.operate()
        operator.writer.write(b"status\nstay\nwho knows\nmove 7\nst")
        operator.writer.write_eof()
        self.assertEqual(await operator.rest(), STATUS + b"ok\nerror unknown command\nok\n")

    async def test_many_operators(self) -> None:
        hub = await self.start(config=self.config({"connections_per_user": 64}))
        operators = [await self.connect() for _ in range(20)]

        async def work(operator: object, first: int) -> None:
            for number in range(10):
                radio = first + number
                expected = b"".join(b"radio %d\n" % it for it in range(radio, min(radio + 16, 1041))) + b"end\n"
                self.assertEqual(await operator.ask(b"radios %d" % radio), expected)  # type: ignore[attr-defined]

        await asyncio.gather(*(work(operator, 1001 + n) for n, operator in enumerate(operators)))
        self.assertEqual((self.fake.overlaps, self.fake.connections), (0, 1))
        self.assertEqual(hub.counts.line_accepts.get(), 20)

    async def test_the_site_is_polled_early_after_a_change(self) -> None:
        hub = await self.start()
        calls: list[bool] = []
        hub.desk.on_change = lambda: calls.append(True)
        operator = await self.connect()
        for line, count in ((b"status", 0), (b"drop 5", 0), (b"drop 1001", 1), (b"move", 1), (b"move 7", 2)):
            await operator.ask(line)
            self.assertEqual(len(calls), count, line)

    async def test_own_commands(self) -> None:
        operator = await self.operate()
        await operator.ask(b"drop 5")
        await operator.ask(b"move 7")
        other = await self.connect()
        names = [line.split()[1].decode().rstrip(":") for line in (await operator.ask(b"help")).splitlines()[:-1]]
        self.assertEqual(names, [*QUESTIONS, *CHANGES, *OWN])
        who = (await other.ask(b"who")).decode().splitlines()
        self.assertRegex(who[0], rf"^who console 127\.0\.0\.1:{self.fake.port} up since \d{{4}}-\d\d-\d\dT\d\d:\d\d:\d\dZ$")
        self.assertRegex(who[1], r"^who 1 \S.* full since \S+Z lines 3$")
        self.assertRegex(who[2], r"^who 2 \S.* full since \S+Z lines 1 \(you\)$")
        self.assertEqual(who[3:], ["end"])
        history = (await operator.ask(b"history")).decode().splitlines()
        self.assertRegex(history[0], r"^history \S+Z \S.* answered: drop 5: error not registered$")
        self.assertEqual((await operator.ask(b"history 1")).decode().splitlines(), history[1:])

    async def test_the_longest_history(self) -> None:
        """The last hundred commands, though each of them has two records in the audit log."""
        operator = await self.operate()
        for number in range(101):
            await operator.ask(b"move %d" % (number + 1))
        history = (await operator.ask(b"history 100")).decode().splitlines()
        self.assertEqual([line.split(": ")[1] for line in history[:-1]], [f"move {number + 1}" for number in range(1, 101)])

    async def test_the_controller_is_away(self) -> None:
        operator = await self.operate()
        self.fake.stop()
        await wait_until(lambda: "cannot connect" in self.hub.link.state.reason)
        self.assertEqual(await operator.ask(b"status"), f"error the controller is away: cannot connect to 127.0.0.1:{self.fake.port}: Connection refused\n".encode())
        self.assertRegex(await operator.ask(b"drop 1001"), b"^error not done: the controller is away: ")
        self.assertRegex((await operator.ask(b"who")).splitlines()[0], b" away since ")
        self.assertEqual([it["event"] for it in self.records()], ["asked", "not sent"])

    async def test_lines_without_an_answer(self) -> None:
        operator = await self.operate(config=self.config(answer_seconds=2))
        self.fake.octets.update({"calls 9": b"e", "drop 1001": b"o"})
        self.assertEqual(await operator.ask(b"calls 9"), b"error no answer: no answer in 2 s\n")
        await wait_until(lambda: self.hub.link.connection == 2)
        self.assertEqual(await operator.ask(b"drop 1001"), b"error no answer: no answer in 2 s; the controller may have done it\n")
        self.assertEqual([it["event"] for it in self.records()], ["asked", "unanswered"])


class Allowed(HubCase):
    """Roles over the socket."""

    async def test_who_may_read_may_not_change(self) -> None:
        operator = await self.operate(READ)
        self.assertEqual(await operator.ask(b"status"), STATUS)
        for line in (b"drop 1001", b"  end 0 1", b"move 7\r", b"stay"):
            self.assertEqual(await operator.ask(line), b"error not allowed: this needs the role full\n")
        self.assertEqual(self.changes_asked(), [])
        self.assertEqual([(it["event"], it["line"], it["role"], it["uid"]) for it in self.records()],
                         [("refused", line, "read", os.getuid()) for line in ("drop 1001", "  end 0 1", "move 7\\x0d", "stay")])
        self.assertEqual(self.records()[0]["reply"], "error not allowed: this needs the role full")

    async def test_over_tcp_everybody_may_read_and_no_more(self) -> None:
        port = free_ports(1)
        await self.start(FULL, self.config({"tcp_port": port}))
        reader, _ = await self.dial(port, b"status\nstay\n", ends=True)
        self.assertEqual(await reader.read(), STATUS + b"error not allowed: this needs the role full\n")
        self.assertEqual([(it["user"], it["uid"]) for it in self.records()], [("tcp", None)])
        self.assertEqual(self.changes_asked(), [])

    @unittest.skipIf(os.getuid(), "it changes the user of a process: only root may")
    async def test_another_user_and_its_groups(self) -> None:
        os.chmod(self.folder, 0o755)
        await self.start(Rules(NOBODY, frozenset({4321}), frozenset({1234}), NOBODY, Role.NONE))
        for uid, groups, wanted in ((1234, [], b"error not allowed: this needs the role full\n"), (1235, [4321], b"ok\n"), (1235, [4322], b"error the user uid 1235 has no role here\n")):
            self.assertEqual(await asyncio.to_thread(self.ask_as, uid, groups, b"stay\n"), wanted)

    def ask_as(self, uid: int, groups: list[int], line: bytes) -> bytes:
        """The reply to a process of another user and these groups."""
        reads, writes = os.pipe()
        child = os.fork()
        if not child:
            try:
                os.setgroups(groups)
                os.setgid(9999)
                os.setuid(uid)
                with socket.socket(socket.AF_UNIX) as stream:
                    stream.connect(self.socket)
                    stream.settimeout(20)
                    stream.sendall(line)
                    os.write(writes, stream.recv(200))
            finally:
                os._exit(0)
        os.close(writes)
        reply = os.read(reads, 200)
        os.close(reads)
        os.waitpid(child, 0)
        return reply


class Limits(HubCase):
    """What one peer cannot do to others."""

    async def test_connections(self) -> None:
        hub = await self.start(config=self.config({"connections": 3, "connections_per_user": 2}))
        # each is served before the next one comes: the hub accepts those that come at once in any order
        first = await self.connect()
        self.assertEqual(await first.ask(b"status"), STATUS)
        second = await self.connect()
        self.assertEqual(await second.ask(b"status"), STATUS)
        third = await self.connect()
        self.assertRegex(await third.rest(), b"as many connections as one user may\n$")
        second.close()
        await wait_until(lambda: len(hub.desk.sessions) == 1)
        fourth = await self.connect()
        self.assertEqual(await fourth.ask(b"status"), STATUS)

    async def test_idle_time(self) -> None:
        operator = await self.operate(config=self.config({"idle_seconds": 1.0}))
        # octets that never make a line keep nothing open
        for _ in range(4):
            operator.writer.write(b"x")
            await asyncio.sleep(0.1)
        self.assertEqual(await operator.rest(), b"")
        self.assertEqual(self.hub.counts.line_cuts.get(reason="idle"), 1)

    async def test_a_slow_reader(self) -> None:
        hub = await self.start(config=self.config({"output_octets": 1024, "write_seconds": 0.3}))
        slow = await self.connect()
        await slow.ask(b"stay")
        other = await self.connect()
        slow.writer.transport.pause_reading()  # type: ignore[attr-defined]
        slow.writer.write(b"help\n" * 3000)
        await wait_until(lambda: hub.counts.lines.get(kind="own") > 50)
        self.assertEqual(await other.ask(b"status"), STATUS)
        await wait_until(lambda: hub.counts.line_cuts.get(reason="slow reader") == 1)
        self.assertEqual([*hub.desk.sessions], [2])
        self.assertEqual(await other.ask(b"status"), STATUS)

    async def test_a_flood_of_lines_is_read_piece_by_piece(self) -> None:
        await self.start()
        flood, other = await self.connect(), await self.connect()
        flood.writer.write(b"z" * 1_000_000 + b"\n" + b"status\n" * 300)
        for _ in range(20):
            self.assertEqual(await other.ask(b"status"), STATUS)
        self.assertEqual(await flood.reader.readline(), b"error line too long\n")
        self.assertEqual(await flood.reader.readexactly(len(STATUS) * 300), STATUS * 300)


class Stopped(HubCase):
    """The begin and the end."""

    async def test_a_stop_ends_connections_and_removes_the_socket(self) -> None:
        operator = await self.operate()
        await operator.ask(b"status")
        self.hub.stop()
        self.assertEqual(await operator.rest(), b"")
        await asyncio.wait_for(self.task, 10)
        self.assertFalse(os.path.exists(self.socket))

    async def test_a_line_that_is_being_answered_has_its_answer_at_a_stop(self) -> None:
        operator = await self.operate()
        self.fake.delay = 0.3
        operator.writer.write(b"drop 1001\n")
        await wait_until(lambda: "drop 1001" in self.fake.asked)
        self.hub.stop()
        self.assertEqual(await operator.rest(), b"ok\n")
        self.assertEqual([it["event"] for it in self.records()], ["asked", "answered"])

    async def test_a_socket_that_nobody_serves_is_replaced(self) -> None:
        with socket.socket(socket.AF_UNIX) as left:
            left.bind(self.socket)
        await self.start()
        self.assertEqual(await (await self.connect()).ask(b"status"), STATUS)

    async def test_another_hub_or_a_file_is_not_replaced(self) -> None:
        pathlib.Path(self.socket).touch()
        self.assertRaisesRegex(PortFault, "is not a socket", bind_socket, self.socket)
        self.assertTrue(os.path.exists(self.socket))
        os.unlink(self.socket)
        await self.start()
        with self.assertRaisesRegex(PortFault, "another process serves"):
            await self.start()
        self.assertEqual(await (await self.connect()).ask(b"status"), STATUS)

    async def test_a_tcp_port_that_is_taken(self) -> None:
        with socket.create_server(("127.0.0.1", 0)) as taken, self.assertRaisesRegex(PortFault, "cannot listen on port"):
            await self.start(config=self.config({"tcp_port": taken.getsockname()[1]}))
        self.assertFalse(os.path.exists(self.socket))
