"""The hub's link to the controller, its queue, its model of the site and its poller, over a fake controller on loopback."""
import asyncio
import socket
import time
import unittest
from collections.abc import Awaitable
from unittest import mock

from temzaar.hub.config import ControllerKeys, PollKeys
from temzaar.hub.counts import HubCounts
from temzaar.hub.link import Backoff, ConsoleLink, FairQueue, NoAnswer
from temzaar.hub.model import SiteModel
from temzaar.hub.moment import Moment
from temzaar.hub.poller import Poller
from temzaar.picture import Age, RadioList, ask_radios, take_picture
from temzaar.sitefile import SiteFault
from tests.fake_console import REPLIES, FakeConsole
from tests.hub_support import wait_until
from tests.test_siteview import Written

KEYS = ControllerKeys(answer_seconds=0.5, reconnect_seconds=0.2)
PATIENT = ControllerKeys(answer_seconds=30, reconnect_seconds=0.2)


class Turns(unittest.TestCase):
    """The queue."""

    def test_askers_take_turns(self) -> None:
        queue: FairQueue[str] = FairQueue()
        for asker, item in (("a", "a1"), ("a", "a2"), ("a", "a3"), ("b", "b1"), ("c", "c1"), ("c", "c2")):
            queue.push(asker, item)
        self.assertEqual(len(queue), 6)
        self.assertEqual(queue.drain(), ["a1", "b1", "c1", "a2", "c2", "a3"])
        self.assertIsNone(queue.pop())

    def test_waits_double_up_to_the_longest(self) -> None:
        backoff = Backoff(1.0)
        waits = [backoff.next() for _ in range(6)]
        for wait, middle in zip(waits, (0.1, 0.2, 0.4, 0.8, 1.0, 1.0), strict=True):
            self.assertTrue(0.8 * middle <= wait <= 1.2 * middle, (wait, middle))
        backoff.reset()
        self.assertLess(backoff.next(), 0.13)


class Linked(unittest.IsolatedAsyncioTestCase):
    """A link to a fake controller."""

    async def asyncSetUp(self) -> None:
        asyncio.get_running_loop().set_debug(False)
        self.fake = FakeConsole()
        self.addCleanup(self.fake.stop)

    def start(self, keys: ControllerKeys = KEYS) -> ConsoleLink:
        """A link that runs until the test's end."""
        link = ConsoleLink(lambda: self.fake.place(), keys, HubCounts())
        task = asyncio.create_task(link.run())

        async def stop() -> None:
            task.cancel()
            await asyncio.wait({task})

        self.addAsyncCleanup(stop)
        return link

    async def start_up(self, keys: ControllerKeys = KEYS) -> ConsoleLink:
        """A link that is up."""
        link = self.start(keys)
        await wait_until(lambda: link.state.is_up)
        return link

    async def failed(self, asking: Awaitable[bytes]) -> tuple[NoAnswer, float]:
        """How a question failed, and after how many seconds."""
        began = time.monotonic()
        with self.assertRaises(NoAnswer) as caught:
            await asking
        return caught.exception, time.monotonic() - began

    async def test_replies_are_the_controllers_to_the_octet(self) -> None:
        self.fake.octets["  stay "] = b"error \xff\x00strange\r\n"
        link = await self.start_up()
        self.assertEqual(await link.ask("a", b"radios 1030"), b"".join(b"radio %d\n" % it for it in range(1030, 1041)) + b"end\n")
        self.assertEqual(await link.ask("a", b"  stay "), b"error \xff\x00strange\r\n")
        self.assertEqual(await link.ask("a", b"calls 99"), b"error unknown command\n")
        self.assertEqual(link.counts.questions.get(asker="operator"), 3)

    async def test_one_question_at_a_time(self) -> None:
        self.fake.delay = 0.004
        link = await self.start_up(PATIENT)
        replies = await asyncio.gather(*(link.ask(f"user {n % 5}", b"status") for n in range(40)))
        self.assertEqual({reply.split()[0] for reply in replies}, {b"status"})
        self.assertEqual(self.fake.overlaps, 0)

    async def test_one_who_asks_a_lot_delays_another_by_one_question(self) -> None:
        self.fake.delay = 0.01
        link = await self.start_up(PATIENT)
        flood = [asyncio.create_task(link.ask("flood", b"slots")) for _ in range(20)]
        await asyncio.sleep(0)
        await link.ask("other", b"lines 1")
        self.assertLessEqual(self.fake.asked.index("lines 1"), self.fake.asked.index("slots") + 2)
        await asyncio.gather(*flood)

    async def test_a_quiet_link_is_not_cut(self) -> None:
        self.fake.silence = 1.5
        link = await self.start_up(PATIENT)
        await asyncio.sleep(2.5)
        self.assertEqual((self.fake.connections, link.state.is_up), (1, True))
        self.assertGreaterEqual(self.fake.asked.count("status"), 4)

    async def test_it_connects_again(self) -> None:
        link = await self.start_up()
        self.fake.stop()
        await wait_until(lambda: not link.state.is_up)
        self.assertIn("the controller", link.state.reason)
        await wait_until(lambda: "cannot connect" in link.state.reason)
        fault, seconds = await self.failed(link.ask("a", b"status"))
        self.assertRegex(fault.reason, "the controller is away: cannot connect to 127.0.0.1:.*refused")
        self.assertLess(seconds, 1.0)
        self.assertFalse(fault.was_sent)
        again = FakeConsole(self.fake.port)
        self.addCleanup(again.stop)
        await wait_until(lambda: link.state.is_up)
        self.assertEqual(await link.ask("a", b"stay"), b"ok\n")
        self.assertEqual((link.counts.connects.get(), link.counts.losses.get()), (2, 1))

    async def test_a_controller_that_hangs(self) -> None:
        """The question that was sent may have been done, those that wait were not; nobody waits longer than the limit."""
        link = await self.start_up()
        self.fake.is_hung = True
        asked = [asyncio.create_task(self.failed(link.ask("a", b"drop 1001"))), asyncio.create_task(self.failed(link.ask("b", b"drop 1002")))]
        results = await asyncio.gather(*asked)
        self.assertEqual([fault.was_sent for fault, _ in results], [True, False])
        self.assertLess(max(seconds for _, seconds in results), 2.0)
        self.assertIn("no answer in 0.5 s", results[0][0].reason)
        _, seconds = await self.failed(link.ask("a", b"status"))
        self.assertLess(seconds, 1.0)
        self.fake.is_hung = False
        await wait_until(lambda: link.state.is_up)

    async def test_an_answer_that_comes_with_the_limit_is_an_answer(self) -> None:
        """The loop does not turn until the limit is over, as when the process is stopped. The answer has come meanwhile."""
        link = await self.start_up(ControllerKeys(answer_seconds=0.2, reconnect_seconds=0.2))
        asking = asyncio.create_task(link.ask("a", b"drop 1001"))
        await asyncio.sleep(0)
        await asyncio.sleep(0)
        time.sleep(0.4)
        self.assertEqual(await asking, b"ok\n")
        self.assertTrue(link.state.is_up)

    async def test_a_line_that_nobody_asked_for(self) -> None:
        """It ends the connection when it comes, after a list too, and is not taken for the answer to the next question."""
        link = await self.start_up(PATIENT)
        await link.ask("a", b"slots")
        self.fake.streams[-1].sendall(b"ok\n")
        await wait_until(lambda: "what nobody asked for" in link.state.reason)
        await wait_until(lambda: link.state.is_up)
        self.assertEqual(await link.ask("a", b"drop 5"), b"error not registered\n")

    async def test_a_slow_controller(self) -> None:
        """A question whose turn does not come in time fails, and is not sent."""
        link = await self.start_up(ControllerKeys(answer_seconds=2))
        self.fake.delay = 0.4
        asked = [asyncio.create_task(link.ask(f"{n}", f"calls {n}".encode())) for n in range(8)]
        done = await asyncio.gather(*asked, return_exceptions=True)
        failed = [n for n, it in enumerate(done) if isinstance(it, NoAnswer)]
        self.assertTrue(failed)
        self.assertTrue(link.state.is_up)
        await asyncio.sleep(0.6)
        self.assertFalse({f"calls {n}" for n in failed} & set(self.fake.asked))

    async def test_another_operator_holds_the_console(self) -> None:
        with socket.create_connection(("127.0.0.1", self.fake.port)) as other:
            other.sendall(b"status\n")
            other.recv(100)
            link = self.start()
            await wait_until(lambda: "does another operator hold it?" in link.state.reason)
            await self.failed(link.ask("a", b"status"))
        await wait_until(lambda: link.state.is_up)
        self.assertEqual(self.fake.connections, 2)

    async def test_what_is_not_a_console(self) -> None:
        for octets, reason in ((b"220 mail ready\n", "not a controller's console"), (b"status carriers 0 radios 0 asks 0 lines 0 calls 0 fill aloha\nok\n", "nobody asked for"), (b"x" * 5000, "does not end")):
            with self.subTest(reason):
                self.fake.octets["status"] = octets
                link = self.start()
                await wait_until(lambda: reason in link.state.reason)
                self.assertFalse(link.state.is_up)

    async def test_a_cancelled_question_is_not_asked(self) -> None:
        link = await self.start_up(PATIENT)
        self.fake.delay = 0.1
        first = asyncio.create_task(link.ask("a", b"slots"))
        await asyncio.sleep(0.02)
        second = asyncio.create_task(link.ask("a", b"drop 1001"))
        await asyncio.sleep(0.02)
        second.cancel()
        await first
        self.assertEqual(await link.ask("a", b"stay"), b"ok\n")
        self.assertNotIn("drop 1001", self.fake.asked)

    async def test_a_site_file_that_is_missing(self) -> None:
        with mock.patch.object(self.fake, "place", side_effect=SiteFault("site file /x: No such file or directory")):
            link = self.start()
            await wait_until(lambda: "site file /x" in link.state.reason)

    async def test_the_poller_keeps_the_model(self) -> None:
        link = await self.start_up()
        model = SiteModel()
        poller = Poller(link, model, PollKeys(state_seconds=0.05, radios_seconds=60, questions_per_second=1000))
        task = asyncio.create_task(poller.run())
        await wait_until(lambda: model.radios is not None and model.picture is not None)
        assert model.picture and model.seen and model.radios
        self.assertEqual(model.radios, RadioList(tuple(range(1001, 1041)), True))
        self.assertEqual([it for it in self.fake.asked if it.startswith("radios")], ["radios 0", "radios 1017", "radios 1033"])
        self.assertEqual(model.picture.calls, {(0, 1): "group 91 from 1001", (1, 0): "radio 1002 from 1003"})
        self.assertEqual(model.picture.lines, ["group 94 from 1004"])
        self.assertLess(abs(model.seen.wall - time.time()), 5)
        self.fake.radios.discard(1001)
        poller.hurry()
        await wait_until(lambda: model.radios is not None and 1001 not in model.radios.radios)
        for line, reply in (("slots", ["not slots", "end"]), ("calls 0", ["call", "end"])):
            before, self.fake.replies[line] = link.counts.poll_faults.get(), reply
            await wait_until(lambda before=before: link.counts.poll_faults.get() > before)  # type: ignore[misc]
            self.fake.replies[line] = REPLIES[line]
        self.fake.stop()
        await asyncio.sleep(0.1)
        self.assertFalse(task.done())
        self.assertIsNotNone(model.picture)
        task.cancel()


class Remembered(unittest.TestCase):
    """The model."""

    def test_ages_and_carriers(self) -> None:
        console = Written(status=["status carriers 1 radios 4 asks 0 lines 0 calls 1 fill aloha"], slots=["slot 0 0 control", "slot 0 1 call", "slot 1 0 down", "slot 1 1 down"])
        model = SiteModel()

        def look(at: float) -> None:
            model.take_picture(take_picture(console), Moment(1000 + at, at))

        look(10)
        self.assertEqual({number: (it.is_up, it.since.steady) for number, it in model.carriers.items()}, {0: (True, 10), 1: (False, 10)})
        console.replies["calls 0"] = ["call 0 1 group 92 from 1001"]
        console.replies["slots"][1:] = ["slot 0 1 call", "slot 1 0 free", "slot 1 1 free"]
        look(20)
        look(25)
        self.assertEqual({number: (it.is_up, it.since.steady) for number, it in model.carriers.items()}, {0: (True, 10), 1: (True, 20)})
        self.assertEqual(model.ages.find(("call", (0, 1), "group 92 from 1001"), 26), Age(6, False))
        model.begin()
        look(30)
        self.assertEqual(model.ages.find(("call", (0, 1), "group 92 from 1001"), 31), Age(1, True))

    def test_radios_are_listed_up_to_a_limit(self) -> None:
        questions = ask_radios(20)
        self.assertEqual(next(questions), "radios 0")
        self.assertEqual(questions.send([f"radio {it}" for it in range(1, 17)]), "radios 17")
        with self.assertRaises(StopIteration) as done:
            questions.send([f"radio {it}" for it in range(17, 33)])
        self.assertEqual(done.exception.value, RadioList(tuple(range(1, 33)), False))
