"""The benches: the reader of callgrind's files, and the counts and times of served polls (served.py,
touched.py, poll_times.py). Their parsing and arithmetic are tried over texts and figures that are
written out here. The programs in C compile without a warning, their coders agree with the slow one,
and a carrier plays against their servers. No time is judged."""
import collections
import shutil
import subprocess
import sys
import tempfile
import unittest

from temzaar import code, frames
from tests.support import TOP

BENCH = TOP / "bench"
sys.path.insert(0, str(BENCH))
import poll_times  # noqa: E402  (the path comes first)
import served  # noqa: E402
import serving  # noqa: E402
import touched  # noqa: E402
from callgrind import BadProfile, Profile, read_profile  # noqa: E402
from programs import Missing  # noqa: E402

CC = ["cc", "-std=c11", "-O1", "-Wall", "-Wextra", "-Werror"]
# `main` calls `work`, which calls `twice` three times.
SAMPLE = (TOP / "python" / "tests" / "callgrind.sample").read_text(encoding="utf-8")
CALLS = """SYSCALL[7,1](257) sys_openat ( -100, 0x1(/etc/a) ) --> [async] ...
SYSCALL[7,1](257) ... [async] --> Success(0x3)
SYSCALL[7,3](232) sys_epoll_wait ( 8, 0x1, 4, 25 ) --> [async] ...
SYSCALL[7,3](232) ... [async] --> Success(0x1)
SYSCALL[7,3]( 45) sys_recvfrom ( 9, 0x1, 512, 0 ) --> [async] ...
SYSCALL[7,3]( 45) ... [async] --> Success(0x2)
SYSCALL[7,3](228) sys_clock_gettime( 1, 0x2 )[sync] --> Success(0x0)
SYSCALL[7,3](232) sys_epoll_wait ( 8, 0x1, 4, 25 ) --> [async] ...
==7== SYSCALL[7,3](1) sys_write in a line of another kind
"""
# Thread 2 works twice between its waits, and thread 1 once.
TRACE = """I  00000f00,4
SYSCALL[7,1](232) sys_epoll_wait ( 3, 0x1, 4, 25 ) --> [async] ...
SYSCALL[7,2](232) sys_epoll_wait ( 8, 0x1, 4, 25 ) --> [async] ...
SYSCALL[7,2](232) ... [async] --> Success(0x1)
I  00001000,3
I  0000103e,4
 L 00003000,8
SYSCALL[7,2]( 45) sys_recvfrom ( 9, 0x1, 512, 0 ) --> [async] ...
SYSCALL[7,2]( 45) ... [async] --> Success(0x2)
 S 00003ffc,8
SYSCALL[7,2](232) sys_epoll_wait ( 8, 0x1, 4, 25 ) --> [async] ...
SYSCALL[7,1](232) ... [async] --> Success(0x0)
I  00000f00,4
SYSCALL[7,1](232) sys_epoll_wait ( 3, 0x1, 4, 25 ) --> [async] ...
SYSCALL[7,2](232) ... [async] --> Success(0x1)
I  00001000,3
SYSCALL[7,2](232) sys_epoll_wait ( 8, 0x1, 4, 25 ) --> [async] ...
""".splitlines()


def thread_of(total: int, **calls: int) -> served.Thread:
    """A thread with this number of instructions and these calls."""
    return served.Thread(Profile(total, {"work": total}), collections.Counter(calls))


def figures_of(*processor: float) -> list[poll_times.Figures]:
    """The figures of rounds with these processor times; the times of answers differ more."""
    return [poll_times.Figures(it, answer=10.0 ** number) for number, it in enumerate(processor)]


class Profiles(unittest.TestCase):
    """The values read of the stored file of a small program."""

    def test_own_instructions(self) -> None:
        profile = read_profile(SAMPLE)
        self.assertEqual(profile.total, 37)
        self.assertEqual(profile.own, {"work": 31, "twice": 6})

    def test_calls_and_what_they_took(self) -> None:
        profile = read_profile(SAMPLE)
        self.assertEqual((profile.calls["work"], profile.inclusive["work"]), (1, 37))
        self.assertEqual((profile.calls["twice"], profile.inclusive["twice"]), (3, 6))

    def test_a_name_stands_once_and_then_its_number(self) -> None:
        self.assertIn("(below main)", read_profile(SAMPLE).calls)
        self.assertNotIn(None, read_profile(SAMPLE).calls)

    def test_the_difference_of_two_runs(self) -> None:
        profile = read_profile(SAMPLE)
        self.assertEqual(profile.less(profile).own, {"work": 0, "twice": 0})
        nothing = read_profile("events: Ir\nsummary: 0\n")
        self.assertEqual(nothing.less(profile).total, -37)
        self.assertEqual(profile.less(nothing).calls["twice"], 3)

    def test_another_sum_is_refused(self) -> None:
        for changed in (SAMPLE.replace("+2 4\n", "+2 5\n"), SAMPLE.replace("summary: 37", "summary: 38").replace("totals: 37", "totals: 38")):
            with self.assertRaises(BadProfile):
                read_profile(changed)

    def test_other_events_are_refused(self) -> None:
        with self.assertRaises(BadProfile):
            read_profile(SAMPLE.replace("events: Ir", "events: Ir Dr"))


class Counted(unittest.TestCase):
    """Instructions and system calls."""

    def test_calls_by_thread(self) -> None:
        found = {thread: dict(it) for thread, it in served.calls_in(CALLS).items()}
        expected = {1: {"openat": 1}, 3: {"epoll_wait": 2, "recvfrom": 1, "clock_gettime": 1}}
        self.assertEqual(found, expected)

    def test_the_thread_that_grows_most_is_the_carriers(self) -> None:
        few = {1: thread_of(9000), 2: thread_of(500, write=10, clock_gettime=30, brk=1),
               3: thread_of(40)}
        more = {1: thread_of(9010), 2: thread_of(2500, write=30, clock_gettime=90, brk=1),
                3: thread_of(40)}
        cost = served.cost_of_thread(few, more, 20)
        self.assertEqual((cost.instructions, cost.system_calls, cost.clock_readings), (100, 1, 3))
        self.assertEqual(cost.profile.own, {"work": 2000})

    def test_no_thread_in_both_runs(self) -> None:
        with self.assertRaises(BadProfile):
            served.cost_of_thread({1: thread_of(10)}, {2: thread_of(10)}, 1)


class TouchedBetweenWaits(unittest.TestCase):
    """Lines and pages."""

    def test_an_access_over_the_end_of_a_line_touches_two(self) -> None:
        trace = ["I  0000103e,4", " L 00003038,8", " S 00003ffc,8", " M 00003001,2", "==7== a note"]
        expected = touched.Touched(instructions=1, code_lines=2, data_lines=3, code_pages=1,
                                   data_pages=2, written=10)
        self.assertEqual(touched.count_accesses(trace), expected)

    def test_the_work_between_two_waits_of_each_thread(self) -> None:
        found = [(thread, [it for it in lines if it.startswith(("I", " "))])
                 for thread, lines in touched.between_waits(TRACE)]
        first = ["I  00001000,3", "I  0000103e,4", " L 00003000,8", " S 00003ffc,8"]
        self.assertEqual(found, [(2, first), (1, ["I  00000f00,4"]), (2, ["I  00001000,3"])])

    def test_the_median_of_the_thread_that_waits_most(self) -> None:
        self.assertEqual(touched.median_of(TRACE), touched.Touched(1.5, 1.5, 1.5, 1, 1, 4))

    def test_no_thread_that_waits_twice(self) -> None:
        with self.assertRaises(BadProfile):
            touched.median_of(TRACE[:8])


class Timed(unittest.TestCase):
    """Processor times."""

    def test_terms_in_notes(self) -> None:
        notes = ("[INFO  dmr_trunk] console: listening\n[INFO  dmr_trunk] term ended: 9 entries\n"
                 "[INFO  dmr_trunk] 12 more terms ended: 99 entries\n")
        self.assertEqual((poll_times.terms_in(""), poll_times.terms_in(notes)), (0, 13))

    def test_the_time_of_a_poll(self) -> None:
        printed = ("2670 polls, 267 a second; microseconds: mean 81.0, median 70.5, 99 % 99.0\n"
                   "  server: user 0.07 s: 1.21 % of a processor, 45.31 us a poll; 9000 kB\n")
        self.assertEqual(poll_times.figures_in(printed), poll_times.Figures(45.31, 70.5))

    def test_a_load_that_measured_nothing(self) -> None:
        for printed in ("connect: Connection refused\n",
                        "microseconds: mean 1.0, median 1.0; % of a processor, 0.00 us a poll"):
            with self.assertRaises(Missing):
                poll_times.figures_in(printed)

    def test_ratios_are_those_of_a_round(self) -> None:
        rounds = {poll_times.OURS: figures_of(30, 60, 36), poll_times.FLOOR: figures_of(20, 30, 20)}
        expected = {poll_times.OURS: 1.8, poll_times.FLOOR: 1.0}
        self.assertEqual(poll_times.ratios_of(rounds), expected)

    def test_noise_is_more_than_fifteen_percent(self) -> None:
        noise = poll_times.noise_of({"even": figures_of(100, 115),
                                     "uneven": figures_of(120, 100, 110)})
        self.assertEqual(noise.keys(), {"uneven"})
        self.assertAlmostEqual(noise["uneven"], 0.2)

    def test_polls_of_different_sites_are_due_at_different_times(self) -> None:
        at_once, spread = poll_times.kinds_of(3)
        due = {number * spread.step + carrier * serving.PERIOD // serving.CARRIERS
               for number in range(3) for carrier in range(16)}
        self.assertEqual((at_once.step, len(due), max(due)), (20_000, 48, 58_750))


@unittest.skipUnless(shutil.which("cc"), "they are built with cc, which is not there")
class InC(unittest.TestCase):
    """The programs in C, and carriers that play against the servers among them."""

    @classmethod
    def setUpClass(cls) -> None:
        folder = cls.enterClassContext(tempfile.TemporaryDirectory())
        cls.programs = {}
        for name in ("bptc_tables", "site_server", "serve_floor", "load_generator"):
            cls.programs[name], source = f"{folder}/{name}", str(BENCH / f"{name}.c")
            subprocess.run(["cc", "-std=c11", "-O1", "-o", cls.programs[name], source, "-lpthread"],
                           check=True, timeout=120)

    def test_all_compile_without_a_warning(self) -> None:
        for source in sorted(BENCH.glob("*.c")):
            done = subprocess.run([*CC, "-fsyntax-only", str(source)], capture_output=True, text=True, check=False, timeout=60)
            self.assertEqual((done.returncode, done.stderr), (0, ""), source.name)

    def test_the_coders_agree_with_their_reference(self) -> None:
        printed = subprocess.run([self.programs["bptc_tables"], "--check", "3000"], check=True, capture_output=True, text=True, timeout=60).stdout
        self.assertTrue(printed.startswith("checked 3000 words"), printed)

    def test_each_kind_of_round_is_answered(self) -> None:
        site = serving.site_of(**serving.AS_IN_C, tick_ms=served.TICK_MS)
        with serving.running(serving.site_server_words(self.programs["site_server"], site)):
            control, other, registering = [served.Carrier(site, it).play(3) for it in served.KINDS]
        self.assertEqual(other, frames.welcome(2) + 3 * frames.DONE)
        for received, first_octet in ((control, 0x99), (registering, 0xA0)):
            came = frames.Cutter(frames.TO_CARRIER).feed(received)
            bursts = [it.burst() for it in came if it.kind == frames.FrameType.TX]
            self.assertEqual([it.number for it in bursts], [0, 1, 2])
            self.assertEqual({(code.octets_of(it.word) or b'-')[0] for it in bursts}, {first_octet})

    def test_the_load_generator_reads_the_time_that_the_server_uses(self) -> None:
        site = serving.site_of()
        with serving.running(serving.floor_words(self.programs["serve_floor"], site)) as floor:
            for kind in poll_times.kinds_of(1):
                load = serving.start_carriers(self.programs["load_generator"], site, 1,
                                              "-P", floor.pid, *kind.options)
                time = poll_times.figures_in(load.communicate(timeout=30)[0]).processor
                self.assertTrue(0 < time < serving.PERIOD, time)
