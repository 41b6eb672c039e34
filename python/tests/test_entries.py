"""Journals as `dmr_decode journal --fields` prints them, and the calls and changes in them."""
import unittest

from temzaar.entries import ANSWERS, EVENTS, Change, EntryFault, History, Row, calls_of, read_entries
from temzaar.pdus import Parties
from tests.support import read_document, table_rows

REQUEST = "C_RAND options=0 flags=0 kind=talkgroup_voice target=91 source=1001"
ACKD, MOVE = "C_ACKD info=0 reason=Reg_Accepted spare=0 target=1001 additional=16776902", "C_MOVE register=0 backoff=0 lpcn=7"
# Each kind of line but `unasked` and `queue`. The hang time is 2 ticks.
JOURNAL = f"""\
up entry=1 input=2 tick=0 carrier=0
heard entry=2 input=3 tick=0 carrier=0 slot=0 text=C_RAND options=1 flags=0 kind=registration target=16776902 source=1001
joined radio=1001
queue carrier=0 slot=0 text={ACKD}
tick entry=3 input=4 tick=1
heard entry=4 input=5 tick=1 carrier=0 slot=0 text={REQUEST}
began source=1001 target=91 carrier=0 slot=1 group=1
poll entry=5 input=6 tick=1 carrier=0
send carrier=0 slot=0 text={ACKD}
fill carrier=0 slot=1 text={MOVE}
heard entry=6 input=7 tick=1 carrier=0 slot=0 text={REQUEST.replace("1001", "1002")}
lined source=1002 target=91 group=1
tick entry=7 input=8 tick=2
say entry=8 input=9 tick=2 text=end 0 1
ended carrier=0 slot=1
reply text=ok
active entry=9 input=10 tick=2 carrier=0 slot=1
tick entry=10 input=11 tick=3
unlined source=1002
began source=1002 target=91 carrier=0 slot=1 group=1
noise entry=11 input=12 tick=3 carrier=0 slot=0
lost entry=12 input=12 tick=3 carrier=0
say entry=13 input=13 tick=3 text=drop 1001
left radio=1001
reply text=ok
"""


def ends(*lines: str) -> tuple[int | None, str]:
    """When and why a call ends that begins at tick 0 on slot 1 of carrier 0, by lines that come then. Each event is an input of its own; the hang time is 2."""
    numbered, tick = ["heard entry=1 input=1 tick=0 carrier=0 slot=0 text=", "began source=3 target=4 carrier=0 slot=1 group=0"], 0
    for entry, line in enumerate(lines, 2):
        event, *acts = line.split("; ")
        kind, _, rest = event.partition(" ")
        tick += kind == "tick"
        numbered += [f"{kind} entry={entry} input={entry} tick={tick} {rest}".rstrip(), *acts]
    call, = calls_of("\n".join(numbered), hang=2)
    return call.ended, call.cause


class Entries(unittest.TestCase):
    """A journal that is read."""

    def setUp(self) -> None:
        self.entries = list(read_entries(JOURNAL.splitlines()))

    def test_entries(self) -> None:
        self.assertEqual([it.event.kind for it in self.entries], ["up", "heard", "tick", "heard", "poll", "heard", "tick", "say", "active", "tick", "noise", "lost", "say"])
        said = self.entries[7]
        self.assertEqual(said, (9, 2, Row("say", {}, "end 0 1"), [Row("ended", {"carrier": 0, "slot": 1})], ["ok"]))
        self.assertEqual(self.entries[1].acts[0], Row("joined", {"radio": 1001}))
        self.assertEqual([it.party() for it in self.entries], ["carrier 0"] * 2 + [None] + ["carrier 0"] * 3 + [None, "operator", "carrier 0", None] + ["carrier 0"] * 2 + ["operator"])

    def test_bursts(self) -> None:
        self.assertEqual(self.entries[4].bursts(), [(0, 0, ACKD), (0, 1, MOVE)])
        self.assertEqual(self.entries[1].bursts(), [])

    def test_history(self) -> None:
        """Calls that an act or the loss of a carrier ends, and changes, each at its tick. The second call has waited from tick 1 to tick 3."""
        history = History(hang=2)
        for entry in self.entries:
            history.add(entry)
        self.assertEqual([(it.carrier, it.slot, it.parties, it.began, it.begins, it.waited, it.ended, it.ends, it.cause) for it in history.calls],
                         [(0, 1, Parties(True, 91, 1001), 1, 4, None, 2, 8, "ended_by_operator"), (0, 1, Parties(True, 91, 1002), 3, 10, 2, 3, 11, "carrier_lost")])
        self.assertEqual(history.changes, [Change(0, "came_up", 0), Change(0, "joined", 1001), Change(3, "was_lost", 0), Change(3, "dropped", 1001)])
        self.assertEqual(history.active, {})

    def test_causes(self) -> None:
        over, heard = "; ended carrier=0 slot=1", "heard carrier=0 slot=0 text=C_RAND"
        for lines, ended, cause in (
            (["tick"], None, ""),
            (["tick", "tick" + over], 2, "hang_time"),
            (["tick", "active carrier=0 slot=1", "tick", "tick" + over], 3, "hang_time"),
            (["tick", "active carrier=0 slot=0", "active carrier=1 slot=1", "tick" + over], 2, "hang_time"),
            (["tick", "active carrier=0 slot=1", "tick" + over], 2, "maximum"),
            (["tick", "say text=end 0 1" + over], 1, "ended_by_operator"),
            (["say text=drop 4" + over + "; left radio=4"], 0, "dropped"),
            (["tick", heard + over + "; left radio=3"], 1, "radio_left"),
            (["tick", "lost carrier=0"], 1, "carrier_lost"),
            (["tick", "lost carrier=1", "up carrier=0"], 1, "carrier_lost"),
        ):
            with self.subTest(lines):
                self.assertEqual(ends(*lines), (ended, cause))

    def test_faults(self) -> None:
        self.assertEqual(list(read_entries([])), [])
        first = "tick entry=1 input=1 tick=1"
        for text in (first.replace("entry=1", "entry=2"), f"{first}\n{first}", "joined radio=1", f"{first}\nfault", f"{first}\njoined", f"{first}\njoined radio=x", f"{first}\njoined carrier=1",
                     f"{first}\njoined radio=1 text=a", "tick input=1 entry=1 tick=1", "entry 1: a tick", ""):
            with self.subTest(text), self.assertRaises(EntryFault):
                list(read_entries(text.split("\n")))

    def test_the_document_has_each_kind(self) -> None:
        """docs/FORMATS.md has a row for each kind, with its keys."""
        rows = [(kind, keys, about) for kinds, keys, about in table_rows(read_document("FORMATS.md"), "| kind | fields") for kind in kinds.split(", ")]
        self.assertEqual({kind: keys for kind, keys, _ in rows}, EVENTS | ANSWERS)
        self.assertEqual({kind for kind, _, about in rows if about.startswith("event: ")}, set(EVENTS))
