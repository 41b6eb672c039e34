"""The checks of `trials/restart`, over made files of records and made plays: what is right passes, and each thing that is wrong has its fault."""
import dataclasses
import sys
import unittest

from tests.made_records import CALLS, NOON, REGISTRATIONS, change, make_records
from tests.support import TOP, FolderCase

sys.path.insert(0, str(TOP / "trials"))
from restart_checks import Change, Contents, PlayedCall, call_faults, file_faults, kept_faults, read_contents, registration_faults  # noqa: E402  (the path comes first)

# When the last recorded term ended, and moments before and after it.
UNTIL, BEFORE, AFTER = NOON, NOON - 500, NOON + 500


class Files(FolderCase):
    """A file in itself, and compared with what it was."""

    def setUp(self) -> None:
        super().setUp()
        self.path = make_records(self.folder / "site.db")
        # in the third term one call ended, in the first two two each
        self.contents = read_contents(str(self.path))

    def changed(self, statement: str) -> Contents:
        """What the file has after a change."""
        change(self.path, statement)
        return read_contents(str(self.path))

    def test_what_is_right(self) -> None:
        self.assertEqual((self.contents.integrity, self.contents.last, self.contents.until_ms, self.contents.registered),
                         ("ok", 3, NOON + 160_000, [radio for _, radio in REGISTRATIONS]))
        self.assertEqual(file_faults(self.contents), [])
        self.assertEqual(kept_faults(self.contents, self.contents), [])
        self.assertEqual(kept_faults(read_contents(str(make_records(self.path.parent / "old.db", 2))), self.contents), [])

    def test_a_call_is_missing(self) -> None:
        found = self.changed("DELETE FROM calls WHERE number = 3")
        self.assertEqual(file_faults(found), ["the numbers of calls are not 1 to 4: [1, 2, 4, 5]", "term 2: 2 calls ended, and there are 1 rows"])
        self.assertEqual(kept_faults(self.contents, found), ["calls of before have changed"])

    def test_a_call_is_there_twice(self) -> None:
        found = self.changed("INSERT INTO calls SELECT 6, term, carrier, slot, is_group, source, target, began, ended, began_ms, ended_ms, cause FROM calls WHERE number = 5")
        self.assertEqual(file_faults(found), ["term 3: 1 calls ended, and there are 2 rows"])

    def test_a_term_is_missing(self) -> None:
        found = self.changed("DELETE FROM terms WHERE number = 2")
        self.assertEqual(file_faults(found), ["the numbers of terms are not 1 to 2: [1, 3]"])
        self.assertEqual(kept_faults(self.contents, found), ["terms of before have changed"])

    def test_a_radio_twice(self) -> None:
        self.assertEqual(file_faults(self.changed("INSERT INTO registrations VALUES (4, 1001)")), ["a radio is registered twice: [1001, 1002, 1004, 1001]"])

    def test_integrity(self) -> None:
        found = dataclasses.replace(self.contents, integrity="row 1 missing from index")
        self.assertEqual(file_faults(found), ["integrity_check: row 1 missing from index"])


class Registrations(unittest.TestCase):
    """The registered radios of a file, by the changes that a player saw."""

    def faults(self, found: list[int], before: list[int], *changes: Change) -> list[str]:
        """The faults at the end of the last recorded term."""
        return registration_faults(found, before, changes, UNTIL)

    def test_what_is_right(self) -> None:
        joined, left = Change(3, True, BEFORE, BEFORE + 20), Change(1, False, BEFORE, BEFORE + 20)
        for found, changes in (([1, 2], []), ([1, 2, 3], [joined]), ([2], [left]), ([2, 3], [joined, left]), ([2, 1], [left, Change(1, True, BEFORE + 100, BEFORE + 120)])):
            self.assertEqual(self.faults(found, [1, 2], *changes), [], found)

    def test_what_is_not_sure(self) -> None:
        """The answer came after the end, or not at all: the change may be in the file, or not."""
        for change in (Change(3, True, BEFORE, AFTER), Change(3, True, BEFORE), Change(3, True, UNTIL, UNTIL + 5), Change(3, True, BEFORE, UNTIL - 5)):
            for found in ([1, 2], [1, 2, 3], [3, 1, 2]):
                self.assertEqual(self.faults(found, [1, 2], change), [], (change, found))
        for found in ([1, 2], [2]):
            self.assertEqual(self.faults(found, [1, 2], Change(1, False, BEFORE, AFTER)), [])

    def test_a_change_after_the_end_is_not_in_the_file(self) -> None:
        late = Change(3, True, AFTER, AFTER + 20)
        self.assertEqual(self.faults([1, 2], [1, 2], late), [])
        self.assertEqual(self.faults([1, 2, 3], [1, 2], late), ["radio 3 is registered in the file, and did not join"])

    def test_what_is_wrong(self) -> None:
        joined = Change(3, True, BEFORE, BEFORE + 20)
        for found, changes, fault in (([1, 2, 4], [], "radio 4 is registered in the file, and did not join"), ([1], [], "radio 2 is not registered in the file, and did not leave"),
                                      ([1, 2], [joined], "radio 3 is not registered in the file, and did not leave"),
                                      ([1, 2], [Change(2, False, BEFORE, BEFORE + 20)], "radio 2 is registered in the file, and did not join"),
                                      ([2, 1], [], "the order is [2, 1], and radios joined in the order [1, 2]"),
                                      ([3, 1, 2], [joined], "the order is [3, 1, 2], and radios joined in the order [1, 2, 3]")):
            self.assertEqual(self.faults(found, [1, 2], *changes), [fault])


class Calls(FolderCase):
    """The records of calls, by the calls that a player saw: grants a tick after the beginning, P_CLEARs a tick after the end."""

    def setUp(self) -> None:
        super().setUp()
        self.recorded = read_contents(str(make_records(self.folder / "site.db"))).calls
        self.played = [PlayedCall(bool(row[4]), int(row[5]), int(row[6]), int(row[2]), int(row[3]), int(row[9]) + 60, int(row[10]) + 60) for row in CALLS]
        self.until = NOON + 160_000

    def test_what_is_right(self) -> None:
        self.assertEqual(call_faults(self.recorded, self.played, self.until), [])

    def test_calls_after_the_last_term(self) -> None:
        """They need not be there: one that is still active, one whose P_CLEAR came later, and one that began later."""
        more = [PlayedCall(True, 1001, 91, 0, 1, self.until - 3000), PlayedCall(True, 1003, 92, 0, 1, self.until - 3000, self.until + 10),
                PlayedCall(True, 1001, 93, 0, 1, self.until + 3000, self.until + 9000)]
        self.assertEqual(call_faults(self.recorded, self.played + more, self.until), [])

    def test_a_call_of_the_same_parties_again(self) -> None:
        again = dataclasses.replace(self.recorded[0], number=6, began_ms=NOON + 151_000, ended_ms=NOON + 155_000)
        played = PlayedCall(True, 1001, 91, 0, 1, NOON + 151_060, NOON + 155_060)
        self.assertEqual(call_faults([*self.recorded, again], [*self.played, played], self.until), [])
        self.assertEqual(call_faults(self.recorded, [*self.played, played], self.until), ["call of 1001 to group 91: 1 records, and the player saw 2, of which 2 ended before the last term"])

    def test_what_is_wrong(self) -> None:
        first = "call of 1001 to group 91: "
        twice = [*self.recorded, dataclasses.replace(self.recorded[0], number=6)]
        elsewhere = [dataclasses.replace(self.recorded[0], slot=0), *self.recorded[1:]]
        later = [dataclasses.replace(self.recorded[0], began_ms=self.recorded[0].began_ms + 3000), *self.recorded[1:]]
        for recorded, fault in ((self.recorded[1:], first + "0 records, and the player saw 1, of which 1 ended before the last term"),
                                (twice, first + "2 records, and the player saw 1, of which 1 ended before the last term"), (elsewhere, first + "it is recorded on 0/0, and was on 0/1"),
                                (later, first + "by the record it began 2940 ms after the player saw that")):
            self.assertEqual(call_faults(recorded, self.played, self.until), [fault])
        self.assertEqual(call_faults(self.recorded, self.played[1:], self.until), [first + "1 records, and the player saw 0, of which 0 ended before the last term"])
