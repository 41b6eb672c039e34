"""The file of names: what is read of it, what is refused with its line, and how a name is shown next to its number."""
import os
import unittest

from temzaar.names import MOST_BAD, MOST_CHARACTERS, MOST_LINES, NO_NAMES, Kind, Names, NamesFault, NamesFile, bearers_in, named, parse_names, read_names
from temzaar.printable import columns_of, cut_text, padded
from tests.support import FolderCase

RIGHT = "kind,number,name\nradio,1001,Bus 12\ntalkgroup,91,Drivers\ncarrier,0,Mast North\n"
NAMES = parse_names(RIGHT.encode(), "names.csv").names


def parse(text: str) -> NamesFile:
    """The names of a text."""
    return parse_names(text.encode("utf-8", "surrogateescape"), "names.csv")


def bad_lines(text: str) -> list[tuple[int, str]]:
    """The bad lines after a right one: their numbers and reasons."""
    return [(it.number, it.reason) for it in parse(f"radio,1,a\n{text}").bad]


class Right(unittest.TestCase):
    """Files of which every line is used."""

    def test_each_kind(self) -> None:
        found = parse(RIGHT)
        self.assertEqual((found.bad, found.bad_count, len(found.names)), ((), 0, 3))
        self.assertEqual([found.names.name_of(*it) for it in ((Kind.RADIO, 1001), (Kind.TALKGROUP, 91), (Kind.CARRIER, 0), (Kind.RADIO, 91), (Kind.CARRIER, 1))],
                         ["Bus 12", "Drivers", "Mast North", None, None])
        self.assertEqual(found.lines[Kind.TALKGROUP][91], 3)

    def test_encodings_and_ends_of_lines(self) -> None:
        """UTF-8, with or without a byte order mark; LF or CR LF; without an end of the last line; with empty lines."""
        for octets in (RIGHT.encode(), b"\xef\xbb\xbf" + RIGHT.encode(), RIGHT.replace("\n", "\r\n").encode(), RIGHT.rstrip().encode(), RIGHT.replace("\n", "\n\n").encode(),
                       RIGHT.removeprefix("kind,number,name\n").encode(), RIGHT.replace("kind,number,name", '"kind", "number", "name"').encode()):
            found = parse_names(octets, "names.csv")
            self.assertEqual((found.names, found.bad), (NAMES, ()), octets)
        self.assertEqual(parse("radio,7,Zürich Süd\n").names.name_of(Kind.RADIO, 7), "Zürich Süd")

    def test_fields(self) -> None:
        """Quotation marks as CSV has them; blanks around a field do not count; a number may have zeros before it."""
        for line, name in (('radio,5,"Bus 12, spare"', "Bus 12, spare"), ('radio,5,"the ""old"" one"', 'the "old" one'), (" radio , 5 ,  Bus 12 ", "Bus 12"), ("radio,0005,<b>&amp;", "<b>&amp;"),
                           ("radio,5,=1+1", "=1+1"), ("radio,5,東京 1", "東京 1"), (f"radio,5,{'x' * MOST_CHARACTERS}", "x" * MOST_CHARACTERS)):
            self.assertEqual((parse(line).names.name_of(Kind.RADIO, 5), parse(line).bad), (name, ()), line)

    def test_an_empty_file_has_no_names(self) -> None:
        for text in ("", "\n\r\n", "kind,number,name\n"):
            self.assertEqual((len(parse(text).names), parse(text).bad), (0, ()))

    def test_both_ends_of_the_numbers(self) -> None:
        for line in ("radio,1,b", "radio,16777215,b", "talkgroup,1,b", "talkgroup,16777215,b", "carrier,0,b", "carrier,15,b"):
            self.assertEqual(parse(line).bad, ())


class Bad(FolderCase):
    """Lines that are not used. Each has its number; the others are used."""

    def test_each(self) -> None:
        fields = "not kind,number,name, three fields with commas between them"
        for line, reason in (
            ("radio,2", fields), ("radio;2;b", fields), ("radio,2,b,c", fields), ("   ", fields), ('radio,2,"b', "not CSV: unexpected end of data"), ('radio,2,"b"c', "not CSV: ',' expected after '\"'"),
            ("Radio,2,b", "the kind is not radio, talkgroup, carrier"), (",2,b", "the kind is not radio, talkgroup, carrier"),
            *((f"radio,{it},b", "the number of a radio is from 1 to 16777215") for it in ("", "0", "-1", "2.0", "0x2", "x", "16777216", "999999999", "²", "٢")),
            ("talkgroup,0,b", "the number of a talkgroup is from 1 to 16777215"), ("carrier,16,b", "the number of a carrier is from 0 to 15"),
            ("radio,2,", "the name is empty"), ("radio,2,  ", "the name is empty"), (f"radio,2,{'x' * (MOST_CHARACTERS + 1)}", f"the name has more than {MOST_CHARACTERS} characters"),
            ("radio,2,b\udcff", "the name is not UTF-8"), ("radio,2,Bus [12]", "the name has a bracket, [ or ]: names are shown between them"),
            *((f"radio,2,b{it}c", "the name has a character that is not printable") for it in ("\x1b[2J", "\x00", "\x7f", "\t", "\x85", "\u200b", "\u202e", "\u2028", "\ufeff", "\u00a0")),
            ("radio,2,b\rc", "there is a CR within the line: lines end with LF, or CR LF"),
            ("radio,1,b", "radio 1 has a name already, by line 1: the first one counts"), ("radio,001,a", "radio 1 has a name already, by line 1: the first one counts"),
        ):
            with self.subTest(line):
                self.assertEqual(bad_lines(f"{line}\ntalkgroup,9,z"), [(2, reason)])
                self.assertEqual(parse(f"radio,1,a\n{line}\ntalkgroup,9,z").names, parse("radio,1,a\ntalkgroup,9,z").names)

    def test_a_quotation_mark_takes_no_other_line(self) -> None:
        self.assertEqual(bad_lines('radio,2,"b\nradio,3,c\nradio,4,"d"\nx'), [(2, "not CSV: unexpected end of data"), (5, "not kind,number,name, three fields with commas between them")])

    def test_a_header_that_is_not_the_first_line(self) -> None:
        self.assertEqual(bad_lines("kind,number,name"), [(2, "the kind is not radio, talkgroup, carrier")])

    def test_no_right_line(self) -> None:
        """A file of something else is a fault, and not a file without names."""
        path = self.folder / "a\x1bb"
        for octets, said in ((b"\x7fELF\x02", "not kind,number,name"), ("radio,1,Bus".encode("utf-16"), "the kind is not"), (b"radio,0,a\nradio,0,b\n", "the number of a radio")):
            path.write_bytes(octets)
            with self.assertRaises(NamesFault) as caught:
                read_names(str(path))
            found = str(caught.exception)
            self.assertTrue(found.startswith(f"{self.folder}/a\\x1bb: line 1: {said}"), found)
            self.assertTrue(found.endswith("; no line of the file is right"))

    def test_too_many_lines(self) -> None:
        """The names up to the greatest number of lines are used."""
        found = parse("".join(f"radio,{it},a\n" for it in range(1, MOST_LINES + 3)))
        self.assertEqual((len(found.names), found.bad_count, found.bad[0].number), (MOST_LINES, 1, MOST_LINES + 1))
        self.assertEqual(found.bad[0].reason, "more than 100000 lines: this one and those after it are not used")

    def test_many_bad_lines(self) -> None:
        found = parse("radio,1,a\n" + "x\n" * 2000)
        self.assertEqual((found.bad_count, len(found.bad), found.bad[-1].number), (2000, MOST_BAD, MOST_BAD + 1))
        notes = [*found.notes()]
        self.assertEqual((len(notes), notes[0][:24], notes[-1]), (6, "names.csv: line 2: not k", "names.csv: 1995 more lines are not used; `dmr_check --names names.csv` lists them"))

    def test_files(self) -> None:
        path = str(self.folder / "names.csv")
        self.assertRaisesRegex(NamesFault, "names.csv: No such file or directory", read_names, path)
        self.assertRaisesRegex(NamesFault, "Is a directory", read_names, str(self.folder))
        self.write("names.csv", RIGHT)
        self.assertEqual(read_names(path).names, NAMES)
        os.truncate(path, (1 << 24) + 1)
        self.assertRaisesRegex(NamesFault, "more than 16777216 octets", read_names, path)


class Shown(unittest.TestCase):
    """A name next to its number."""

    def test_label(self) -> None:
        self.assertEqual((NAMES.label(Kind.RADIO, 1001), NAMES.label(Kind.RADIO, 1002), NO_NAMES.label(Kind.RADIO, 1001)), ("1001 [Bus 12]", "1002", "1001"))
        self.assertEqual((named(91, "Linienbus Nordring", 10), named(91, "Linienbus Nordring")), ("91 [Linienbu..]", "91 [Linienbus Nordring]"))

    def test_a_name_of_digits_is_not_read_as_a_number(self) -> None:
        self.assertEqual(parse("radio,1001,12").names.in_text("group 91 from 1001"), "group 91 from 1001 [12]")

    def test_in_a_text(self) -> None:
        for text, shown in (
            ("call 0 1 group 91 from 1001", "call 0 [Mast North] 1 group 91 [Drivers] from 1001 [Bus 12]"), ("radio 1001", "radio 1001 [Bus 12]"),
            ("radio 1001 from 1001", "radio 1001 [Bus 12] from 1001 [Bus 12]"), ("slot 0 1 free", "slot 0 [Mast North] 1 free"), ("line 1 group 91 from 7", "line 1 group 91 [Drivers] from 7"),
            ("history 2026-11-26T11:14:53Z alice answered: drop 1001: ok", "history 2026-11-26T11:14:53Z alice answered: drop 1001 [Bus 12]: ok"),
            ("status carriers 0 radios 1001 asks 0 lines 0 calls 0 fill move 91", "status carriers 0 radios 1001 asks 0 lines 0 calls 0 fill move 91"),
            ("calls 0", "calls 0"), ("end 0 1", "end 0 [Mast North] 1"), ("group 910", "group 910"), ("group 91000000000", "group 91000000000"),
        ):
            self.assertEqual((NAMES.in_text(text), NO_NAMES.in_text(text)), (shown, text))
        self.assertEqual([*bearers_in(["call 0 1 group 91 from 1001", "radios 7"])], [(Kind.CARRIER, 0), (Kind.TALKGROUP, 91), (Kind.RADIO, 1001)])

    def test_an_address_of_either_kind(self) -> None:
        names: Names = parse("radio,1,a\ntalkgroup,1,b\nradio,2,c\ntalkgroup,3,d\n").names
        self.assertEqual([names.of_address(it) for it in (1, 2, 3, 4)], [None, "c", "d", None])

    def test_columns(self) -> None:
        """Wide characters take two columns, combining ones none."""
        self.assertEqual([columns_of(it) for it in ("abc", "Süd", "東京", "e\u0301")], [3, 3, 4, 1])
        self.assertEqual([cut_text("東京駅前", it) for it in (8, 7, 6, 2)], ["東京駅前", "東京..", "東京..", ".."])
        self.assertEqual((cut_text("Bus 12 spare", 8), padded("東京", 6), padded("東京", 2)), ("Bus 12..", "東京  ", "東京"))
