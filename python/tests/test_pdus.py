"""The table of PDUs, against docs/FORMATS.md, and its use in both directions."""
import random
import re
import unittest

from temzaar import pdus
from tests.support import read_document, table_rows

FORMATS = read_document("FORMATS.md")


class Table(unittest.TestCase):
    """The table is the document's."""

    def test_layouts(self) -> None:
        said: dict[str, pdus.Layout] = {}
        for name, octet, text in table_rows(FORMATS, "## PDUs"):
            other = re.fullmatch(r"as (\w+)", text)
            parts = re.findall(r"(?:(\w+) )?(\d+),(\d+)", text)
            fields = said[other[1]].fields if other else tuple(pdus.Field(field, int(first), int(width)) for field, first, width in parts)
            said[name] = pdus.Layout(int(octet, 16), fields)
        self.assertEqual(said, pdus.LAYOUTS)

    def test_each_layout_covers_every_bit_once(self) -> None:
        for name, layout in pdus.LAYOUTS.items():
            bits = [bit for field in layout.fields for bit in range(field.first, field.first + field.width)]
            self.assertEqual(bits, list(range(16, 80)), name)

    def test_reasons(self) -> None:
        said = {int(octet, 16): name for name, octet, _ in table_rows(FORMATS, "### Reasons")}
        self.assertEqual({octet: reason.name for octet, reason in pdus.REASONS.items()}, said)

    def test_kinds(self) -> None:
        said = re.search(r"\*\*Service kinds\*\* of a request: ([^.]*)\.", FORMATS)
        assert said
        kinds = {int(number): words.replace(" ", "_") for number, words in re.findall(r"(\d+) ([a-z ]+)", said[1])}
        self.assertEqual(pdus.KINDS, kinds)


class BothDirections(unittest.TestCase):
    """Reading returns what was written, and writing what was read."""

    def test_round_trips(self) -> None:
        draws = random.Random(1)
        for name, layout in pdus.LAYOUTS.items():
            for _ in range(50):
                values = {field.name: draws.getrandbits(field.width) for field in layout.fields if field.name}
                if "lpcn" in values:
                    values["lpcn"] = draws.randrange(1, 4095)
                octets = pdus.write(name, **values)
                self.assertEqual(pdus.read(octets), pdus.Pdu(name, values))

    def test_other(self) -> None:
        grant = pdus.write("TV_GRANT", lpcn=1, slot=1, target=91, source=1001)
        for octets in (b"\x98" + grant[1:], grant[:1] + b"\1" + grant[2:], grant[:3] + bytes([grant[3] | 1]) + grant[4:],
                       grant[:2] + b"\0\x08" + grant[4:], grant[:2] + b"\xff\xf8" + grant[4:]):
            pdu = pdus.read(octets)
            self.assertEqual(pdu.name, pdus.OTHER)
            self.assertEqual(pdu.in_words(octets), f"OTHER {octets.hex().upper()}")

    def test_what_cannot_be_written(self) -> None:
        with self.assertRaises(ValueError):
            pdus.write("C_RAND", kind=16)
        with self.assertRaises(ValueError):
            pdus.write("C_RAND", lpcn=1)

    def test_words(self) -> None:
        octets = pdus.write("C_ACKD", reason=pdus.REG_ACCEPTED, target=1001, additional=0xFFFEC6)
        self.assertEqual(octets.hex().upper(), "A00000C40003E9FFFEC6")
        self.assertEqual(pdus.read(octets).in_words(octets), "C_ACKD info=0 reason=Reg_Accepted spare=0 target=1001 additional=16776902")
