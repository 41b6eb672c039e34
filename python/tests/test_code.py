"""The block code and the check, against the test vectors and the equations of docs/FORMATS.md."""
import itertools
import random
import re
import unittest

from temzaar import code
from tests.support import read_document, table_rows

FORMATS = read_document("FORMATS.md")


class Vectors(unittest.TestCase):
    """The document's test vectors."""

    def test_checks_and_bursts(self) -> None:
        rows = table_rows(FORMATS, "| ten octets")
        self.assertGreaterEqual(len(rows), 5)
        for octets_text, check, burst in rows:
            octets = bytes(10) if octets_text == "ten times 00" else bytes.fromhex(octets_text)
            self.assertEqual(code.check_of(octets).hex().upper(), check)
            if burst:
                self.assertEqual(code.burst_of(octets).hex().upper(), burst)
                self.assertEqual(code.octets_of(bytes.fromhex(burst)), octets)

    def test_word_of_the_last_bit(self) -> None:
        said = re.search(r"has 1 at the places ([\d, ]+)\.", FORMATS)
        assert said
        places = {int(it) for it in said[1].split(",")}
        word = code.word_of(bytes(11) + b"\1")
        self.assertEqual({place for place in range(code.PLACES) if word & code.bit_at(place)}, places)


class Equations(unittest.TestCase):
    """The code's tables are those of the document, and its codewords satisfy them."""

    def test_tables_are_the_documents(self) -> None:
        for heading, table in (("In each of the 13 rows", code.ROW_PARITIES), ("In each of the 15 columns", code.COLUMN_PARITIES)):
            rows = table_rows(FORMATS, heading)
            self.assertEqual({int(parity[1:]): tuple(int(it[1:]) for it in cells.split()) for parity, cells in rows}, table)

    def test_all_rows_and_columns_of_a_codeword(self) -> None:
        draws = random.Random(1)
        for _ in range(20):
            word = code.word_of(draws.randbytes(12))
            grid = [[int(bool(word & code.bit_at(code.place_of(r, c)))) for c in range(code.COLUMNS)] for r in range(code.ROWS)]
            for r, (parity, cells) in itertools.product(range(code.ROWS), code.ROW_PARITIES.items()):
                self.assertEqual(grid[r][parity], sum(grid[r][c] for c in cells) % 2)
            for c, (parity, cells) in itertools.product(range(code.COLUMNS), code.COLUMN_PARITIES.items()):
                self.assertEqual(grid[parity][c], sum(grid[r][c] for r in cells) % 2)

    def test_places_and_cells(self) -> None:
        places = [code.place_of(r, c) for r in range(code.ROWS) for c in range(code.COLUMNS)]
        self.assertEqual(sorted(places), list(range(1, code.PLACES)))
        for r, c in itertools.product(range(code.ROWS), range(code.COLUMNS)):
            self.assertEqual(code.cell_at(code.place_of(r, c)), (r, c))

    def test_least_weight_of_one_information_bit(self) -> None:
        weights = [bin(code.word_of((1 << n).to_bytes(12, "big"))).count("1") for n in range(code.INFORMATION_BITS)]
        self.assertEqual(min(weights), 9)


class Reading(unittest.TestCase):
    """A burst is read back only if it is a codeword with its check."""

    def test_no_flipped_bit_is_accepted(self) -> None:
        octets = bytes.fromhex("9F00020EFFFEC60003E9")
        for place in range(code.PLACES):
            self.assertIsNone(code.octets_of(code.burst_of(octets, [place])), place)

    def test_a_codeword_with_a_wrong_check(self) -> None:
        self.assertIsNone(code.octets_of(code.word_of(bytes(12)).to_bytes(code.BURST_OCTETS, "big")))
