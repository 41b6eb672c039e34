"""station/dmr_mend.h against the code of docs/FORMATS.md and against the controller's own decoder, and the
table of what is read in docs/LINK.md."""
import itertools
import random
import re
import subprocess
import unittest
from collections.abc import Iterable

from temzaar import code
from temzaar.frames import hello, rx
from tests import test_link
from tests.station_kit import FAST, STATION, ask, built, compilers, first_difference, run_built
from tests.support import program, read_document, table_rows
from tests.test_station import HEARD, flipped

WORDS = [*test_link.BURSTS.values()]
NOTHING = "-1"
# the most wrong bits that the controller reads, and the limits of dmr_mend.h
NEAR, HARD, SOFT = 3, 20, 26
RESERVED = [0, *(code.place_of(0, column) for column in range(3))]


def setUpModule() -> None:
    compilers()


def mended(words: Iterable[bytes], limit: int = HARD) -> list[tuple[int, bytes]]:
    """What the kit reads on hard bits: the wrong bits, or -1, and what it would send."""
    answers = (it.split() for it in ask(f"hard {limit} {word.hex()}" for word in words))
    return [(int(wrong), bytes.fromhex(sent)) for wrong, sent in answers]


def controllers(words: list[bytes]) -> list[str]:
    """What the controller's decoder reads: ten octets, or nothing, as `dmr_decode` prints them."""
    octets = hello(0, 1) + b"".join(rx(0, word) for word in words)
    said = subprocess.run([program("dmr_decode"), "carrier"], input=octets.hex(), capture_output=True, text=True, check=True).stdout
    lines = re.findall(r"^ *\d+  RX slot=0\n +(.*)$", said, re.M)
    if len(lines) != len(words):
        raise AssertionError(f"{len(words)} words, {len(lines)} lines")
    return ["" if it.startswith("means nothing") else it for it in lines]


def random_pdu(draws: random.Random) -> bytes:
    """Ten octets that no layout has, so that `dmr_decode` prints them as they are."""
    return b"\x80\x01" + draws.randbytes(8)


class Code(unittest.TestCase):
    """Codewords, near and far."""

    def test_codewords(self) -> None:
        draws = random.Random(1)
        pdus = [draws.randbytes(10) for _ in range(300)]
        words = [bytes.fromhex(it) for it in ask(f"encode {it.hex()}" for it in pdus)]
        self.assertIsNone(first_difference(words, [code.burst_of(it) for it in pdus]))
        self.assertIsNone(first_difference([bytes.fromhex(it) for it in ask(f"read {it.hex()}" for it in words)], pdus))
        self.assertIsNone(first_difference(mended(words), [(0, word) for word in words]))

    def test_bursts_of_the_link_with_up_to_three_wrong_bits(self) -> None:
        """Each place of all bursts, pairs and triples of places."""
        draws = random.Random(2)
        pairs = [*itertools.combinations(range(1, 196), 2)]
        flips = [(WORDS[0], pair) for pair in draws.sample(pairs, 2000)]
        flips += [(word, (place,)) for word in WORDS for place in range(1, 196)]
        flips += [(draws.choice(WORDS), tuple(draws.sample(range(1, 196), 3))) for _ in range(3000)]
        for limit in (NEAR, HARD):
            answers = mended((flipped(word, places) for word, places in flips), limit)
            self.assertIsNone(first_difference(answers, [(len(places), word) for word, places in flips]))

    def test_reserved_bits_are_ignored_and_sent_as_0(self) -> None:
        """A codeword with reserved bits 1 is read, with three wrong bits too."""
        row = [code.place_of(row, 0) for row in (0, 9, 10, 11, 12)]
        for reserved in range(3):
            column = [code.place_of(row, reserved) for row in (0, *range(9, 13))]
            word = bytes.fromhex(ask(["encode 9F00020EFFFEC60003E9"])[0])
            # the codeword of this reserved bit alone, by the equations
            parities = [p for p, cells in code.ROW_PARITIES.items() if reserved in cells]
            alone = [code.place_of(r, c) for c in (reserved, *parities) for r in (0, *range(9, 13))]
            other = flipped(word, alone)
            for places in ((), (7,), (0, 9, 99, 190)):
                self.assertEqual(mended([flipped(other, places)]), [(len(set(places) - {0}), word)])
            self.assertLess(len(column), len(alone) + len(row))

    def test_words_that_were_received_from_the_air(self) -> None:
        """Codewords without the check of a PDU: they are sent as they came, also with wrong bits, and never read."""
        draws = random.Random(3)
        for word in HEARD:
            came = [flipped(word, draws.sample(range(196), count)) for count in (0, 1, 2, 3, 4, 8, 12, 16, 20) for _ in range(10)]
            self.assertIsNone(first_difference(mended(came), [(-1, it) for it in came]))

    def test_what_is_not_read_is_sent_as_it_came(self) -> None:
        """Only the last four bits are made 0."""
        draws = random.Random(4)
        words = [draws.randbytes(25) for _ in range(50)]
        self.assertEqual(mended(words), [(-1, it[:-1] + bytes([it[-1] & 0xF0])) for it in words])

    def test_limits(self) -> None:
        """What is read is at most as far from what came as the limit, and that is the number of wrong bits."""
        draws = random.Random(5)
        for count in (2, 6, 10):
            words = [(word := draws.choice(WORDS), flipped(word, draws.sample(range(1, 196), count))) for _ in range(30)]
            for limit in (0, count - 1, count, 195):
                read = [it for it in zip(words, mended([came for _, came in words], limit), strict=True) if it[1][0] >= 0]
                self.assertTrue(all(wrong == count and sent == word for (word, _), (wrong, sent) in read))
                self.assertEqual(len(read) > 20, limit >= count, (count, limit))

    def test_the_limits_that_the_header_names(self) -> None:
        text = (STATION / "dmr_mend.h").read_text(encoding="utf-8")
        self.assertIn(f"DMR_MEND_LIMIT = {HARD}, DMR_MEND_SOFT_LIMIT = {SOFT}", text)


class Soft(unittest.TestCase):
    """Soft bits."""

    def ask_soft(self, values: list[list[int]]) -> list[tuple[int, bytes]]:
        """What the kit reads on soft bits."""
        answers = (it.split() for it in ask(f"soft {SOFT} {','.join(map(str, it))}" for it in values))
        return [(int(wrong), bytes.fromhex(sent)) for wrong, sent in answers]

    def values(self, word: bytes, size: int) -> list[int]:
        """Soft bits of a word, all equally sure."""
        return [-size if int.from_bytes(word, "big") & code.bit_at(place) else size for place in range(196)]

    def test_the_scale_does_not_matter(self) -> None:
        draws = random.Random(6)
        words = [flipped(draws.choice(WORDS), draws.sample(range(196), 9)) for _ in range(100)]
        hard = mended(words, SOFT)
        for size in (1, 20, 127):
            self.assertIsNone(first_difference(self.ask_soft([self.values(it, size) for it in words]), hard))

    def test_bits_of_which_nothing_is_known(self) -> None:
        """Forty such bits are found from the others. Nothing at all is nothing."""
        draws = random.Random(7)
        for _ in range(100):
            word = draws.choice(WORDS)
            values = self.values(word, 30)
            for place in draws.sample(range(196), 40):
                values[place] = 0
            [(wrong, sent)] = self.ask_soft([values])
            self.assertEqual((wrong >= 0, sent), (True, word))
        self.assertEqual(self.ask_soft([[0] * 196]), [(-1, bytes(25))])

    def test_the_ends_of_the_range(self) -> None:
        """The least and the greatest values, in any mixture, are not a fault to the sanitizers."""
        draws = random.Random(8)
        self.ask_soft([[draws.choice((-128, 127, 0, -1, 1)) for _ in range(196)] for _ in range(60)])
        self.ask_soft([[-128] * 196, [127] * 196, [-128, *[0] * 195], [*[0] * 195, 127]])


class Controllers(unittest.TestCase):
    """The controller's own decoder reads no word that the kit does not read, nor reads it otherwise."""

    def test_whatever_it_reads_is_read_the_same(self) -> None:
        draws = random.Random(9)
        words = [flipped(code.burst_of(random_pdu(draws)), draws.sample(range(196), draws.randrange(7))) for _ in range(2000)]
        words += [flipped(draws.choice(HEARD), draws.sample(range(196), draws.randrange(5))) for _ in range(200)]
        words += [flipped(code.burst_of(random_pdu(draws)), [*draws.sample(RESERVED, draws.randrange(4)), draws.randrange(196)]) for _ in range(500)]
        words += [draws.randbytes(24) + bytes([draws.randrange(16) << 4]) for _ in range(200)]
        theirs, near, ours = controllers(words), mended(words, NEAR), mended(words)
        octets = [bytes.fromhex(it) for it in ask(f"read {sent.hex()}" for _, sent in ours)]
        for word, read, (few, first), (wrong, sent), pdu in zip(words, theirs, near, ours, octets, strict=True):
            self.assertEqual(bool(read), few >= 0, word.hex())
            if read:
                self.assertEqual((few, first, read), (wrong, sent, f"OTHER {pdu.hex().upper()}"), word.hex())
        self.assertGreater(sum(map(bool, theirs)), 1200)

    def test_what_is_sent_means_what_was_read(self) -> None:
        """Whatever the kit reads, the controller reads of what it sends, without a wrong bit."""
        draws = random.Random(10)
        words = [flipped(code.burst_of(random_pdu(draws)), draws.sample(range(196), 9)) for _ in range(300)]
        sent = [it for wrong, it in mended(words) if wrong >= 0]
        self.assertEqual(controllers(sent), [f"OTHER {(code.octets_of(it) or b'').hex().upper()}" for it in sent])
        self.assertGreater(len(sent), 270)


class Hearing(unittest.TestCase):
    """The figures of docs/LINK.md."""

    def test_the_table_is_what_the_program_prints(self) -> None:
        """10,000 bursts for each figure. The program ends with status 1 if a figure is not what it has to be."""
        printed = run_built([built("hearing", FAST)])
        rows = table_rows(printed, "Control bursts")
        self.assertEqual(table_rows(read_document("LINK.md"), "| wrong bits"), rows)
        figures = {name: [float(it) for it in row] for name, *row in rows}
        hard, soft = figures["dmr_mend on hard bits"], figures["dmr_mend on soft bits"]
        self.assertTrue(hard[4] >= 95 and soft[4] >= 99.5 and soft[6] >= 98, rows)
        self.assertIn("\n0 bursts were read as another\n", printed)

    def test_noise(self) -> None:
        """The same program over some bursts and random words, with the sanitizers."""
        printed = run_built([built("hearing"), "-n", "30", "-o", "100"])
        self.assertEqual(len(re.findall(r"^100 (?:random words|bursts): 0 read", printed, re.M)), 2, printed)

    def test_the_controllers_decoder_in_the_same_run(self) -> None:
        printed = run_built([built("hearing", FAST), "-n", "500", "-d", program("dmr_decode")])
        self.assertEqual(printed.count("dmr_decode reads"), 8)
