"""The headers of station/, octet by octet: the link against docs/LINK.md and this package, the air
interface against polynomials, the decoder against the code and the controller's own decoder."""
import itertools
import random
import re
import subprocess
import unittest
from collections.abc import Iterable, Iterator

from temzaar import code
from temzaar.frames import DONE, FROM_CARRIER, TO_CARRIER, VERSIONS, Cutter, Frame, FrameType, Link, burst_frame, hello, welcome
from tests import test_link
from tests.station_kit import HEADERS, STATION, STRICT, ask, compilers, first_difference
from tests.support import read_document, table_rows

LINK = read_document("LINK.md")
# the words of docs/FORMATS.md that were received from the air, and carry no check of a CSBK
HEARD = [bytes.fromhex(row[0]) for row in table_rows(read_document("FORMATS.md"), "| word that was received")]
WORDS = [*test_link.BURSTS.values()]
MOST_LINES = 700


def setUpModule() -> None:
    compilers()


def flipped(word: bytes, places: Iterable[int]) -> bytes:
    """A word with the bits at these places flipped."""
    number = int.from_bytes(word, "big")
    for place in places:
        number ^= code.bit_at(place)
    return number.to_bytes(len(word), "big")


class Headers(unittest.TestCase):
    """The headers as a maker includes them."""

    def test_each_compiles_alone_and_all_together(self) -> None:
        for compiler in compilers():
            for names in [[name] for name in HEADERS] + [list(HEADERS), [*HEADERS, *HEADERS]]:
                text = "".join(f'#include "{name}"\n' for name in names) + "int main(void) { return 0; }\n"
                words = [compiler, *STRICT, "-O2", "-fsyntax-only", f"-I{STATION}", "-xc", "-"]
                done = subprocess.run(words, input=text, capture_output=True, text=True, check=False, timeout=60)
                self.assertEqual((done.returncode, done.stderr), (0, ""), names)

    def test_programs_compile_without_a_warning(self) -> None:
        for compiler, name in itertools.product(compilers(), ("probe", "hearing", "example")):
            words = [compiler, *STRICT, "-O1", "-fsyntax-only", str(STATION / f"{name}.c")]
            done = subprocess.run(words, capture_output=True, text=True, check=False, timeout=60)
            self.assertEqual((done.returncode, done.stderr), (0, ""), words)

    def test_they_are_small_and_do_nothing_else(self) -> None:
        texts = [(STATION / name).read_text(encoding="utf-8") for name in HEADERS]
        self.assertLessEqual(sum(text.count("\n") for text in texts), MOST_LINES)
        for text in texts:
            self.assertLessEqual(set(re.findall(r"#include <(.*)>", text)), {"stdint.h", "stddef.h", "string.h"})
            without_comments = re.sub(r"/\*.*?\*/", "", text, flags=re.S)
            self.assertNotRegex(without_comments, r"\b(malloc|calloc|free|printf|FILE|goto|float|double)\b")
            self.assertIn("not proved", text)


class Written(unittest.TestCase):
    """The frames that the kit writes."""

    def test_examples(self) -> None:
        """Each example of docs/LINK.md that a carrier sends, and the frame's RX again."""
        for words, octets in table_rows(LINK, "### Examples"):
            frame = test_link.frame_of(bytes.fromhex(octets))
            if frame.kind not in FROM_CARRIER:
                continue
            values = {name: int(value) for name, value in re.findall(r"(\w+)=(\d+)", words)}
            version = values.get("version", 2 if "number" in values else 1)
            asked = [f"link {version} {values.get('carrier', 0)} {values.get('lpcn', 1)}"]
            if frame.kind == FrameType.RX:
                asked += [f"rx 0 {test_link.BURSTS['aloha'].hex()}"] * values.get("number", 0)
                asked += [f"rx {values['slot']} {frame.burst().word.hex()}"]
            elif frame.kind != FrameType.HELLO:
                asked += [f"{frame.kind.name.lower()} {values.get('slot', '')}"]
            self.assertEqual(ask(asked)[-1], octets, words)

    def test_numbers_count_and_wrap(self) -> None:
        word = test_link.BURSTS["register 1001"].hex()
        answers = ask(["link 2 0 1", *[f"rx {n % 2} {word}" for n in range(258)], f"again 1 {word}"])
        self.assertEqual([int(it[4:6], 16) for it in answers[1:]], [*range(256), 0, 1, 1])
        self.assertEqual(ask(["link 1 0 1", f"rx 0 {word}", f"again 0 {word}"])[1:], [f"021A00{word.upper()}", "-"])

    def test_what_is_out_of_range_is_not_written(self) -> None:
        word = "FF" * 25
        asked = ["link 0 0 1", "link 3 0 1", "link 1 16 1", "link 1 0 0", "link 1 0 4095", "link 2 15 4094", f"rx 2 {word}", "active 2",
                 f"rx 1 {word}", "poll", "poll", "bye"]
        self.assertEqual(ask(asked), ["-"] * 5 + ["0104020F0FFE", "-", "-", f"021B0001{word[:-1]}0", "0300", "-", "0500"])

    def test_when_to_connect_again(self) -> None:
        """By the table of docs/LINK.md, "How a connection ends"."""
        for version, octets, wanted in ((2, "840101", "1000 1"), (1, "840101", "10000 1"), (2, "840102", "10000 2"), (2, "", "1000 2"),
                                        (1, "810101", "1000 1"), (2, "FF", "1000 2")):
            self.assertEqual(ask([f"link {version} 0 1", f"octets {octets}", f"retry {version}"])[-1], wanted)


def shown(events: Iterable[tuple[int, str]]) -> str:
    """Events as station/probe.c prints them."""
    return " ".join(f"{place}:{event}" for place, event in events)


class Reference:
    """The client's half of the link by this package: the event of each octet that comes, up to the first fault."""

    def __init__(self, version: int) -> None:
        self.version, self.link, self.cutter = version, Link(version), Cutter(TO_CARRIER)
        # the cutter takes the version from a WELCOME, and the kit from its HELLO
        self.cutter.version = version
        self.up = self.waits = False

    def poll(self) -> None:
        """A POLL was sent."""
        self.waits = True

    def octet(self, octet: int) -> str | None:
        """The event of an octet, if any."""
        for frame in self.cutter.feed(bytes([octet])):
            return self.event(frame)
        return "FAULT" if self.cutter.fault else None

    def event(self, frame: Frame) -> str:
        """The event of a whole frame."""
        kind, body = frame
        if kind == FrameType.WELCOME and not self.up and body[0] == self.version:
            self.up = True
            return "WELCOME"
        if kind == FrameType.REFUSED and not self.up and body[0] in (1, 2):
            return f"REFUSED/{body[0]}"
        if kind == FrameType.DONE and self.up and self.waits:
            self.waits = False
            return "DONE"
        burst = self.link.take_tx(frame) if kind == FrameType.TX and self.up and self.waits else None
        return f"TX/{burst.slot}/{burst.word.hex().upper()}" if burst else "FAULT"


class Received(unittest.TestCase):
    """What octets that come mean to the kit."""

    def test_charts(self) -> None:
        """The sessions of docs/LINK.md: the kit writes what the carrier sends, and finds what comes."""
        for chart in test_link.Charts().charts():
            version = chart[0].body[0]
            if version == 3:
                self.assertEqual(ask(["link 2 0 1", "octets 840101"])[-1], "2:REFUSED/1")
                continue
            asked, wanted, number, came = [], [], None, 0
            reference = Reference(version)
            for frame in chart:
                if frame.kind in TO_CARRIER:
                    asked.append(f"octets {frame.octets().hex()}")
                    last = [reference.octet(it) for it in frame.octets()][-1]
                    came += len(frame.octets())
                    wanted.append(f"{came - 1}:{last}")
                    continue
                question = {FrameType.HELLO: f"link {version} 0 1", FrameType.ACTIVE: "active 1"}.get(frame.kind, frame.kind.name.lower())
                if frame.kind == FrameType.RX:
                    burst = frame.burst()
                    question = f"{'again' if number is not None and burst.number == number else 'rx'} {burst.slot} {burst.word.hex()}"
                    if number is None:
                        # the chart begins with number 5, and the kit with 0: earlier bursts make the difference
                        asked[1:1] = [f"rx 0 {burst.word.hex()}"] * (burst.number or 0)
                        wanted[1:1] = ["*"] * (burst.number or 0)
                    number = burst.number
                elif frame.kind == FrameType.POLL:
                    reference.poll()
                asked.append(question)
                wanted.append(frame.octets().hex().upper())
            answers = ask(asked)
            self.assertEqual([a if w != "*" else w for a, w in zip(answers, wanted, strict=True)], wanted)

    def streams(self) -> Iterator[tuple[int, bytes]]:
        """A stream of each version: WELCOME, and the answers of a POLL, with and without TX."""
        for version in VERSIONS:
            number = iter(range(9)) if version == 2 else itertools.repeat(None)
            tx = [burst_frame(FrameType.TX, slot, word, next(number)) for slot, word in ((0, WORDS[0]), (1, WORDS[1]))]
            yield version, welcome(version) + b"".join(tx) + DONE

    def test_every_cutting(self) -> None:
        for version, octets in self.streams():
            reference = Reference(version)
            reference.poll()
            wanted = shown((n, event) for n, it in enumerate(octets) if (event := reference.octet(it)))
            pieces = [octets[:n].hex() + " " + octets[n:].hex() for n in range(1, len(octets))]
            asked = [line for it in pieces for line in (f"link {version} 0 1", "poll", *[f"octets {half}" for half in it.split()])]
            answers = ask(asked)
            for n in range(0, len(answers), 4):
                self.assertEqual(" ".join(answers[n + 2:n + 4]).strip(), wanted, asked[n + 2])
            self.assertEqual(wanted.count(":"), 4)

    def test_the_table_of_frames(self) -> None:
        """Of all types and lengths those of docs/LINK.md are taken, in their version, and no others."""
        rows = [(int(kind, 16), int(length, 16), [int(name[-1])] if "version" in name else [*VERSIONS])
                for name, sender, kind, length, *_ in table_rows(LINK, "## Frames") if sender == "controller"]
        lengths = {(version, kind): length for kind, length, versions in rows for version in versions}
        self.assertEqual(len(lengths), 8)
        for version in VERSIONS:
            asked = [line for kind, length in itertools.product(range(256), range(256)) if length < 40 or kind > 0x7F
                     for line in (f"link {version} 0 1", f"octets {kind:02X}{length:02X}")]
            for question, answer in zip(asked[1::2], ask(asked)[1::2], strict=True):
                kind, length = bytes.fromhex(question[7:])
                # (a DONE is whole with its length, and is a fault here: no POLL waits for it)
                is_begun = lengths.get((version, kind)) == length and kind != FrameType.DONE
                wanted = "" if is_begun else "1:FAULT" if (version, kind) in lengths else "0:FAULT 1:FAULT"
                self.assertEqual(answer, wanted, question)

    def random_stream(self, draws: random.Random, version: int) -> bytes:
        """Frames of the controller, mostly right ones, and now and then an octet that is another."""
        number, octets = 0, welcome(version) if draws.random() < 0.95 else draws.randbytes(40)
        for _ in range(draws.randrange(12)):
            word = draws.choice(WORDS)
            kinds = [DONE, burst_frame(FrameType.TX, draws.randrange(2), word, number if version == 2 else None)]
            kind = draws.randrange(2)
            number = (number + kind) % 256
            octets += kinds[kind] if draws.random() < 0.97 else draws.choice([welcome(version), b"\x84\x01\x02", hello(0, 1), b"\x84\x01\x07"])
        changed = bytearray(octets)
        if changed and draws.random() < 0.4:
            changed[draws.randrange(len(changed))] = draws.randrange(256)
        return bytes(changed)

    def test_random_streams(self) -> None:
        """Streams with and without faults mean what temzaar.frames reads."""
        draws, asked, wanted = random.Random(5), [], []
        for _ in range(1000):
            version = draws.choice(VERSIONS)
            octets, reference, events, polled = self.random_stream(draws, version), Reference(version), [], []
            asked.append(f"link {version} 0 1")
            for n, octet in enumerate(octets):
                if not reference.waits and draws.random() < 0.9:
                    reference.poll()
                    polled.append(n)
                event = reference.octet(octet)
                if event:
                    events.append((n, event))
                if event == "FAULT" or event and event.startswith("REFUSED"):
                    break
            for first, last in itertools.pairwise([0, *polled, len(octets)]):
                if first in polled:
                    asked.append("poll")
                asked.append(f"octets {octets[first:last].hex()}")
            wanted.append([event for event in events if event[1] != "FAULT"])
        found: list[list[tuple[int, str]]] = []
        for question, answer in zip(asked, ask(asked), strict=True):
            if question.startswith("link"):
                found.append([])
            elif question.startswith("octets"):
                found[-1] += [(int(place), event) for place, _, event in (it.partition(":") for it in answer.split()) if event != "FAULT"]
        self.assertIsNone(first_difference(found, wanted))
        self.assertGreater(sum(len(it) for it in wanted), 1500)

    def test_after_the_end_all_is_a_fault(self) -> None:
        for octets in ("FF", "840102", "8401FF"):
            answer = ask(["link 1 0 1", f"octets {octets}{'810101' * 40}"])[-1].split()
            self.assertEqual({it.split(":")[1] for it in answer[1:]}, {"FAULT"})


class Air(unittest.TestCase):
    """Bursts of the air interface."""

    BS, MS = "DFF57D75DF5D", "D5D7F77FD757"

    def slot_type(self, colour: int, kind: int) -> int:
        """The 20 bits: eight, their remainder by the polynomial of the Golay code, and a parity of all."""
        eight, rest = colour << 4 | kind, (colour << 4 | kind) << 11
        for degree in range(18, 10, -1):
            if rest >> degree & 1:
                rest ^= 0xC75 << (degree - 11)
        nineteen = eight << 11 | rest
        return nineteen << 1 | nineteen.bit_count() & 1

    def burst(self, word: bytes, sync: str, colour: int, kind: int) -> str:
        """The 33 octets of a burst, in hexadecimal."""
        bits, half = f"{int.from_bytes(word, 'big') >> 4:0196b}", f"{self.slot_type(colour, kind):020b}"
        return f"{int(bits[:98] + half[:10] + f'{int(sync, 16):048b}' + half[10:] + bits[98:], 2):066X}"

    def test_bursts_are_made_and_taken(self) -> None:
        cases = [(word, sync, colour, kind) for word in (*WORDS, *HEARD) for sync in (0, 1) for colour, kind in ((1, 3), (15, 9), (0, 0))]
        cases += [(WORDS[0], 1, colour, kind) for colour in range(16) for kind in range(16)]
        made = ask(f"make {word.hex()} {sync} {colour} {kind}" for word, sync, colour, kind in cases)
        wanted = [self.burst(word, self.MS if sync else self.BS, colour, kind) for word, sync, colour, kind in cases]
        self.assertIsNone(first_difference(made, wanted))
        away = (int(self.BS, 16) ^ int(self.MS, 16)).bit_count()
        taken = ask(f"take {it}" for it in made)
        wanted = [f"{0 if sync else away} 0 {colour} {kind} {word.hex().upper()}" for word, sync, colour, kind in cases]
        self.assertIsNone(first_difference(taken, wanted))

    def test_slot_types_with_wrong_bits(self) -> None:
        """Up to three wrong bits are mended. With four nothing is known, or another slot type is nearer."""
        draws, asked, wanted = random.Random(2), [], []
        places = [*range(98, 108), *range(156, 166)]
        for colour, kind in itertools.product(range(16), repeat=2):
            burst = bytes.fromhex(self.burst(WORDS[1], self.MS, colour, kind))
            for count in (1, 2, 3, 3, 3, 4):
                number = int.from_bytes(burst, "big")
                for place in draws.sample(places, count):
                    number ^= 1 << (263 - place)
                asked.append(f"take {number:066X}")
                wanted.append(f"0 {count} {colour} {kind}" if count < 4 else "0 -1 99 99")
        self.assertIsNone(first_difference([it.rpartition(" ")[0] for it in ask(asked)], wanted))

    def test_places(self) -> None:
        self.assertEqual([int(it) for it in ask(f"place {n}" for n in range(196))], [*range(98), *range(166, 264)])

    def test_syncs_are_far_from_each_other(self) -> None:
        """As dmr_air.h says; voice has the bits of data, with the outer sign of each symbol reversed."""
        syncs = [self.BS, self.MS, *(f"{int(it, 16) ^ 0xAAAAAAAAAAAA:012X}" for it in (self.BS, self.MS))]
        apart = {(int(a, 16) ^ int(b, 16)).bit_count() for a, b in itertools.combinations(syncs, 2)}
        said = re.search(r"Two syncs differ in at least (\d+)", (STATION / "dmr_air.h").read_text(encoding="utf-8"))
        assert said
        self.assertEqual(min(apart), int(said[1]))

    def test_cach(self) -> None:
        """The head is a multiple of x^3 + x + 1, at places that are four or two apart; the part has the others."""
        heads = (0, 4, 8, 12, 14, 18, 22)
        for busy, slot, lcss in itertools.product((0, 1), (0, 1), range(4)):
            part = busy * 99999 + slot * 777 + lcss
            bits = f"{int(ask([f'cach {busy} {slot} {lcss} {part}'])[0], 16):024b}"
            head = int("".join(bits[n] for n in heads), 2)
            self.assertEqual(head >> 3, busy << 3 | slot << 2 | lcss)
            for degree in range(6, 2, -1):
                head ^= (0b1011 << (degree - 3)) if head >> degree & 1 else 0
            self.assertEqual(head, 0)
            self.assertEqual(int("".join(bits[n] for n in range(24) if n not in heads), 2), part)

    # A short LC of a base station in the recording that docs/ASSURANCE.md names, and the parts in which it came.
    HEARD_SHORT_LC, HEARD_PARTS = 0x108004D, "06614 0C0C2 0A99E 03509"

    def test_a_short_lc_that_was_received(self) -> None:
        self.assertEqual(ask([f"short {self.HEARD_SHORT_LC:07X}"]), [self.HEARD_PARTS])

    def test_short_lc(self) -> None:
        """The rows before the four parts are interleaved are multiples of x^5 + x^2 + 1; the last is their sum. With the check
        the bits are a multiple of x^8 + x^2 + x + 1."""
        for short_lc in (0x1234567, 0, 0xFFFFFFF, 0x8000001, self.HEARD_SHORT_LC):
            bits = "".join(f"{int(it, 16):017b}" for it in ask([f"short {short_lc:07X}"])[0].split())
            before = [bits[n * 4 % 67] for n in range(67)] + [bits[67]]
            rows = [int("".join(before[n:n + 17]), 2) for n in range(0, 68, 17)]
            checked = rows[0] >> 5 << 24 | rows[1] >> 5 << 12 | rows[2] >> 5
            self.assertEqual(checked >> 8, short_lc)
            for degree in range(35, 7, -1):
                checked ^= (0b100000111 << (degree - 8)) if checked >> degree & 1 else 0
            self.assertEqual(checked, 0)
            self.assertEqual(rows[3], rows[0] ^ rows[1] ^ rows[2])
            for row in rows:
                for degree in range(16, 4, -1):
                    row ^= (0b100101 << (degree - 5)) if row >> degree & 1 else 0
                self.assertEqual(row, 0)
