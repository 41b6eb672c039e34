"""The expected output of `dmr_decode` for scripts, replays and PDUs, from docs/FORMATS.md alone. The judged session of the stored run is written by hand."""
import pathlib
import random
import re
from typing import NamedTuple

from temzaar import code, pdus
from temzaar.frames import FROM_CARRIER, REFUSALS, TO_CARRIER, Cutter, Frame, FrameType, Link, active
from temzaar.script import split_connection
from temzaar.sitefile import Site
from tests.support import TWO_CARRIERS, read_document, table_rows

MOST_FLIPS = 3
# Words that were received from the air and carry no PDU, with their information bits.
HEARD = {bytes.fromhex(row[0]): row[1] for row in table_rows(read_document("FORMATS.md"), "| word that was received")}
# A session of the control carrier, each line with what docs/LINK.md and docs/SITE_MACHINE.md say of it.
FRAME_LINE = re.compile(r" *\d+  (HELLO|RX|POLL|ACTIVE|BYE)(.*)$")
JUDGED_SESSION = pathlib.Path(__file__).with_name("judged_session.txt")


class Flipped(NamedTuple):
    """The origin of a burst: ten octets, and the places that were flipped."""
    octets: bytes
    places: list[int]


class Traffic(NamedTuple):
    """A script, and the origin of its bursts."""
    script: str
    known: dict[bytes, Flipped]


def corrected_lines(places: list[int]) -> list[str]:
    """The output for flipped places."""
    cells = []
    for place in sorted(it for it in places if it):
        row, column = code.cell_at(place)
        cells.append(f" place {place} (row {row}, column {column})")
    lines = ["      mended:" + ",".join(cells)] if cells else []
    return lines + (["      place 0, which is outside the code, is 1"] if 0 in places else [])


def word_lines(word: bytes, known: dict[bytes, Flipped]) -> list[str]:
    """The output for a word."""
    octets = code.octets_of(word)
    if octets:
        return ["      " + pdus.read(octets).in_words(octets)]
    if word in known:
        made = known[word]
        return ["      " + pdus.read(made.octets).in_words(made.octets), *corrected_lines(made.places)]
    if word in HEARD:
        return [f"      means nothing: the check of {HEARD[word]} is wrong"]
    return ["      means nothing: no codeword within 3 flipped bits"]


def frame_lines(place: int, frame: Frame, known: dict[bytes, Flipped]) -> list[str]:
    """The output for a frame that begins at a place of a stream."""
    kind, body = frame
    if kind in (FrameType.RX, FrameType.TX):
        number, slot, word = frame.burst()
        numbered = "" if number is None else f" number={number}"
        return [f"{place:>4}  {kind.name}{numbered} slot={slot}", *word_lines(word, known)]
    said = {
        FrameType.HELLO: lambda: f" version={body[0]} carrier={body[1]} lpcn={int.from_bytes(body[2:], 'big')}",
        FrameType.ACTIVE: lambda: f" slot={body[0]}",
        FrameType.WELCOME: lambda: f" version={body[0]}",
        FrameType.REFUSED: lambda: f" reason={REFUSALS[body[0]]}",
    }.get(kind, lambda: "")()
    return [f"{place:>4}  {kind.name}{said}"]


def script_text(script: str, known: dict[bytes, Flipped]) -> str:
    """The output for a script: each line, and the frames that end in it."""
    said: list[str] = []
    cutters: dict[str, Cutter] = {}
    places: dict[str, int] = {}
    for line in script.split("\n")[:-1]:
        said.append(line)
        words = line.split(" ")
        if words[0] == "open":
            cutters[words[1]], places[words[1]] = Cutter(FROM_CARRIER), 0
        elif words[0] == "bytes":
            for frame in cutters[words[1]].feed(bytes.fromhex(words[2])):
                said += frame_lines(places[words[1]], frame, known)
                places[words[1]] += len(frame.octets())
    return "\n".join(said) + "\n"


def replay_text(printed: str, known: dict[bytes, Flipped]) -> str:
    """The output for a printed replay."""
    said = []
    for line in printed.split("\n")[:-1]:
        words = line.split(" ")
        said.append(" ".join(words[:2]) if words[0] == "carrier" else line)
        octets, place = bytes.fromhex(words[2]) if words[0] == "carrier" and words[2] != "-" else b"", 0
        while octets:
            piece, octets = split_connection(octets)
            for frame in Cutter(TO_CARRIER).feed(piece):
                said += frame_lines(place, frame, known)
                place += len(frame.octets())
    return "\n".join(said) + "\n"


def random_pdu(name: str, draws: random.Random) -> bytes:
    """A PDU whose fields are drawn; one in two is 0."""
    values = {}
    for field in pdus.LAYOUTS[name].fields:
        if field.name:
            values[field.name] = draws.randrange(1, 4095) if field.name == "lpcn" else draws.choice((0, draws.getrandbits(field.width)))
    return pdus.write(name, **values)


def make_traffic(draws: random.Random, each: int) -> Traffic:
    """A script of two carriers: `each` bursts of each PDU with up to three bits flipped, each reason, each kind, noise,
    and the words of HEARD."""
    known: dict[bytes, Flipped] = {}
    lines = ["open 0", "bytes 0 010401000001"]
    drawn = [random_pdu(name, draws) for name in pdus.LAYOUTS for _ in range(each)]
    drawn += [pdus.write("C_ACKD", reason=reason, target=1001, additional=1002) for reason in sorted(pdus.REASONS)]
    drawn += [pdus.write("C_RAND", kind=kind, target=91, source=1001) for kind in pdus.KINDS]
    for octets in drawn:
        places = draws.sample(range(code.PLACES), draws.randrange(MOST_FLIPS + 1))
        burst = code.burst_of(octets, places)
        known[burst] = Flipped(octets, places)
        lines += [f"bytes 0 021A0{draws.randrange(2)}{burst.hex().upper()}", "bytes 0 0300"]
    noise = code.burst_of(random_pdu("C_RAND", draws), range(1, code.PLACES, 40))
    lines += [f"bytes 0 021A00{word.hex().upper()}0300" for word in (noise, *HEARD)]
    lines += [f"bytes 0 {active(1).hex()}", "bytes 0 0500"]
    # some of them on a connection of version 2, each with a retransmission
    lines += ["open 1", "bytes 1 010402010002"]
    link = Link(2)
    for burst in (*list(known)[-7:], noise):
        lines += [f"bytes 1 {(link.rx(draws.randrange(2), burst) * 2).hex().upper()}", "bytes 1 0300"]
    return Traffic("\n".join([*lines, "bytes 1 0500"]) + "\n", known)


def judged_bystander(script: str, known: dict[bytes, Flipped]) -> str:
    """The output for a script of carriers that are not the control carrier, without calls, judged by a site that has them."""
    said: list[str] = []
    newest = ""
    for line in script_text(script, known).split("\n")[:-1]:
        if line.startswith("open "):
            newest = ""
            line += " -> counted: a connection begins"
        elif line.startswith("bytes "):
            line += " -> read"
        elif words := FRAME_LINE.match(line):
            name, fields = words[1], words[2]
            if name == "HELLO":
                line += f" -> counted: carrier {fields.split('carrier=')[1].split(' ')[0]} is up"
            elif name == "RX":
                number = fields.partition(" slot=")[0]
                line += " -> ignored: it has the number of the RX before it" if number and number == newest else " -> ignored: not the control slot"
                newest = number
            else:
                line += {"POLL": " -> counted: nothing is to be sent", "ACTIVE": " -> ignored: no call is active on the slot", "BYE": " -> ended: BYE"}[name]
        said.append(line)
    return "\n".join(said) + "\n"


def script_of(judged: str) -> str:
    """The script of a judged session: its lines without the indented ones and the judgements."""
    return "".join(line.partition(" -> ")[0] + "\n" for line in judged.split("\n")[:-1] if not line.startswith(" "))


def stored_site() -> str:
    """The site of the stored run: the usual one in both versions of the link, with a third carrier, which has the control slot."""
    site = Site(TWO_CARRIERS, control=2, link_version=2)
    site.rows.append({"number": 2, "lpcn": 3, "port": 7103})
    return site.text()


def stored_run() -> tuple[str, str]:
    """The stored run of `dmr_decode`, `crates/dmr_decode/stdin` and `stdout`: a script and its output, judged by `stored_site`. First the traffic of all PDUs on
    other carriers, then the judged session of the control carrier."""
    traffic, session = make_traffic(random.Random(1), 1), JUDGED_SESSION.read_text(encoding="utf-8")
    return traffic.script + script_of(session), judged_bystander(traffic.script, traffic.known) + session
