"""The examples' expected outputs, worked out in words from docs/SITE_MACHINE.md and written as octets by the package."""
import os
import subprocess
import unittest

from temzaar import code, pdus
from temzaar.frames import DONE, FrameType, burst_frame, welcome
from tests.support import EXAMPLES, TWO_CARRIERS, program

# what sites/two_carriers.toml says
SYSTEM, REGI, TSI = 0x1234, 0xFFFEC6, 0xFFFECA
REASONS = {reason.name: octet for octet, reason in pdus.REASONS.items()}
WELCOME = welcome(1)


def tx(slot: int, octets: bytes) -> bytes:
    """A TX of a PDU."""
    return burst_frame(FrameType.TX, slot, code.burst_of(octets))


def registered(radio: int) -> bytes:
    """The answer to a poll: a radio's registration is acknowledged."""
    return tx(0, pdus.write("C_ACKD", reason=REASONS["Reg_Accepted"], target=radio, additional=REGI)) + DONE


def queued(radio: int, group: int) -> bytes:
    """The answer to a poll: a radio's request is acknowledged as queued for a slot."""
    return tx(0, pdus.write("C_ACKD", reason=REASONS["Queued_For_Resource"], target=radio, additional=group)) + DONE


def granted(radio: int, group: int, lpcn: int, slot: int) -> bytes:
    """The answer to a poll: a talkgroup call is granted."""
    return tx(0, pdus.write("TV_GRANT", lpcn=lpcn, slot=slot, target=group, source=radio)) + DONE


def cleared(slot: int, group: int) -> bytes:
    """A TX that clears a slot of a talkgroup call: the radios go back to channel 1, the control channel."""
    return tx(slot, pdus.write("P_CLEAR", lpcn=1, group=1, target=group, source=TSI))


# the fills of a quiet control slot
ALOHA = tx(0, pdus.write("C_ALOHA", register=1, backoff=1, system=SYSTEM))
MOVE = tx(0, pdus.write("C_MOVE", register=1, backoff=1, lpcn=7))
# four radios register, and three calls take all slots but the control slot
FOUR_REGISTER = [registered(1001), registered(1002), registered(1003), registered(1004)]
THREE_CALL = [granted(1001, 91, 1, 1), granted(1002, 92, 2, 0), granted(1003, 93, 2, 1)]

# for each example what goes out to carrier 0, to carrier 1, and to operators
EXPECTED = {
    # slot 1 of carrier 0 falls free after 100 ticks, and its P_CLEAR goes out with the fill; with the next tick it is 1004's
    "queued_call": (
        [WELCOME, *FOUR_REGISTER, *THREE_CALL, queued(1004, 94), ALOHA, cleared(1, 91), DONE, granted(1004, 94, 1, 1)],
        [WELCOME],
        [],
    ),
    # both calls on carrier 1 end with its connection, so 1002 gets the first of its slots again
    "lost_carrier": (
        [WELCOME, *FOUR_REGISTER[:3], *THREE_CALL, granted(1002, 92, 2, 0)],
        [WELCOME, WELCOME],
        [],
    ),
    "operator": (
        [WELCOME, *FOUR_REGISTER, *THREE_CALL, queued(1004, 94), ALOHA, cleared(1, 91), DONE, granted(1004, 94, 1, 1), MOVE, DONE, ALOHA, DONE],
        [WELCOME, cleared(0, 92), DONE],
        [
            "status carriers 2 radios 4 asks 0 lines 1 calls 3 fill aloha",
            "call 1 0 group 92 from 1002", "call 1 1 group 93 from 1003", "end",
            "line 1 group 94 from 1004", "end",
            "slot 0 0 control", "slot 0 1 call", "slot 1 0 call", "slot 1 1 call", "end",
            "ok",
            "slot 0 0 control", "slot 0 1 waiting", "slot 1 0 call", "slot 1 1 call", "end",
            "call 0 1 group 94 from 1004", "end",
            "ok",
            "radio 1001", "radio 1003", "radio 1004", "end",
            "ok",
            "status carriers 2 radios 3 asks 0 lines 0 calls 2 fill move 7",
            "ok",
            "error unknown command",
        ],
    ),
}


def printed(name: str) -> str:
    """The expected output of an example's replay."""
    first, second, told = EXPECTED[name]
    lines = [f"carrier {number} {b''.join(sent).hex().upper()}" for number, sent in enumerate((first, second))]
    return "".join(f"{line}\n" for line in lines + told)


class Examples(unittest.TestCase):
    """The scripts in examples/scripts, and what their replays print."""

    def test_each_has_its_output(self) -> None:
        scripts = sorted(path.stem for path in (EXAMPLES / "scripts").glob("*.txt"))
        self.assertEqual(scripts, sorted(EXPECTED))
        self.assertEqual(scripts, sorted(path.stem for path in (EXAMPLES / "expected").glob("*.txt")))
        for name in scripts:
            with self.subTest(name):
                self.assertEqual((EXAMPLES / "expected" / f"{name}.txt").read_text(encoding="utf-8"), printed(name))

    def test_each_replays(self) -> None:
        built = program("dmr_trunk")
        for name in EXPECTED:
            with self.subTest(name):
                words = [built, "--site", TWO_CARRIERS, "--script", os.fspath(EXAMPLES / "scripts" / f"{name}.txt")]
                self.assertEqual(subprocess.run(words, capture_output=True, text=True, check=True).stdout, printed(name))
