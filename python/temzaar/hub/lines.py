"""The lines of operators: cut from octets, and told apart by what they do."""
import enum
import re
from dataclasses import dataclass

from temzaar.console import CHANGES, LISTS, LONGEST_LINE, QUESTIONS, Command

# The hub answers these itself, with lists.
ACKNOWLEDGE = "acknowledge"
OWN_COMMANDS = (
    Command("help", "this list"),
    Command("history N", "the last N commands that change the site, 16 without N"),
    Command("names K N ..", "the names of numbers N; K is radio, talkgroup or carrier"),
    Command("events N", "the last N events of the site, 16 without N"),
    Command("acknowledge N ..", "acknowledges events N; `acknowledge all`: each that waits", changes=True),
    Command("who", "the controller, the site's name, and who is connected to the hub"),
)
OWN = tuple(it.name for it in OWN_COMMANDS)
# In the place of numbers: each event that waits for an acknowledgement.
ALL = "all"
# What the hub answers while the controller does not, and to a line that has no answer or was not sent; the reason follows.
AWAY, NO_ANSWER, BUSY = "the controller is away", "no answer", "the hub is busy"
# How the row of `who` begins that has the site's name.
WHO_SITE = "who site "
# How each row of `names` begins.
NAME = "name "
# How each row of `events` begins, and the words of a row for an event that nobody has to acknowledge, or that somebody has to.
EVENT = "event "
PLAIN, WAITS = "-", "waits"
# The commands of a line port whose replies are lists.
HUB_LISTS = (*LISTS, *OWN)


class LineKind(enum.Enum):
    """What a line does."""
    QUESTION = "question"
    CHANGE = "change"
    OWN = "own"
    UNKNOWN = "unknown"


@dataclass(frozen=True)
class Line:
    """A line without its LF: its octets as they came, and its words."""
    octets: bytes
    words: tuple[bytes, ...]

    @classmethod
    def read(cls, octets: bytes) -> "Line":
        """The line of some octets. Words are separated by spaces alone, and one CR at the end is dropped, as the controller does it."""
        return cls(octets, tuple(word for word in octets.removesuffix(b"\r").split(b" ") if word))

    @property
    def name(self) -> str:
        """The first word; empty if there is none."""
        return self.words[0].decode("latin-1") if self.words else ""

    @property
    def kind(self) -> LineKind:
        """What the line does. Only a line whose first word is a command of the controller is ever passed on."""
        for names, kind in ((QUESTIONS, LineKind.QUESTION), (CHANGES, LineKind.CHANGE), (OWN, LineKind.OWN)):
            if self.name in names:
                return kind
        return LineKind.UNKNOWN

    @property
    def text(self) -> str:
        """The line for people and logs: octets that are not printable ASCII are escaped."""
        return escape_octets(self.octets)


def escape_octets(octets: bytes) -> str:
    """Octets as text; those that are not printable ASCII are escaped."""
    return "".join(chr(it) if 32 <= it < 127 and it != 92 else f"\\x{it:02x}" for it in octets)


def unescape_octets(text: str) -> bytes:
    """The octets of a text of `escape_octets`."""
    return re.sub(rb"\\x([0-9a-f]{2})", lambda found: bytes.fromhex(found[1].decode()), text.encode("ascii", "replace"))


class LineCutter:
    """Cuts lines from octets. It keeps no more than a line may have."""

    def __init__(self) -> None:
        # the line that has begun; empty once it is too long
        self.begun, self.is_too_long = b"", False

    def feed(self, octets: bytes) -> list[bytes | None]:
        """The lines that end in these octets, each without its LF; None for one that is too long."""
        *ends, begun = (self.begun + octets).split(b"\n")
        lines = [None if len(it) > LONGEST_LINE else it for it in ends]
        if self.is_too_long and lines:
            lines[0] = None
        self.is_too_long = len(begun) > LONGEST_LINE or (self.is_too_long and not lines)
        self.begun = b"" if self.is_too_long else begun
        return lines
