"""The keys of the site file: the tables of docs/SITE_FILE.md, in the order in which the controller judges the keys."""
import enum
from dataclasses import dataclass

# What `silence` counts.
WAIT_MS = 100


class Content(enum.Enum):
    """What the value of a key is: one whole number, an array of them, an array of pairs of them, or an array of tables."""
    NUMBER = enum.auto()
    NUMBERS = enum.auto()
    PAIRS = enum.auto()
    TABLES = enum.auto()


class Unit(enum.Enum):
    """What a number counts, if that has a name."""
    NONE = ""
    TICKS = "ticks"
    MILLISECONDS = "ms"
    WAITS = f"waits of {WAIT_MS} ms"
    ENTRIES = "entries"


@dataclass(frozen=True)
class SiteKey:
    """A key: its name, what it is, the range of its numbers, and how many items its array may have.

    A key that is not `required` has a `default`, or nothing.
    """
    name: str
    what: str
    least: int
    most: int
    required: bool = True
    default: int | tuple[int, ...] | None = None
    unit: Unit = Unit.NONE
    content: Content = Content.NUMBER
    fewest: int = 1
    many: int = 1

    @property
    def range(self) -> str:
        """The range of its numbers, in words."""
        ends = f"{self.least} to {self.most}"
        return f"{ends} {self.unit.value}" if self.unit in (Unit.TICKS, Unit.MILLISECONDS) else ends


SERVICES = (16776416, 16777215)
SENT = "sent in C_ALOHA"
KEYS = (
    SiteKey("system", "the system identity code, sent in C_ALOHA", 0, 65535),
    SiteKey("regi", "the address that radios register at", *SERVICES),
    SiteKey("tsi", "the address that the site calls itself by, the source of a P_CLEAR", *SERVICES),
    SiteKey("leave_bit", "the service option bit, 0 the last of seven, that is 0 in a registration request that leaves", 0, 6, required=False),
    SiteKey("aloha_sync", SENT, 0, 1, False, 0),
    SiteKey("aloha_version", SENT, 0, 7, False, 0),
    SiteKey("aloha_offset", SENT, 0, 1, False, 0),
    SiteKey("aloha_active", SENT, 0, 1, False, 0),
    SiteKey("nrand_wait", SENT, 0, 15, False, 0),
    SiteKey("hang", "how long a call lasts without voice", 1, 65535, unit=Unit.TICKS),
    SiteKey("maximum", "how long a call lasts at most", 1, 65535, unit=Unit.TICKS),
    SiteKey("ahoy_wait", "how long a called radio has to answer, from when its C_AHOY is queued", 1, 65535, unit=Unit.TICKS),
    SiteKey("ahoy_tries", "how often it is called", 1, 8),
    SiteKey("grant_copies", "how often a grant is sent", 1, 4),
    SiteKey("clear_copies", "how often a P_CLEAR is sent", 1, 4),
    SiteKey("backoff_low", "the random access backoff of a quiet channel", 1, 15),
    SiteKey("backoff_high", "the backoff of a busy one", 1, 15),
    SiteKey("tick_ms", "how long a tick lasts", 10, 1000, unit=Unit.MILLISECONDS),
    SiteKey("silence", "after how many waits of 100 ms without an octet a connection is closed, a carrier's and the console's", 1, 65535, unit=Unit.WAITS),
    SiteKey("term_entries", "after how many entries the journal is audited, and a new one begins", 1, 100000, False, 10000, Unit.ENTRIES),
    SiteKey("link_version", "the greatest version of the link format that carriers are served", 1, 2, False, 1),
    SiteKey("address", "the IPv4 address that the ports are opened on", 0, 255, False, (127, 0, 0, 1), content=Content.NUMBERS, fewest=4, many=4),
    SiteKey("console_port", "the console's TCP port", 1, 65535),
    SiteKey("radios", "the radios that may register; ranges may overlap", 1, 16776415, content=Content.PAIRS, fewest=1, many=16),
    SiteKey("groups", "the talkgroups", 1, 16776415, content=Content.NUMBERS, fewest=0, many=64),
    SiteKey("carrier", "the carriers", 0, 0, content=Content.TABLES, fewest=1, many=16),
    SiteKey("control", "the carrier whose slot 0 is the control channel", 0, 15),
)
ROW_KEYS = (
    SiteKey("number", "the carrier's number, which its HELLO and the output name", 0, 15),
    SiteKey("lpcn", "its logical physical channel number", 1, 4094),
    SiteKey("port", "the TCP port that it connects to", 1, 65535),
)
SITE_KEYS = {key.name: key for key in KEYS}
CARRIER_KEYS = {key.name: key for key in ROW_KEYS}
