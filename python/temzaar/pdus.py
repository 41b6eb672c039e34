"""The PDUs (TS 102 361-4, clause 7.1): one table of layouts, from which PDUs are written and read.

Octets that agree with no layout are the PDU `OTHER`, carried as they are. So each list of ten octets is exactly one PDU.
"""
from collections.abc import Mapping
from dataclasses import dataclass
from functools import lru_cache
from typing import NamedTuple

OTHER = "OTHER"


class Field(NamedTuple):
    """A field of a layout: its name, its first bit (bit 0 is the highest of octet 0) and its width. A field without a name is fixed at 0."""
    name: str
    first: int
    width: int

    def read(self, number: int) -> int:
        """The field's value in ten octets, given as a number."""
        return number >> (80 - self.first - self.width) & ((1 << self.width) - 1)

    def place(self, value: int) -> int:
        """Ten octets, as a number, with nothing but this field. ValueError: the value needs more bits than the field has."""
        if not 0 <= value < 1 << self.width:
            raise ValueError(f"{self.name} = {value} does not fit into {self.width} bits")
        return value << (80 - self.first - self.width)


class Layout(NamedTuple):
    """The layout of a PDU: octet 0, and the fields after octet 1, which is the feature set and is 0."""
    octet: int
    fields: tuple[Field, ...]


def _layout(octet: int, text: str) -> Layout:
    """A layout from the text that `docs/FORMATS.md` has for it: `name first,width`, or `first,width = 0` for fixed bits."""
    fields = []
    for part in text.split(";"):
        *name, place = part.replace("= 0", "").split()
        first, _, width = place.partition(",")
        fields.append(Field(name[0] if name else "", int(first), int(width)))
    return Layout(octet, tuple(fields))


_ACKNOWLEDGEMENT = "info 16,7; reason 23,8; spare 31,1; target 32,24; additional 56,24"
LAYOUTS = {
    "C_ALOHA": _layout(0x99, "16,2 = 0; sync 18,1; version 19,3; offset 22,1; active 23,1; mask 24,5; function 29,2; nrand_wait 31,4; "
                             "register 35,1; backoff 36,4; system 40,16; address 56,24"),
    "C_AHOY": _layout(0x9C, "options 16,7; 23,2 = 0; group 25,1; 26,2 = 0; kind 28,4; called 32,24; calling 56,24"),
    "C_RAND": _layout(0x9F, "options 16,7; flags 23,5; kind 28,4; target 32,24; source 56,24"),
    "C_ACKD": _layout(0xA0, _ACKNOWLEDGEMENT),
    "C_ACKU": _layout(0xA1, _ACKNOWLEDGEMENT),
    "P_CLEAR": _layout(0xAE, "lpcn 16,12; 28,3 = 0; group 31,1; target 32,24; source 56,24"),
    "PV_GRANT": _layout(0xB0, "lpcn 16,12; slot 28,1; 29,3 = 0; target 32,24; source 56,24"),
    "TV_GRANT": _layout(0xB1, "lpcn 16,12; slot 28,1; late 29,1; 30,2 = 0; target 32,24; source 56,24"),
    "C_MOVE": _layout(0xB9, "16,19 = 0; register 35,1; backoff 36,4; 40,4 = 0; lpcn 44,12; 56,24 = 0"),
}
_NAMES = {layout.octet: name for name, layout in LAYOUTS.items()}

# The service kinds of a request.
INDIVIDUAL_VOICE, TALKGROUP_VOICE, REGISTRATION, CANCEL = 0, 1, 14, 15
KINDS = {INDIVIDUAL_VOICE: "individual_voice", TALKGROUP_VOICE: "talkgroup_voice", REGISTRATION: "registration", CANCEL: "cancel"}


class Reason(NamedTuple):
    """A reason of an acknowledgement: its name in the standard, and what the tools call it."""
    name: str
    words: str


REASONS = {
    0x20: Reason("Not_Supported", "not supported"),
    0x21: Reason("Perm_User_Refused", "perm user refused"),
    0x23: Reason("Transient_Sys_Refused", "transient sys refused"),
    0x24: Reason("NoReg_MS_Away", "away"),
    0x27: Reason("SysBusy_Refused", "sys busy"),
    0x29: Reason("Call_Cancel_Refused", "call cancel refused"),
    0x2A: Reason("Reg_Refused", "reg refused"),
    0x2B: Reason("Reg_Denied", "reg denied"),
    0x2D: Reason("MS_Not_Registered", "not registered"),
    0x2E: Reason("Called_Party_Busy", "called party busy"),
    0x2F: Reason("Group_Not_Allowed", "group not allowed"),
    0x44: Reason("MS_Accepted", "accepted"),
    0x60: Reason("Message_Accepted", "message accepted"),
    0x62: Reason("Reg_Accepted", "registered"),
    0xA0: Reason("Queued_For_Resource", "queued"),
    0xE0: Reason("Wait", "wait"),
}
MS_ACCEPTED, REG_ACCEPTED, REG_REFUSED = 0x44, 0x62, 0x2A


@dataclass(frozen=True)
class Pdu:
    """A PDU that was read: its name and the values of its fields; `OTHER` has none."""
    name: str
    values: Mapping[str, int]

    def __getitem__(self, field: str) -> int:
        return self.values[field]

    def in_words(self, octets: bytes) -> str:
        """The PDU as `dmr_decode` prints it; `octets` are those it was read from."""
        if self.name == OTHER:
            return f"{OTHER} {octets.hex().upper()}"
        return " ".join([self.name, *(f"{field}={value_in_words(field, value)}" for field, value in self.values.items())])


def value_in_words(field: str, value: int) -> str:
    """The value of a field: the name of a kind or of a reason that has one, else the number."""
    if field == "kind":
        return KINDS.get(value, str(value))
    if field == "reason" and value in REASONS:
        return REASONS[value].name
    return str(value)


def reason_in_words(reason: int) -> str:
    """The tools' text for a reason: its words, or its octet in hexadecimal if it has no name."""
    return REASONS[reason].words if reason in REASONS else hex(reason)


def write(name: str, **values: int) -> bytes:
    """The ten octets of a PDU; a field that is not given is 0. ValueError: the PDU has no such field, or the value does not fit."""
    layout = LAYOUTS[name]
    number = layout.octet << 72
    for field in layout.fields:
        number |= field.place(values.pop(field.name, 0) if field.name else 0)
    if values:
        raise ValueError(f"{name} has no field {', '.join(values)}")
    return number.to_bytes(10, "big")


@lru_cache(maxsize=1 << 16)
def read(octets: bytes) -> Pdu:
    """The PDU of ten octets."""
    name, number = _NAMES.get(octets[0]), int.from_bytes(octets, "big")
    if name:
        values = {field.name: field.read(number) for field in LAYOUTS[name].fields if field.name}
        if write(name, **values) == octets and values.get("lpcn", 1) not in (0, 4095):
            return Pdu(name, values)
    return Pdu(OTHER, {})


class Parties(NamedTuple):
    """The parties of a call: whether a talkgroup is called, who is called, and the caller."""
    is_group: bool
    target: int
    source: int

    def __str__(self) -> str:
        return f"{'group' if self.is_group else 'radio'} {self.target} from {self.source}"


def is_grant(pdu: Pdu) -> bool:
    """Whether it grants a slot to a call."""
    return pdu.name in ("PV_GRANT", "TV_GRANT")


def is_late(pdu: Pdu) -> bool:
    """Whether it is a grant of a call that is active already."""
    return pdu.name == "TV_GRANT" and bool(pdu["late"])


def granted_parties(pdu: Pdu) -> Parties:
    """The parties of a grant."""
    return Parties(pdu.name == "TV_GRANT", pdu["target"], pdu["source"])


def random_access(kind: int, target: int, source: int, options: int = 0) -> bytes:
    """A C_RAND: the request of the radio `source`."""
    return write("C_RAND", options=options, kind=kind, target=target, source=source)
