"""The hub's config file: its sections, with each key's range, default and meaning."""
import dataclasses
import pathlib
import tomllib
from typing import Any

from temzaar.faults import ToolFault, read_text
from temzaar.hub.keys import ConfigFault, carrier_choice, choice, file_path, key, name_list, number, read_section, short_text, whole_number

DEFAULT_PATH = "/etc/dmr_trunk/hub.toml"
# The most octets of a config file.
MOST_OCTETS = 1 << 20


@dataclasses.dataclass(frozen=True)
class ControllerKeys:
    """The controller whose console the hub holds."""
    site_file: str = key(file_path(), "/etc/dmr_trunk/site.toml", "the site file, which names the console's address, port and silence")
    name: str = key(short_text(64), "", "the site's name on the page, in the JSON and in metrics; if it is empty, the name of the site file without `.toml`")
    answer_seconds: float = key(number(0.05, 60), 1.0, "how long the controller has for an answer; then the hub closes the connection and opens another")
    reconnect_seconds: float = key(number(0.1, 300), 5.0, "about the longest pause between two attempts to connect")

    @property
    def site_name(self) -> str:
        """The site's name, as metrics have it."""
        return self.name or pathlib.PurePath(self.site_file).stem


@dataclasses.dataclass(frozen=True)
class PollKeys:
    """How often the hub asks for itself."""
    state_seconds: float = key(number(0.05, 3600), 1.0, "from one picture of carriers, slots, calls and queue to the next")
    radios_seconds: float = key(number(0.05, 86400), 10.0, "from one list of the registered radios to the next")
    questions_per_second: float = key(number(1, 1000), 50.0, "how many questions of the hub's own it asks in a second at most")


@dataclasses.dataclass(frozen=True)
class RecordsKeys:
    """The controller's file of records."""
    file: str = key(file_path(or_none=True), "", "the file; if it is empty, none is read")
    read_seconds: float = key(number(0.05, 3600), 5.0, "from one look at the file to the next")


@dataclasses.dataclass(frozen=True)
class NamesKeys:
    """The file of names."""
    file: str = key(file_path(or_none=True), "", "the file; if it is empty, there are no names")
    read_seconds: float = key(number(0.05, 3600), 5.0, "from one look at the file to the next")


@dataclasses.dataclass(frozen=True)
class LinePortKeys:
    """The port for operators."""
    socket: str = key(file_path(), "/run/dmr_hub/console.sock", "the unix socket")
    tcp_port: int = key(whole_number(0, 65535), 0, "a TCP port on 127.0.0.1 that serves everybody on the machine with the role `read`; 0: none")
    connections: int = key(whole_number(1, 512), 64, "how many connections are served at once")
    connections_per_user: int = key(whole_number(1, 512), 16, "how many of them one user may have")
    idle_seconds: float = key(number(1, 86400), 900.0, "how long a connection may send no line; then the hub closes it")
    write_seconds: float = key(number(0.05, 600), 5.0, "how long a peer may leave a full output queue unread; then the hub cuts it off")
    output_octets: int = key(whole_number(1024, 1048576), 65536, "how many octets of replies wait for a peer before the hub reads no more from it")


@dataclasses.dataclass(frozen=True)
class RoleKeys:
    """Who may do what. A user who fits several has the greatest role."""
    full_users: tuple[str | int, ...] = key(name_list(numbers=True), (), "users who may also change the site")
    full_groups: tuple[str | int, ...] = key(name_list(numbers=True), (), "groups whose members may also change the site")
    read_users: tuple[str | int, ...] = key(name_list(numbers=True), (), "users who may ask")
    read_groups: tuple[str | int, ...] = key(name_list(numbers=True), (), "groups whose members may ask")
    others: str = key(choice("none", "read"), "none", "the role of everybody else")


@dataclasses.dataclass(frozen=True)
class AuditKeys:
    """The audit log."""
    file: str = key(file_path(), "/var/log/dmr_hub/audit.jsonl", "the file")
    max_octets: int = key(whole_number(0, 1 << 40), 0, "the hub begins a new file before this one is larger; 0: `logrotate` does that")
    keep: int = key(whole_number(1, 1000), 10, "how many older files are kept, if `max_octets` is not 0")


@dataclasses.dataclass(frozen=True)
class HttpKeys:
    """The port for machines."""
    port: int = key(whole_number(0, 65535), 0, "the TCP port on 127.0.0.1; 0: none")
    connections: int = key(whole_number(1, 512), 32, "how many connections are served at once; others are answered 503")
    request_seconds: float = key(number(0.05, 60), 5.0, "how long a request may take to come, and a response to be read")
    header_octets: int = key(whole_number(256, 65536), 8192, "how many octets a request may have")
    hosts: tuple[str | int, ...] = key(name_list(), ("localhost", "127.0.0.1"), "the names that a request may give as its host")


@dataclasses.dataclass(frozen=True)
class HealthKeys:
    """When `/healthz` answers 503."""
    controller_seconds: float = key(number(0, 86400), 5.0, "the controller has been away for longer")
    carriers: str | tuple[int, ...] = key(carrier_choice(), "all", "the carriers that have to be up")
    carrier_seconds: float = key(number(0, 86400), 10.0, "one of these carriers has been down for longer")
    records: str = key(choice("no", "yes"), "no", "whether it is a fault that no records come, or that the hub cannot read them")


@dataclasses.dataclass(frozen=True)
class Config:
    """All sections."""
    controller: ControllerKeys = ControllerKeys()
    poll: PollKeys = PollKeys()
    records: RecordsKeys = RecordsKeys()
    names: NamesKeys = NamesKeys()
    line_port: LinePortKeys = LinePortKeys()
    roles: RoleKeys = RoleKeys()
    audit: AuditKeys = AuditKeys()
    http: HttpKeys = HttpKeys()
    health: HealthKeys = HealthKeys()


def read_config(text: str) -> Config:
    """The config of a file's text. ConfigFault: it is not TOML, or names what does not exist or is not allowed."""
    try:
        tables: dict[str, Any] = tomllib.loads(text)
    except (ValueError, RecursionError) as fault:
        raise ConfigFault(f"not TOML: {fault}") from fault
    sections = {field.name: type(field.default) for field in dataclasses.fields(Config)}
    for name in tables:
        if name not in sections:
            raise ConfigFault(f"{name}: unknown section")
    return Config(**{name: read_section(sections[name], name, table) for name, table in tables.items()})


def load_config(path: str) -> Config:
    """The config of a file. ConfigFault: it cannot be read, or used."""
    try:
        text = read_text(path, MOST_OCTETS)
    except ToolFault as fault:
        raise ConfigFault(f"cannot read {fault}") from fault
    return read_config(text)
