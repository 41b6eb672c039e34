"""Who a peer of a unix socket is, and what it may do."""
import dataclasses
import enum
import grp
import os
import pwd
import socket
import struct
from collections.abc import Callable, Sequence
from dataclasses import dataclass
from typing import TypeVar

from temzaar.hub.config import RoleKeys
from temzaar.hub.keys import ConfigFault
from temzaar.hub.worker import Late, Worker

# The option of a socket that reports the groups of its peer (Linux 4.13). Python has no name for it.
SO_PEERGROUPS = 59
# As many octets as Python's getsockopt takes: 256 groups.
GROUPS_OCTETS = 1024
# Seconds that the system may take for the name of a user.
NAME_SECONDS = 5.0
Found = TypeVar("Found")


class Role(enum.IntEnum):
    """What somebody may do. Each role may do what those below it may."""
    NONE = 0
    READ = 1
    FULL = 2


@dataclass(frozen=True)
class Peer:
    """Who has connected: a name for people, the user's and the process's number if the socket reports them, and the role."""
    user: str
    role: Role
    uid: int | None = None
    pid: int | None = None

    @property
    def key(self) -> str:
        """What limits for each user go by: not the name, which cannot always be found out."""
        return self.user if self.uid is None else f"uid {self.uid}"


@dataclass(frozen=True)
class Rules:
    """The users and groups of each role, by their numbers."""
    full_users: frozenset[int]
    full_groups: frozenset[int]
    read_users: frozenset[int]
    read_groups: frozenset[int]
    others: Role

    def role_of(self, uid: int, groups: Sequence[int]) -> Role:
        """The greatest role that a user has by itself or by one of the groups."""
        if uid in self.full_users or self.full_groups.intersection(groups):
            return Role.FULL
        if uid in self.read_users or self.read_groups.intersection(groups):
            return Role.READ
        return self.others


def find_numbers(key: str, names: Sequence[str | int], find: Callable[[str], int]) -> frozenset[int]:
    """The numbers of users or groups. ConfigFault: there is none of a name."""
    numbers = set()
    for name in names:
        try:
            numbers.add(name if isinstance(name, int) else find(name))
        except (KeyError, ValueError) as fault:
            # ValueError: a zero octet in the name
            raise ConfigFault(f"roles.{key}: there is no {key.rpartition('_')[2].removesuffix('s')} {name}") from fault
    return frozenset(numbers)


def find_rules(keys: RoleKeys) -> Rules:
    """The rules of the config. ConfigFault: a user or a group does not exist."""
    finders: dict[str, Callable[[str], int]] = {"users": lambda name: pwd.getpwnam(name).pw_uid, "groups": lambda name: grp.getgrnam(name).gr_gid}
    found = {key: find_numbers(key, getattr(keys, key), finders[key.partition("_")[2]]) for key in ("full_users", "full_groups", "read_users", "read_groups")}
    return Rules(**found, others=Role[keys.others.upper()])


def user_name(uid: int) -> str:
    """The name of a user, or its number."""
    try:
        return pwd.getpwuid(uid).pw_name
    except KeyError:
        return unnamed(uid)


def unnamed(uid: int) -> str:
    """What a user without a name is called."""
    return f"uid {uid}"


def groups_of_socket(stream: socket.socket) -> list[int] | None:
    """The groups of a socket's peer, as they were when it connected; None if the socket cannot report them."""
    try:
        octets = stream.getsockopt(socket.SOL_SOCKET, SO_PEERGROUPS, GROUPS_OCTETS)
        return list(struct.unpack(f"={len(octets) // 4}I", octets))
    except OSError:
        return None


def groups_of_user(uid: int, gid: int) -> list[int]:
    """The groups of a user, as the system has them now."""
    try:
        return os.getgrouplist(pwd.getpwuid(uid).pw_name, gid)
    except (KeyError, OSError):
        return []


class People:
    """Finds out who is at the other end of a unix socket. Names may be those of a directory service, which may hang: then numbers do."""

    def __init__(self, rules: Rules) -> None:
        self.rules, self.worker = rules, Worker("names", NAME_SECONDS)

    async def find_peer(self, stream: socket.socket) -> Peer:
        """The peer of a unix socket, with its role, and the number of its user in place of the name. OSError: the socket does not report it."""
        pid, uid, gid = struct.unpack("=iII", stream.getsockopt(socket.SOL_SOCKET, socket.SO_PEERCRED, 12))
        groups = groups_of_socket(stream)
        if groups is None:
            groups = await self._ask(lambda: groups_of_user(uid, gid), [])
        return Peer(unnamed(uid), self.rules.role_of(uid, [gid, *groups]), uid, pid)

    async def find_name(self, peer: Peer) -> Peer:
        """The same peer with the name of its user, if it can be found out."""
        uid = peer.uid
        return peer if uid is None else dataclasses.replace(peer, user=await self._ask(lambda: user_name(uid), peer.user))

    async def _ask(self, work: Callable[[], Found], otherwise: Found) -> Found:
        """What the system says of a user, or something else if it does not in time."""
        try:
            return await self.worker.do(work)
        except Late:
            return otherwise

    def close(self) -> None:
        """Ends the thread that asks for names."""
        self.worker.close()
