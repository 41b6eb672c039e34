"""Ports of the loopback address that are free, for sites that tools, tests and trials serve.

A process claims a region of ports and hands out each port of it once. No other process gets a port
of that region here before the first one ends. So two runs on a machine do not take each other's
ports between the look for free ones and their use.

    python3 -m temzaar.ports 3      for a script: prints the first of three ports, and keeps the
                                    claim until its input ends
"""
import contextlib
import random
import socket
import sys
import time
from collections.abc import Iterator

from temzaar.faults import ToolFault

# Above the ports of the examples, and below those that Linux chooses for outgoing connections
# (net.ipv4.ip_local_port_range).
PORTS = range(20000, 32000)
# How many ports a process claims at a time.
REGION = 200


def is_free(port: int) -> bool:
    """Whether a listener could have this port of the loopback address now."""
    with socket.socket() as probe:
        try:
            probe.bind(("127.0.0.1", port))
        except OSError:
            return False
    return True


class Claims:
    """The regions that this process has claimed, and the ports that are left of the last one."""

    def __init__(self) -> None:
        self.claims: list[socket.socket] = []
        self.left = range(0)

    def claim(self) -> None:
        """Claims a region. ToolFault: others have claimed all."""
        for first in random.sample(PORTS[::REGION], len(PORTS) // REGION):
            claim = socket.socket(socket.AF_UNIX, socket.SOCK_DGRAM)
            try:
                # a name without a file: the system drops it when the process ends, in whatever way
                claim.bind(f"\0temzaar-ports-{first}")
            except OSError:
                claim.close()
                continue
            self.claims.append(claim)
            self.left = range(first, first + REGION)
            return
        raise ToolFault(f"no ports are left from {PORTS.start} to {PORTS.stop - 1}: "
                        "other tools or tests have claimed them")

    def take(self, count: int) -> int:
        """The first of `count` free ports that follow each other, at most REGION. ToolFault:
        others have claimed all."""
        while True:
            if len(self.left) < count:
                self.claim()
            block, self.left = self.left[:count], self.left[count:]
            if all(map(is_free, block)):
                return block.start


CLAIMS = Claims()


def free_ports(count: int) -> int:
    """The first of `count` ports of the loopback address that follow each other and are free, at
    most REGION. ToolFault: others have claimed all."""
    return CLAIMS.take(count)


@contextlib.contextmanager
def hold_ports(first: int, seconds: float = 600.0) -> Iterator[None]:
    """Holds ports that cannot be chosen, such as those that documents show, by the first of them.
    While another process holds them, it waits; ToolFault: longer than `seconds`."""
    until = time.monotonic() + seconds
    with socket.socket(socket.AF_UNIX, socket.SOCK_DGRAM) as claim:
        while True:
            try:
                claim.bind(f"\0temzaar-ports-{first}")
                break
            except OSError:
                if time.monotonic() > until:
                    raise ToolFault(f"another process holds port {first}") from None
                time.sleep(0.2)
        yield


if __name__ == "__main__":
    print(free_ports(int(sys.argv[1])), flush=True)
    sys.stdin.read()
