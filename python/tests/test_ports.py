"""Ports that are free: no two who ask get the same, and none that is in use is handed out."""
import os
import socket
import subprocess
import sys
import unittest

from temzaar.faults import ToolFault
from temzaar.ports import PORTS, REGION, Claims, free_ports, hold_ports, is_free
from temzaar.sitefile import FREE_PORTS, Site
from tests.support import SITES, TOP


def is_claimed(port: int) -> bool:
    """Whether a process has claimed the region of a port."""
    with socket.socket(socket.AF_UNIX, socket.SOCK_DGRAM) as probe:
        try:
            probe.bind(f"\0temzaar-ports-{port - (port - PORTS.start) % REGION}")
        except OSError:
            return True
    return False


class Ports(unittest.TestCase):
    """The ports that are handed out."""

    def claims(self) -> Claims:
        """Claims that end with the test."""
        claims = Claims()
        self.addCleanup(lambda: [it.close() for it in claims.claims])
        return claims

    def test_each_is_handed_out_once(self) -> None:
        """Two who ask in turn, each for more than a region has."""
        both = self.claims(), self.claims()
        firsts = [it.take(48) for _ in range(5) for it in both]
        ports = [port for first in firsts for port in range(first, first + 48)]
        self.assertEqual(len(set(ports)), len(ports))
        self.assertTrue(all(map(is_free, ports)) and set(ports) <= set(PORTS))

    def test_ports_that_are_held(self) -> None:
        """One process at a time holds them; the next one gets them when the first lets go."""
        port = PORTS.start - 1
        with hold_ports(port):
            with self.assertRaises(ToolFault), hold_ports(port, 0.0):
                pass
        with hold_ports(port):
            pass

    def test_none_in_use(self) -> None:
        claims = self.claims()
        first = claims.take(1)
        with socket.create_server(("127.0.0.1", first + 2)):
            self.assertEqual(claims.take(2), first + 3)

    def test_another_process(self) -> None:
        """A script's claim lasts until the script ends its input."""
        own, environment = free_ports(1), {**os.environ, "PYTHONPATH": str(TOP / "python")}
        words = [sys.executable, "-m", "temzaar.ports", "3"]
        with subprocess.Popen(words, stdin=subprocess.PIPE, stdout=subprocess.PIPE, text=True,
                              env=environment) as other:
            assert other.stdin and other.stdout
            port = int(other.stdout.readline())
            self.assertTrue(is_claimed(own) and is_claimed(port))
            self.assertNotEqual((own - PORTS.start) // REGION, (port - PORTS.start) // REGION)
            other.stdin.close()
            self.assertEqual(other.wait(10), 0)

    def test_a_site(self) -> None:
        """The console and sixteen carriers each have a port of their own."""
        path = str(SITES / "sixteen_carriers.toml")
        sites = [Site(path, first_port=FREE_PORTS) for _ in range(2)]
        ports = {site.console_port for site in sites} | {row["port"] for site in sites for row in site.rows}
        self.assertEqual((len(ports), {site.address for site in sites}), (34, {"127.0.0.1"}))
