"""Sites that benches and trials serve on loopback, and servers that are started to be measured."""
import contextlib
import os
import pathlib
import subprocess
import sys
from collections.abc import Iterator, Sequence
from typing import Any

TOP = pathlib.Path(__file__).resolve().parent.parent
sys.path.insert(0, str(TOP / "python"))
from temzaar.ports import free_ports  # noqa: E402  (the path comes first)
from temzaar.process import UNIT_VARIABLES, ends_with_parent  # noqa: E402
from temzaar.sitefile import Site  # noqa: E402

# The site of sites/sixteen_carriers.toml. bench/site_server.c and bench/load_generator.c compute
# the numbers of its carriers' channels from the first one and the step.
CARRIERS, FIRST_LPCN, LPCN_STEP, CONTROL = 16, 101, 2, 3
# The site in C has neither the fields of C_ALOHA nor the file's radios and groups.
AS_IN_C = {"aloha_sync": 0, "aloha_version": 0, "aloha_offset": 0, "aloha_active": 0,
           "nrand_wait": 0, "radios": [[1, 5000]], "groups": [*range(1, 17)]}
# How often a carrier polls, in microseconds.
PERIOD = 60_000
# One poll in four of the control carrier has a registration before it, if a load has registrations.
REGISTRATIONS = 4
# Seconds within which a server ends after SIGTERM.
LONGEST_END = 60


def site_of(**keys: Any) -> Site:
    """A site of sixteen carriers on loopback, with these keys of its file. Its ports are free, the
    console's first, then those of the carriers in the order of their numbers."""
    site = Site(str(TOP / "sites" / "sixteen_carriers.toml"), **keys)
    site.shift_ports(free_ports(CARRIERS + 1) - site.console_port)
    return site


def controller_words(program: str, site: Site, folder: str) -> list[str]:
    """The words that serve a site with our controller; its file is written into a folder."""
    path = pathlib.Path(folder) / f"site-{site.console_port}.toml"
    path.write_text(site.text(), encoding="ascii")
    return [program, "--site", str(path), "--serve"]


def site_server_words(program: str, site: Site) -> list[str]:
    """The words that serve a site with the site in C."""
    options = ("-p", site.console_port + 1, "-n", CARRIERS, "-c", CONTROL, "-l", FIRST_LPCN,
               "-L", LPCN_STEP, "-t", site.plan["tick_ms"])
    return [program, *map(str, options)]


def floor_words(program: str, site: Site) -> list[str]:
    """The words that answer each poll of a site with constant octets, in C."""
    return [program, "-p", str(site.console_port + 1), "-n", str(CARRIERS), "-c", str(CONTROL)]


def start_carriers(generator: str, site: Site, seconds: int,
                   *options: object) -> subprocess.Popen[str]:
    """Starts a load generator that plays the carriers of a site, with further options of its."""
    words = ("-p", site.console_port + 1, "-n", CARRIERS, "-l", FIRST_LPCN, "-L", LPCN_STEP,
             "-v", site.link_version, "-c", CONTROL, "-u", PERIOD, "-s", seconds, *options)
    return subprocess.Popen([generator, *map(str, words)], stdin=subprocess.DEVNULL,
                            stdout=subprocess.PIPE, stderr=subprocess.STDOUT, text=True)


@contextlib.contextmanager
def running(words: Sequence[str], **options: Any) -> Iterator[subprocess.Popen[bytes]]:
    """A server, with the environment that the controller's unit has. It gets SIGTERM after use, or
    when this process ends. `options` go to `subprocess.Popen`."""
    quiet = dict.fromkeys(("stdin", "stdout", "stderr"), subprocess.DEVNULL)
    process = subprocess.Popen(words, env={**os.environ, **UNIT_VARIABLES}, process_group=0,
                               preexec_fn=ends_with_parent(), **{**quiet, **options})
    try:
        yield process
    finally:
        process.terminate()
        try:
            process.wait(LONGEST_END)
        except subprocess.TimeoutExpired:
            process.kill()
            process.wait()
