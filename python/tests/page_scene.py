"""A served site with a hub before it, and carriers and radios that do what a test says: the scene of the page's tests and pictures."""
import contextlib
import os
import pathlib
import queue
import shutil
import subprocess
import tempfile
import threading
import time
import urllib.request

from temzaar import code, pdus
from temzaar.frames import POLL, active
from temzaar.ports import free_ports
from temzaar.process import Controller, ends_with_parent
from temzaar.sitefile import Site
from tests.support import tool_words
from tests.served_kit import Carrier

# Seconds between two polls of a carrier, as on the air.
PERIOD = 0.060


def start_hub(folder: pathlib.Path, site: str, state_seconds: float, names: str) -> tuple[subprocess.Popen[bytes], str]:
    """A hub of the site `Depot North` with a page, once it serves that, and the page's address. `site` is the text of the site file, and `names` that of the file
    of names, if the hub is to have one. It reads the records `site.db` of the folder, and its user has the role full. AssertionError: it does not serve."""
    port = free_ports(1)
    base = f"http://127.0.0.1:{port}/"
    plan, named, config = (folder / name for name in ("north.toml", "names.csv", "hub.toml"))
    plan.write_text(site, encoding="utf-8")
    if names:
        named.write_text(names, encoding="utf-8")
    config.write_text(f'[controller]\nsite_file = "{plan}"\nname = "Depot North"\nanswer_seconds = 20\nreconnect_seconds = 0.5\n[poll]\nstate_seconds = {state_seconds}\nradios_seconds = 1\n'
                      f'[http]\nport = {port}\n[line_port]\nsocket = "{folder}/console.sock"\n[roles]\nfull_users = [{os.getuid()}]\n[audit]\nfile = "{folder}/audit.jsonl"\n'
                      f'[records]\nfile = "{folder}/site.db"\nread_seconds = 0.2\n[names]\nfile = "{named if names else ""}"\nread_seconds = 0.2\n', encoding="utf-8")
    hub = subprocess.Popen(tool_words("hub", "--config", str(config)), stderr=subprocess.DEVNULL, preexec_fn=ends_with_parent())
    until = time.monotonic() + 60
    while True:
        try:
            with urllib.request.urlopen(base, timeout=5):
                return hub, base
        except OSError:
            assert hub.poll() is None and time.monotonic() < until, "the hub does not serve"
            time.sleep(0.1)


class Player(threading.Thread):
    """Carriers that poll each 60 ms. `send` has bursts for the control slot, one a poll; `talking` the carriers and slots on which somebody talks."""

    def __init__(self, site: Site) -> None:
        super().__init__(daemon=True)
        self.site, self.carriers = site, {}  # type: Site, dict[int, Carrier]
        self.bursts: queue.SimpleQueue[bytes] = queue.SimpleQueue()
        self.talking: set[tuple[int, int]] = set()
        self.guard, self.is_stopped = threading.Lock(), False

    def join_carrier(self, number: int) -> None:
        """A carrier connects."""
        with self.guard:
            self.carriers[number] = Carrier(self.site.row(number), self.site.link_version)

    def register(self, radio: int) -> None:
        """A radio registers."""
        self.bursts.put(pdus.random_access(pdus.REGISTRATION, self.site.plan["regi"], radio, self.site.register_options()))

    def call_group(self, group: int, radio: int) -> None:
        """A radio calls a talkgroup."""
        self.bursts.put(pdus.random_access(pdus.TALKGROUP_VOICE, group, radio))

    def run(self) -> None:
        # the controller may end before it
        with contextlib.suppress(OSError):
            while not self.is_stopped:
                with self.guard:
                    self._poll()
                time.sleep(PERIOD)

    def _poll(self) -> None:
        """Polls each carrier once."""
        for number, carrier in self.carriers.items():
            octets = b"".join(active(slot) for at, slot in sorted(self.talking) if at == number)
            if number == self.site.control and not self.bursts.empty():
                octets += carrier.link.rx(0, code.burst_of(self.bursts.get()))
            carrier.ask(octets + POLL)

    def stop(self) -> None:
        """Ends it, and the connections."""
        self.is_stopped = True
        self.join(10)
        for carrier in self.carriers.values():
            carrier.stream.close()


class Scene:
    """The controller, which keeps records, the hub with an HTTP port, and the player. `base` is the address of the page; `names` is the text of the file of
    names, if the hub is to have one."""

    def __init__(self, program: str, site: Site, state_seconds: float = 0.25, names: str = "") -> None:
        self.folder = pathlib.Path(tempfile.mkdtemp())
        self.controller = Controller(program, site, variables={"STATE_DIRECTORY": str(self.folder)})
        self.controller.wait_until_served()
        self.hub, self.base = start_hub(self.folder, site.text(), state_seconds, names)
        self.player = Player(site)
        self.player.start()

    def write_names(self, text: str) -> None:
        """Writes the file of names again."""
        new = self.folder / "names.new"
        new.write_text(text, encoding="utf-8")
        new.replace(self.folder / "names.csv")

    def stop_hub(self) -> None:
        """Ends the hub."""
        self.hub.terminate()
        self.hub.wait(20)

    def close(self) -> None:
        """Ends all of it."""
        self.player.stop()
        self.stop_hub()
        self.controller.stop()
        shutil.rmtree(self.folder, ignore_errors=True)
