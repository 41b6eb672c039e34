"""The command dmr_hub as a process: words, config faults, signals; and over a controller that is served."""
import os
import pathlib
import signal
import socket
import subprocess
import tempfile
import time
import unittest

from temzaar.cli.hub import config_of, main, read_words
from temzaar.hub.config import NamesKeys, RecordsKeys
from temzaar.process import Controller
from temzaar.sitefile import FREE_PORTS, Site
from tests.fake_console import FakeConsole
from tests.support import TWO_CARRIERS, call_tool, program, tool_words


class HubProcess(unittest.TestCase):
    """A folder with a config file, and a hub."""

    def setUp(self) -> None:
        self.folder = self.enterContext(tempfile.TemporaryDirectory())
        self.config, self.socket = os.path.join(self.folder, "hub.toml"), os.path.join(self.folder, "console.sock")

    def write(self, more: str = "", site: str = "") -> None:
        """Writes the config file, and the site file."""
        path = pathlib.Path(self.folder, "site.toml")
        path.write_text(site, encoding="utf-8")
        pathlib.Path(self.config).write_text(f'[controller]\nsite_file = "{path}"\n[line_port]\nsocket = "{self.socket}"\n[audit]\nfile = "{self.folder}/audit.jsonl"\n'
                                             f"[roles]\nfull_users = [{os.getuid()}]\n{more}", encoding="utf-8")

    def start(self) -> subprocess.Popen[str]:
        """A hub that listens."""
        hub = subprocess.Popen(tool_words("hub", "--config", self.config), stderr=subprocess.PIPE, text=True)
        self.addCleanup(hub.wait)
        self.addCleanup(hub.kill)
        assert hub.stderr
        self.addCleanup(hub.stderr.close)
        self.notes = [hub.stderr.readline()]
        while self.notes[-1] and "listening" not in self.notes[-1]:
            self.notes.append(hub.stderr.readline())
        return hub

    def ask(self, line: bytes, until: bytes = b"", seconds: float = 20) -> bytes:
        """The answer to a line; asked again until it begins as expected."""
        ends = time.monotonic() + seconds
        while True:
            with socket.socket(socket.AF_UNIX) as stream:
                stream.settimeout(20)
                stream.connect(self.socket)
                stream.sendall(line + b"\n")
                stream.shutdown(socket.SHUT_WR)
                answer = b""
                while piece := stream.recv(4096):
                    answer += piece
            if answer.startswith(until) or time.monotonic() > ends:
                return answer
            time.sleep(0.05)


class Command(HubProcess):
    """Words, faults and signals."""

    def test_check(self) -> None:
        none = f"{self.folder}/none"
        for text, words, status, said in (("", ("--check", "--config", self.config), 0, ""), ("[http]\nprot = 1\n", ("--check", "--config", self.config), 1, "http.prot: unknown key"),
                                          ('[records]\nfile = "a.db"\n', ("--check", "--config", self.config), 1, "records.file: not an absolute path, or empty"),
                                          ("", ("--config", none), 1, f"cannot read {none}: No such file or directory")):
            self.write(text)
            done = call_tool(main, *words)
            self.assertEqual((done.returncode, done.stdout, done.stderr), (status, "", f"dmr_hub: config file: {said}\n" if said else ""))
        self.assertEqual(call_tool(main, "--no-such-word").returncode, 2)

    def test_it_serves_until_a_signal(self) -> None:
        fake = FakeConsole()
        self.addCleanup(fake.stop)
        self.write(site=f"console_port = {fake.port}\nsilence = 600\n")
        for number in (signal.SIGTERM, signal.SIGINT):
            hub = self.start()
            self.assertEqual(self.ask(b"stay", b"ok"), b"ok\n")
            hub.send_signal(signal.SIGHUP)
            self.assertEqual(self.ask(b"stay", b"ok"), b"ok\n")
            hub.send_signal(number)
            _, rest = hub.communicate(timeout=30)
            self.assertEqual(hub.returncode, 0, rest)
            self.assertIn("[INFO  dmr_hub] stopped", rest)
            self.assertNotIn("Traceback", rest)
            self.assertFalse(os.path.exists(self.socket))

    def test_files_of_the_words(self) -> None:
        """A word goes before the config file. A relative path begins at the folder in which the hub is started."""
        self.write('[records]\nfile = "/var/lib/a.db"\n[names]\nfile = "/a/names.csv"\n')
        for words, records, names in (([], "/var/lib/a.db", "/a/names.csv"), (["--records", "/b.db"], "/b.db", "/a/names.csv"),
                                      (["--records", "c.db", "--names", "b.csv"], os.path.join(os.getcwd(), "c.db"), os.path.join(os.getcwd(), "b.csv"))):
            config = config_of(read_words(["--config", self.config, *words]))
            self.assertEqual((config.records, config.names), (RecordsKeys(file=records), NamesKeys(file=names)))
        self.assertEqual(call_tool(main, "--check", "--config", self.config, "--names", "c.csv").returncode, 0)


class OverTheController(HubProcess):
    """The hub over the real program."""

    def test_lines_of_several_operators(self) -> None:
        built = program("dmr_trunk")
        site = Site(TWO_CARRIERS, first_port=FREE_PORTS, silence=5)
        self.write(site=site.text())
        with Controller(built, site) as controller:
            controller.wait_until_served()
            self.start()
            self.assertEqual(self.ask(b"status", b"status"), b"status carriers 0 radios 0 asks 0 lines 0 calls 0 fill aloha\n")
            self.assertEqual(self.ask(b"slots"), b"slot 0 0 control\nslot 0 1 down\nslot 1 0 down\nslot 1 1 down\nend\n")
            self.assertEqual(self.ask(b"move 7"), b"ok\n")
            # longer than the site's silence
            time.sleep(1.2)
            self.assertEqual(self.ask(b"status"), b"status carriers 0 radios 0 asks 0 lines 0 calls 0 fill move 7\n")
            self.assertEqual(self.ask(b"drop 1001"), b"error not registered\n")
            self.assertEqual(self.ask(b"calls 9"), b"error no carrier\n")
            self.assertEqual(self.ask(b"y" * 81 + b"\n" + b"drop"), b"error line too long\nerror unknown command\n")
            self.assertFalse([note for note in controller.notes if "silence" in note])
            self.assertEqual(sum("console" in note and " connected" in note for note in controller.notes), 1)
        self.assertRegex(self.ask(b"status", b"error"), b"^error the controller is away: ")
