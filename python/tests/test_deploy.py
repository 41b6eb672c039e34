"""The examples of deploy/ for administrators: the units for several sites are those for one, and firewall, tunnels and drop-ins fit the example site."""
import ipaddress
import os
import pathlib
import re
import shutil
import signal
import subprocess
import unittest

from temzaar.archive import DEFAULT_FOLDER
from temzaar.sitefile import FREE_PORTS, Site
from tests.support import TOP, TWO_CARRIERS, FolderCase, program, read_document

DEPLOY = TOP / "deploy"
FOLDERS = ("nftables", "wireguard", "stunnel", "systemd", "apparmor")
# The parts of an example's first lines; the drop-ins of AppArmor are loaded as their profiles say.
PARTS = ("What to change", "How to load it", "How to see that it works")
LOADED_WITH_PROFILE = ("dmr_trunk.conf", "dmr_hub.conf")
# Networks for documents, of private use, and of the machine itself.
NETWORKS = [ipaddress.ip_network(it) for it in ("192.0.2.0/24", "198.51.100.0/24", "203.0.113.0/24", "10.0.0.0/8", "127.0.0.0/8")]
# How a unit for an instance differs from that for one site: lines of the one, and those of the other.
OF_TRUNK = (
    ("Description=DMR Tier III trunked site controller", "Description=DMR Tier III trunked site controller, site %i"),
    ("/etc/dmr_trunk/site.toml", "/etc/dmr_trunk/%i.toml"),
    ("User=dmr_trunk", "User=dmr_trunk-%i"),
    ("StateDirectory=dmr_trunk", "StateDirectory=dmr_trunk-%i"),
    ("/var/lib/dmr_trunk/site-%b.txt", "/var/lib/dmr_trunk-%i/site-%b.txt"),
)
OF_HUB = (
    ("Description=Hub for the console of the DMR Tier III trunked site controller", "Description=Hub for the console of the DMR Tier III trunked site controller, site %i"),
    ("Wants=dmr_trunk.service", "Wants=dmr_trunk@%i.service"),
    ("After=dmr_trunk.service", "After=dmr_trunk@%i.service"),
    ("ExecStart=@PREFIX@/bin/dmr_hub", "ExecStart=@PREFIX@/bin/dmr_hub --config /etc/dmr_trunk/%i.hub.toml"),
    ("User=dmr_hub", "User=dmr_hub-%i"),
    ("RuntimeDirectory=dmr_hub", "RuntimeDirectory=dmr_hub-%i"),
    ("LogsDirectory=dmr_hub", "LogsDirectory=dmr_hub-%i"),
)


def read(name: str) -> str:
    """The text of an example."""
    return (DEPLOY / name).read_text(encoding="utf-8")


def examples() -> list[pathlib.Path]:
    """The examples of firewall, tunnels, drop-ins and profiles."""
    return sorted(path for folder in FOLDERS for path in (DEPLOY / folder).iterdir())


def settings(text: str) -> list[str]:
    """The lines of a unit without its first comment."""
    return text[text.index("[Unit]"):].splitlines()


class Units(unittest.TestCase):
    """The units for several sites on a machine."""

    def compare(self, name: str, differences: tuple[tuple[str, str], ...]) -> None:
        """The unit for an instance is that for one site, with these lines changed, and each of them is."""
        wanted = read(f"{name}.service")
        for old, new in differences:
            pattern = re.escape(old) + r"(?![\w.@-])"
            self.assertRegex(wanted, pattern)
            wanted = re.sub(pattern, new, wanted)
        self.assertEqual(settings(read(f"{name}@.service")), settings(wanted))

    def test_controller(self) -> None:
        self.compare("dmr_trunk", OF_TRUNK)

    def test_hub(self) -> None:
        self.compare("dmr_hub", OF_HUB)

    def test_nothing_of_an_instance_is_that_of_another(self) -> None:
        for name in ("dmr_trunk", "dmr_hub"):
            for line in settings(read(f"{name}@.service")):
                if re.match(r"(?:User|RuntimeDirectory|LogsDirectory|StateDirectory|ExecStart)=", line):
                    self.assertIn("%i", line)


    def test_archive(self) -> None:
        """It is as closed as the hub, and more. Its timer is off until somebody enables it."""
        hub, text = (settings(read(f"{name}.service")) for name in ("dmr_hub", "dmr_archive"))
        hardening = hub[hub.index("CapabilityBoundingSet="):hub.index("SystemCallErrorNumber=EPERM") + 1]
        # it has no users to tell apart, and no network
        closer = {"PrivateUsers=no": "PrivateUsers=yes", "RestrictAddressFamilies=AF_INET AF_UNIX": "RestrictAddressFamilies=none"}
        self.assertLessEqual({closer.get(it, it) for it in hardening if not it.startswith("#")} | {"PrivateNetwork=yes"}, set(text))
        self.assertNotIn("[Install]", text)
        bind = re.findall(r"^BindReadOnlyPaths=(.*):(.*)$", read("systemd/hub_records.conf"), re.M)[0]
        self.assertIn(f"BindReadOnlyPaths={bind[0]}:{bind[1]}", text)
        self.assertIn(f"ExecStart=@PREFIX@/bin/dmr_archive --records {bind[1]}/site.db --folder {DEFAULT_FOLDER} $OPTIONS", text)
        timer = read("dmr_archive.timer")
        self.assertIn("OnCalendar=daily\n", timer)
        self.assertNotRegex((TOP / "Makefile").read_text(encoding="utf-8") + (TOP / "ci/package").read_text(encoding="utf-8"), r"systemctl|timers\.target\.wants")


class Examples(unittest.TestCase):
    """The other examples."""

    def test_first_lines(self) -> None:
        for path in examples():
            if path.name in LOADED_WITH_PROFILE:
                continue
            with self.subTest(path.name):
                text = path.read_text(encoding="utf-8")
                head = text[:re.search(r"^(?!#|;)", text, re.M).start()]  # type: ignore[union-attr]
                for part in PARTS:
                    self.assertIn(part, head)

    def test_addresses_are_nobodys(self) -> None:
        for path in [*examples(), *(DEPLOY / "prometheus").iterdir()]:
            for word in re.findall(r"(?<![\w.])\d+\.\d+\.\d+\.\d+", path.read_text(encoding="utf-8")):
                self.assertTrue(any(ipaddress.ip_address(word) in it for it in NETWORKS), f"{path.name}: {word}")

    def test_documents_name_each(self) -> None:
        document = read_document("SECURITY.md")
        for path in examples():
            self.assertIn(f"`{path.parent.name}/", document)
            self.assertTrue(path.name in document or path.name in LOADED_WITH_PROFILE, path.name)
        for folder in (*FOLDERS, "prometheus", "grafana"):
            self.assertRegex((TOP / "Makefile").read_text(encoding="utf-8"), rf"\tfor kind in [\w ]*\b{folder}\b[\w ]*; do install ")


class Pages(FolderCase):
    """The documents as they are installed."""

    def test_no_link_leads_nowhere(self) -> None:
        subprocess.run([TOP / "ci" / "install-pages", self.folder], check=True)
        pages = {page.name: page.read_text(encoding="utf-8") for page in self.folder.glob("*.md")}
        self.assertEqual(set(pages), {"CHANGELOG.md", *(it.name for it in (TOP / "docs").glob("*.md"))})
        for page, text in pages.items():
            for target in re.findall(r"\]\(([^)#]+)(?:#[^)]*)?\)", text):
                is_there = target.startswith("https://") or (self.folder / target).is_file()
                self.assertTrue(is_there, f"{page}: {target}")
        self.assertIn("(../README.md", read_document("ASSURANCE.md"))
        self.assertFalse([page for page, text in pages.items() if "](../" in text])

    def test_words_that_it_does_not_know(self) -> None:
        done = subprocess.run([TOP / "ci" / "install-pages"], capture_output=True, text=True, check=False)
        self.assertEqual((done.returncode, done.stdout.partition(":")[0], done.stderr), (2, "Installs the documents", ""))


class ExampleSite(FolderCase):
    """The ports are those of the example site."""

    def setUp(self) -> None:
        super().setUp()
        self.site = Site(TWO_CARRIERS)
        self.ports = {row["number"]: row["port"] for row in self.site.rows}

    def test_firewall(self) -> None:
        rules = read("nftables/dmr_trunk.nft")
        found = dict(re.findall(r"^ +ip saddr @carrier(\d+) tcp dport (\d+) counter accept", rules, re.M))
        self.assertEqual(found, {str(number): str(port) for number, port in self.ports.items()})
        self.assertEqual(re.findall(r"^    set carrier(\d+) \{", rules, re.M), list(found))
        every = sorted([self.site.console_port, *self.ports.values()])
        self.assertIn(f"tcp dport {{ {', '.join(map(str, every))} }} counter drop", rules)
        self.assertIn("policy drop;", rules)
        self.assertNotRegex(rules, rf"dport {self.site.console_port} .*accept")

    def test_tunnels(self) -> None:
        server, client = read("stunnel/controller.conf"), read("stunnel/base_station.conf")
        for number, port in self.ports.items():
            self.assertIn(f"[carrier{number}]\naccept = 192.0.2.1:1{port}\nconnect = 127.0.0.1:{port}\nCAfile = /etc/stunnel/dmr/carrier{number}.crt\n", server)
            self.assertIn(f"# the base station of carrier {number}\n[Peer]\nPublicKey = PUBLIC_KEY_OF_CARRIER_{number}\n", read("wireguard/controller.conf"))
        self.assertIn(f"accept = 127.0.0.1:{self.ports[0]}\nconnect = 192.0.2.1:1{self.ports[0]}\n", client)
        for text in (server, client):
            self.assertIn("\nverifyPeer = yes\n", text)
        self.assertIn("\nrequireCert = yes\n", server)

    def test_the_stop_signal_of_the_container_ends_its_first_process(self) -> None:
        built = program("dmr_trunk")
        # numbers of processes of its own, also for users who are not root
        words = ["unshare", "--user", "--map-root-user", "--pid", "--fork", "--kill-child"]
        if not shutil.which("unshare") or subprocess.run([*words, "true"], capture_output=True, check=False).returncode:
            raise unittest.SkipTest("unshare makes no namespaces")
        number = signal.Signals[re.findall(r"^STOPSIGNAL (\w+)$", read("Containerfile"), re.M)[0]]
        site = Site(TWO_CARRIERS, first_port=FREE_PORTS)
        path = self.write("site.toml", site.text())
        with subprocess.Popen([*words, built, "--site", str(path), "--serve"], stderr=subprocess.PIPE, text=True, errors="replace") as outer:
            try:
                assert outer.stderr
                # the console is the last port to listen
                self.assertTrue(any("console: listening" in line for line in outer.stderr))
                first = pathlib.Path(f"/proc/{outer.pid}/task/{outer.pid}/children").read_text(encoding="utf-8").split()[0]
                os.kill(int(first), number)
                outer.wait(5)
            finally:
                outer.kill()

    def test_log_rate(self) -> None:
        text = read("systemd/log_rate.conf")
        burst = int(re.findall(r"^LogRateLimitBurst=(\d+)$", text, re.M)[0])
        parts = [int(it) for it in re.findall(r"^#  +(\d+)    ", text, re.M)]
        self.assertEqual(parts, [16 * 2 * 30, 30 // 2, 1 + 17])
        self.assertIn(f"{sum(parts):,}", text)
        # journald multiplies the burst by 4 if there is room enough
        self.assertLess(sum(parts), 4 * burst)
