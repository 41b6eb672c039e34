"""The version of the tools and of the hub, and what the package removes of the tools."""
import re
import subprocess
from unittest import mock

from temzaar import version
from temzaar.cli import hub
from tests.support import TOP, FolderCase, call_tool
from tests.test_commands import MAINS

VERSION = subprocess.run([TOP / "ci" / "version"], capture_output=True, text=True, check=True).stdout.strip()


class Versions(FolderCase):
    """The version that is in the controller's source."""

    def test_each_tool(self) -> None:
        for name, main in MAINS.items():
            with mock.patch("sys.argv", [f"/usr/bin/dmr_{name}"]):
                done = call_tool(main, "--version")
            self.assertEqual((done.returncode, done.stdout, done.stderr), (0, f"dmr_{name} {VERSION}\n", ""))

    def test_the_hubs_first_note(self) -> None:
        folder = self.folder
        config = self.write("hub.toml", '[controller]\nsite_file = "/nowhere.toml"\n'
                            f'[line_port]\nsocket = "{folder}/none/s"\n[audit]\nfile = "{folder}/audit.jsonl"\n')
        done = call_tool(hub.main, "--config", str(config))
        self.assertEqual(done.stderr.split("\n")[0], f"[INFO  dmr_hub] dmr_hub {VERSION}: config file {config}, site file /nowhere.toml")

    def test_an_installation(self) -> None:
        """It has no source: `make install` writes the version."""
        with mock.patch.multiple(version, HERE=self.folder, SOURCE=self.folder / "none"):
            self.assertEqual(version.read_version(), "unknown")
            self.write("VERSION", "1.2.3\n")
            self.assertEqual(version.read_version(), "1.2.3")
        self.assertIn("ci/version >$(DESTDIR)$(PYTHON_LIB)/temzaar/VERSION", (TOP / "Makefile").read_text(encoding="utf-8"))


class Removed(FolderCase):
    """The script that the package runs before it is removed."""

    def test_what_python_compiled(self) -> None:
        text = (TOP / "ci" / "package").read_text(encoding="utf-8")
        found = re.search(r"/DEBIAN/prerm\" <<'END'\n(.*?)\nEND\n", text, re.S)
        assert found
        top = self.folder / "temzaar"
        script = found[1].replace("/usr/lib/python3/dist-packages/temzaar", str(top))
        subprocess.run(["sh", "-c", script], check=True)
        for path in ("__pycache__/a.pyc", "a.py", "hub/__pycache__/a.pyc", "hub/a.py"):
            self.write(f"temzaar/{path}", "")
        subprocess.run(["sh", "-c", script], check=True)
        self.assertEqual(sorted(it.name for it in top.rglob("*")), ["a.py", "a.py", "hub"])
