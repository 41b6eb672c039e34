"""Runs the commands that documents show, and compares what they print."""
import contextlib
import os
import pathlib
import re
import shutil
import socket
import subprocess
import sys
import time
from collections.abc import Iterator

from documents.blocks import TOP, Block, Command, commands_of
from temzaar.frames import POLL, FrameType
from temzaar.process import Controller, connect
from temzaar.script import read_script
from temzaar.sitefile import Site

# The programs and the tools of operators.
PROGRAMS = ("dmr_trunk", "dmr_decode")
TOOLS = ("siteview", "timeline", "carriers", "conform", "check", "hub", "console")
# The programs nc and xxd, for a machine that has none.
STAND_INS = {
    "nc": """import socket, sys
words = sys.argv[1:]
while words and words[0].startswith("-"):
    words = words[2:]
with socket.create_connection((words[0], int(words[1])), 5) as stream:
    stream.sendall(sys.stdin.buffer.read())
    stream.settimeout(1)
    try:
        while octets := stream.recv(4096):
            sys.stdout.buffer.write(octets)
    except TimeoutError:
        pass
""",
    "xxd": """import sys
octets = sys.stdin.buffer.read()
for n in range(0, len(octets), 30):
    print(octets[n:n + 30].hex())
""",
}
# Waits until the console of site.toml is listened on, ten seconds at most.
UNTIL_SERVED = "for _ in $(seq 100); do (: </dev/tcp/127.0.0.1/7100) 2>/dev/null && break; sleep 0.1; done"


def masked(line: str) -> str:
    """A line without what may differ from run to run."""
    line = re.sub(r"\b\d\d:\d\d:\d\d\b", "TIME", line.rstrip())
    return re.sub(r"(127\.0\.0\.1:)\d+(?= (?:dis)?connected)", r"\1PORT", line)


def is_as_shown(printed: list[str], shown: list[str]) -> bool:
    """Whether the lines are those shown, with any lines for `..`."""
    if not shown:
        return not printed
    if shown[0] == "..":
        return any(is_as_shown(printed[n:], shown[1:]) for n in range(len(printed) + 1))
    return bool(printed) and masked(printed[0]) == masked(shown[0]) and is_as_shown(printed[1:], shown[1:])


def trimmed(lines: list[str]) -> list[str]:
    """The lines without empty ones at the end."""
    return "\n".join(lines).rstrip().split("\n") if any(lines) else []


class Runner:
    """Runs the commands of documents in a folder of their own."""

    def __init__(self, folder: pathlib.Path, programs: pathlib.Path) -> None:
        self.folder, self.programs = folder, programs
        for name in ("tools", "examples", "sites", "python", "station"):
            (folder / name).symlink_to(TOP / name)
        (folder / "build").symlink_to(programs)
        (folder / "bin").mkdir()
        for name in PROGRAMS:
            (folder / "bin" / name).symlink_to(programs / name)
        for name in TOOLS:
            (folder / "bin" / f"dmr_{name}").symlink_to(TOP / "tools" / name)
        (folder / "bin" / "make").write_text(f'#!/bin/sh\ncase "$*" in demo) cat {TOP}/crates/dmr_trunk/stdout ;; build) ;; *) exit 2 ;; esac\n', encoding="utf-8")
        (folder / "bin" / "make").chmod(0o755)
        for name, text in STAND_INS.items():
            if not shutil.which(name):
                (folder / "bin" / name).write_text(f"#!{sys.executable}\n{text}", encoding="utf-8")
                (folder / "bin" / name).chmod(0o755)
        self.environment = {**os.environ, "PATH": f"{folder / 'bin'}:{os.environ['PATH']}", "PYTHONDONTWRITEBYTECODE": "1"}
        self.write_site()
        shutil.copy(TOP / "examples/scripts/lost_carrier.txt", folder / "incident.txt")

    def write_site(self, change: str = "") -> Site:
        """Writes site.toml, with another value for a key: of the site, or of its first carrier."""
        site = Site(str(TOP / "sites/two_carriers.toml"))
        if change:
            key, _, value = change.partition(" = ")
            (site.rows[0] if key in site.rows[0] else site.plan)[key] = int(value)
        (self.folder / "site.toml").write_text(site.text(), encoding="utf-8")
        return site

    def run(self, words: str) -> tuple[int, list[str]]:
        """Runs a command with an empty input. Its status, and the lines that it printed."""
        done = subprocess.run(["bash", "-c", words], cwd=self.folder, env=self.environment, input="", stdout=subprocess.PIPE, stderr=subprocess.STDOUT, text=True, timeout=60, check=False)
        return done.returncode, done.stdout.splitlines()

    def run_until_shown(self, words: str, count: int) -> list[str]:
        """Runs a command until it has printed `count` lines, ten seconds at most; then ends it."""
        with subprocess.Popen(["bash", "-c", f"exec {words}"], cwd=self.folder, env=self.environment, stdout=subprocess.PIPE, stderr=subprocess.STDOUT, text=True) as process:
            assert process.stdout
            killer = subprocess.Popen(["sh", "-c", f"sleep 10; kill {process.pid}"], stdout=subprocess.DEVNULL, stderr=subprocess.DEVNULL)
            lines = []
            while len(lines) < count and (line := process.stdout.readline()):
                lines.append(line.rstrip("\n"))
            process.terminate()
            killer.kill()
            killer.wait()
        return lines

    def faults(self, block: Block) -> Iterator[str]:
        """The lines that a block shows and its commands do not print."""
        marker, served = block.marker, re.fullmatch(r"served(?:, (\w+ = \d+))?(?: and fed (\S+))?", block.marker)
        site = self.write_site(served[1] or "" if served else marker.removeprefix("with ") if marker.startswith("with ") else "")
        with contextlib.ExitStack() as stack:
            if served:
                controller = stack.enter_context(Controller(str(self.programs / "dmr_trunk"), site))
                controller.wait_until_served()
                for stream in self.play(site, served[2]):
                    stack.enter_context(stream)
            if marker == "in one shell":
                yield from self.faults_in_one_shell(block)
                return
            for command in commands_of(block):
                yield from self.faults_of_command(block, command)
        self.write_site()

    def faults_in_one_shell(self, block: Block) -> Iterator[str]:
        """The lines that commands in one shell print and the block does not show; and the commands that fail."""
        commands, lines = commands_of(block), []
        for command in commands:
            lines += [command.words, 'echo "@@ $?"', *([UNTIL_SERVED] if command.words.endswith("&") else [])]
        _, printed = self.run("\n".join([*lines, "kill $(jobs -p)"]))
        for command in commands:
            ends = next((n for n, line in enumerate(printed) if line.startswith("@@ ")), len(printed))
            if not is_as_shown(trimmed(printed[:ends]), trimmed(command.shown)) or printed[ends:ends + 1] != ["@@ 0"]:
                yield f"{block.place()}: $ {command.words}\n  printed\n" + "".join(f"    {it}\n" for it in printed[:ends + 1][:20])
            printed = printed[ends + 1:]

    def play(self, site: Site, script: str | None) -> list[socket.socket]:
        """The connections of a script that is played up to its first tick."""
        inputs = read_script((TOP / "examples/scripts" / script).read_text(encoding="utf-8")) if script else []
        streams: dict[int, socket.socket] = {}
        for it in inputs:
            if it.kind == "tick":
                break
            if it.kind == "open":
                streams[it.carrier] = connect(site.address, site.row(it.carrier)["port"])
            elif it.kind == "bytes":
                streams[it.carrier].sendall(it.octets)
                if it.octets == POLL or it.octets[0] == FrameType.HELLO:
                    streams[it.carrier].recv(4096)
        time.sleep(0.2)
        return list(streams.values())

    def faults_of_command(self, block: Block, command: Command) -> Iterator[str]:
        """The lines that are shown for a command and that it does not print."""
        shown, status = trimmed(command.shown), 0
        if block.marker == "started":
            printed = self.run_until_shown(command.words, len(shown))
        else:
            status, printed = self.run(command.words)
        if block.marker == "ends well":
            if status:
                yield f"{block.place()}: $ {command.words}\n  ended with status {status}: {' '.join(printed)[:200]}"
        elif not is_as_shown(trimmed(printed), shown):
            yield f"{block.place()}: $ {command.words}\n  printed\n" + "".join(f"    {it}\n" for it in printed[:20]) + "  and not\n" + "".join(f"    {it}\n" for it in shown[:20])
