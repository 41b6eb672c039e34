"""What a profile of AppArmor permits, and what a program did by the lines of strace: for a test
that compares both.

It knows the rules about files, as apparmor.d(5) has them. It does not know rules about networks,
signals and capabilities, links between names, or `owner`.
"""
import itertools
import os
import pathlib
import re
from collections.abc import Iterator, Sequence
from typing import NamedTuple

# Debian's folder of what profiles include
INCLUDED = pathlib.Path("/etc/apparmor.d")
RULE = re.compile(r'(?P<denied>deny )?(?:audit )?(?:owner )?"?(?P<path>[/@][^\s"]*)"?\s+'
                  r"(?P<modes>[a-zA-Z]+),")
VARIABLE = re.compile(r"(@\{\w+\})\s*\+?=\s*(.*)")
INCLUDE = re.compile(r"include (?:if exists )?<([^>]*)>")
# the system calls that strace has to print
CALLS = "%file,mmap,fcntl,flock,fchmod,fchown,ftruncate,bind,connect,sendto,sendmsg"
NAME, DESCRIPTOR = r'"([^"]*)"', r"\d+<([^>]*)>"
# The modes for calls on descriptors, on sockets with a path, and on paths: by the name of the call,
# or by how it begins. An `execve` needs its mode for the first path alone.
OF_DESCRIPTORS = {"fcntl": "k", "flock": "k", "fchmod": "w", "fchown": "w", "ftruncate": "w"}
OF_SOCKETS = {"connect": "rw", "bind": "w", "sendto": "w", "sendmsg": "w"}
OF_PATHS = {"rename": "rw", "link": "l", "execve": "x", **dict.fromkeys((
    "unlink", "chmod", "fchmodat", "chown", "lchown", "fchownat", "truncate", "mknod", "symlink",
    "utime"), "w")}


class Need(NamedTuple):
    """A path, and the modes of AppArmor that a program needs for what it did with it."""

    path: str
    modes: str


# ---- profiles


def included_lines(text: str) -> Iterator[str]:
    """The lines of a profile, with those of the files that it includes in their place."""
    for line in text.splitlines():
        line = line.split("#")[0].strip()
        found = INCLUDE.match(line)
        path = INCLUDED / found[1] if found else None
        if not path:
            yield line
        elif path.is_dir():
            for part in sorted(path.iterdir()):
                yield from included_lines(part.read_text(encoding="utf-8"))
        elif path.is_file():
            yield from included_lines(path.read_text(encoding="utf-8"))


def pattern_of(path: str) -> str:
    """The pattern of Python for a path of a rule, whose variables were filled in."""
    path, pattern, at = re.sub(r"/{2,}", "/", path), "", 0
    while at < len(path):
        stars = len(path[at:]) - len(path[at:].lstrip("*"))
        if stars:
            # a whole name is not empty
            whole = path[at - 1] == "/" and path[at + stars : at + stars + 1] in ("", "/")
            pattern += ("." if stars > 1 else "[^/]") + ("+" if whole else "*")
        elif path[at] == "[":
            closed = path.index("]", at)
            pattern += path[at : closed + 1]
            stars = closed + 1 - at
        else:
            meaning = {"{": "(?:", "}": ")", ",": "|", "?": "[^/]"}
            pattern += meaning.get(path[at], re.escape(path[at]))
        at += stars or 1
    return pattern


class Profile:
    """The rules of a profile about files."""

    def __init__(self, text: str) -> None:
        self.variables: dict[str, list[str]] = {}
        self.rules: list[tuple[re.Pattern[str], str, bool]] = []
        for line in included_lines(text):
            if found := VARIABLE.match(line):
                self.variables.setdefault(found[1], []).extend(found[2].split())
            elif found := RULE.match(line):
                for path in self._filled(found["path"]):
                    rule = re.compile(pattern_of(path)), found["modes"], bool(found["denied"])
                    self.rules.append(rule)

    def _filled(self, path: str) -> list[str]:
        """A path for each value of its variables."""
        names = re.findall(r"@\{\w+\}", path)
        if not names:
            return [path]
        paths = []
        for values in itertools.product(*(self.variables[it] for it in names)):
            filled = path
            for name, value in zip(names, values):
                filled = filled.replace(name, value, 1)
            paths.extend(self._filled(filled))
        return paths

    def lacks(self, need: Need) -> str:
        """The modes that a program needs, and the profile does not give."""
        given = {False: "", True: ""}
        for pattern, modes, denied in self.rules:
            if pattern.fullmatch(need.path):
                given[denied] += modes
        return "".join(it for it in need.modes if it not in given[False] or it in given[True])

    def refused(self, needs: Sequence[Need]) -> list[Need]:
        """What the profile would refuse, without repetition."""
        return sorted({Need(it.path, lacked) for it in needs if (lacked := self.lacks(it))})


# ---- what a program did


def modes_of_open(flags: str) -> str:
    """The modes for the flags of an open."""
    return "rw" if "O_RDWR" in flags else "w" if "O_WRONLY" in flags else "r"


def needs_of_open(words: str, result: str) -> list[Need]:
    """What a call needs that opened a file or a folder."""
    opened = re.match(r"\d+<(.*)>$", result)
    if not opened or "O_PATH" in words:
        return []
    is_folder = "O_DIRECTORY" in words or os.path.isdir(opened[1])
    return [Need(opened[1] + "/" * is_folder, modes_of_open(words))]


def needs_of_call(name: str, words: str, result: str) -> list[Need]:
    """What a system call needs that was done. AppArmor lets every program see that a file is there,
    and its state."""
    if name in ("open", "openat", "creat"):
        return needs_of_open(words, result)
    if name == "mmap":
        mapped = re.search(DESCRIPTOR, words)
        return [Need(mapped[1], "m")] if mapped and "PROT_EXEC" in words else []
    if name in OF_DESCRIPTORS:
        is_other = name == "fcntl" and "SETLK" not in words
        return [Need(it, OF_DESCRIPTORS[name]) for it in re.findall(DESCRIPTOR, words) if not is_other]
    if name in OF_SOCKETS:
        return [Need(it, OF_SOCKETS[name]) for it in re.findall(r'sun_path="([^"]*)"', words)]
    if name.startswith(("mkdir", "rmdir")) or "AT_REMOVEDIR" in words:
        return [Need(it.rstrip("/") + "/", "w") for it in named(words)]
    modes = next((it for begins, it in OF_PATHS.items() if name.startswith(begins)), "")
    paths = named(words)[:1 if modes == "x" else None]
    return [Need(it, modes) for it in paths if modes]


def named(words: str) -> list[str]:
    """The paths that the words of a call name, also those that begin at a descriptor's folder."""
    paths = []
    for folder, name in re.findall(rf"(?:(?:\d+|AT_FDCWD)<([^>]*)>, )?{NAME}", words):
        path = os.path.join(folder, name)
        paths.append(os.path.join(os.path.realpath(os.path.dirname(path)), os.path.basename(path)))
    return paths


def needs_of_trace(lines: Sequence[str]) -> list[Need]:
    """What a thread needs, by the lines of `strace -y` for it. Calls that failed need nothing: the
    service did without."""
    needs = []
    for line in lines:
        found = re.match(r"(\w+)\((.*)\)\s+= (\S.*)$", line)
        if found and not found[3].startswith(("-1", "?")):
            needs.extend(needs_of_call(found[1], found[2], found[3]))
    # a folder that has gone since
    folders = {it.path for it in needs if it.path.endswith("/")}
    return [Need(it.path + "/", it.modes) if it.path + "/" in folders else it for it in needs]
