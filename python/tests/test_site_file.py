"""docs/SITE_FILE.md, run: its key table and its texts, and the example that it names, over the controller."""
import os
import pathlib
import re
import subprocess
import unittest
from collections.abc import Iterator

from tests.support import TWO_CARRIERS, FolderCase, program, read_document, table_rows

SITE_FILE = read_document("SITE_FILE.md")
ARRAYS = ("address", "radios", "groups", "carrier")
NO_CARRIER = 15
MIB = 1 << 20


def example() -> str:
    """The site file that the document says to begin with."""
    with open(TWO_CARRIERS, encoding="utf-8") as it:
        return it.read()


def changed(text: str, key: str, value: str | None) -> str:
    """A site file with another value for a key, or without it."""
    pattern = rf"^{key} = .*\n"
    if value is None:
        return re.sub(pattern, "", text, count=1, flags=re.M)
    if re.search(pattern, text, re.M):
        return re.sub(pattern, f"{key} = {value}\n", text, count=1, flags=re.M)
    return f"{key} = {value}\n{text}"


class Example(unittest.TestCase):
    """The site file that the document names."""

    def test_the_document_names_it(self) -> None:
        self.assertIn(f"`{os.path.basename(TWO_CARRIERS)}`", SITE_FILE)


class Texts(FolderCase):
    """The controller's messages for site files with one fault each."""

    def expect(self, text: str, fault: str | None) -> None:
        """A site file is taken, or refused with this fault."""
        site = self.write("site.toml", text)
        words = [program("dmr_trunk"), "--site", site, "--script", os.devnull]
        done = subprocess.run(words, capture_output=True, text=True, check=False)
        wanted = (1, f"dmr_trunk: site file: {fault}\n") if fault else (0, "")
        self.assertEqual((done.returncode, done.stderr), wanted, text)

    def number_cases(self) -> Iterator[tuple[str, int, int]]:
        """Each key with one number: its range in the table, without the ends that are another key's value."""
        for key, value, *_ in table_rows(SITE_FILE, "| key | value | if missing") + table_rows(SITE_FILE, "Each `[[carrier]]` has"):
            bounds = re.match(r"(\d+) to (\d+)", value)
            if key not in ARRAYS and bounds:
                yield key, int(bounds[1]), int(bounds[2])

    def test_the_example_is_taken(self) -> None:
        self.expect(example(), None)

    def test_missing(self) -> None:
        for key, _, missing, _ in table_rows(SITE_FILE, "| key | value | if missing"):
            with self.subTest(key):
                text = re.sub(r"\[\[carrier\]\](.|\n)*", "", example()) if key == "carrier" else changed(example(), key, None)
                self.expect(text, f"missing {key}" if missing == "fault" else None)

    def test_ranges(self) -> None:
        others = {"regi": {16776416: "16776417"}, "tsi": {}}
        for key, least, most in self.number_cases():
            with self.subTest(key):
                for value in (least - 1, most + 1):
                    text = changed(example(), key, str(value))
                    self.expect(text, f"out of range {key}")
                for value in (least, most):
                    text = changed(example(), key, others.get(key, {}).get(value, str(value)))
                    if key == "backoff_low":
                        text = changed(text, "backoff_high", "15")
                    if key == "number":
                        text = changed(text, "control", str(value))
                    self.expect(text, None)

    def test_wrong_types(self) -> None:
        for key, *_ in self.number_cases():
            with self.subTest(key):
                self.expect(changed(example(), key, '"1"'), f"wrong type {key}")
        for key, value in (("address", "[127, 0, 0]"), ("radios", "[[1]]"), ("groups", "91"), ("control", "true")):
            self.expect(changed(example(), key, value), f"wrong type {key}")

    def test_arrays_out_of_range(self) -> None:
        for key, value in (("address", "[127, 0, 0, 256]"), ("radios", "[]"), ("radios", "[[2, 1]]"), ("radios", "[[0, 1]]"), ("groups", "[0]"),
                           ("groups", str(list(range(1, 66)))), ("control", str(NO_CARRIER))):
            self.expect(changed(example(), key, value), f"out of range {key}")

    def test_repeated(self) -> None:
        self.expect(changed(example(), "tsi", "0xFFFEC6"), "repeated tsi")
        self.expect(changed(example(), "groups", "[91, 91]"), "repeated groups")
        for key, first in (("number", "0"), ("lpcn", "1"), ("port", "7101")):
            text = example()
            begins = text.rindex("[[carrier]]")
            self.expect(text[:begins] + changed(text[begins:], key, first), f"repeated {key}")
        self.expect(changed(example(), "console_port", "7101"), "repeated port")

    def test_not_toml(self) -> None:
        for text in ("system = ", "system = 1\nsystem = 2\n" + example(), f"system = {1 << 64}\n"):
            self.expect(text, "not TOML")


class LongFiles(FolderCase):
    """Files that are longer than the programs read. A site file has 1 MiB at most, a script
    1,024 MiB."""

    def setUp(self) -> None:
        super().setUp()
        self.path = self.folder / "long"

    def run_program(self, name: str, *words: str) -> tuple[int, str]:
        """The status of a program, and what it writes to standard error."""
        done = subprocess.run([program(name), *words], stdin=subprocess.DEVNULL, capture_output=True, text=True, timeout=120, check=False)
        return done.returncode, done.stderr

    def make_site(self, octets: int) -> None:
        """Makes a right site file with this number of octets."""
        text = pathlib.Path(TWO_CARRIERS).read_bytes()
        comment = b"#" * 99 + b"\n"
        rest = octets - len(text)
        self.path.write_bytes(text + comment * (rest // 100) + b"\n" * (rest % 100))

    def test_site_file(self) -> None:
        for octets, wanted in ((MIB, (0, "")), (MIB + 1, (1, f"{self.path} has more than 1 MiB\n"))):
            self.make_site(octets)
            for name, words in (("dmr_trunk", ["--site", str(self.path), "--script", os.devnull]), ("dmr_decode", ["script", "--site", str(self.path)])):
                with self.subTest(name, octets=octets):
                    status, text = self.run_program(name, *words)
                    self.assertEqual((status, text.removeprefix(f"{name}: ")), wanted)
        self.assertEqual(self.run_program("dmr_trunk", "--site", str(self.path), "--serve"), (1, f"dmr_trunk: {self.path} has more than 1 MiB\n"))

    def test_a_site_file_without_an_end(self) -> None:
        for name, words in (("dmr_trunk", ["--site", "/dev/zero", "--script", os.devnull]), ("dmr_decode", ["script", "--site", "/dev/zero"])):
            self.assertEqual(self.run_program(name, *words), (1, f"{name}: /dev/zero has more than 1 MiB\n"))

    def test_script(self) -> None:
        self.path.touch()
        os.truncate(self.path, 1024 * MIB + 1)
        self.assertEqual(self.run_program("dmr_trunk", "--site", TWO_CARRIERS, "--script", str(self.path)), (1, f"dmr_trunk: {self.path} has more than 1024 MiB\n"))
