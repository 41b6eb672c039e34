"""The package's version is the controller's, whose source holds the number."""
import pathlib
import re

from setuptools import setup

SOURCE = pathlib.Path(__file__).resolve().parent.parent / "crates/dmr_command/src/version.rt"
FOUND = re.search(r'^pub const VERSION: &str = "(.*)";$', SOURCE.read_text(encoding="utf-8"), re.M)
assert FOUND, f"{SOURCE} names no version"

setup(version=FOUND[1])
