"""The crates of this repository, as crates.txt lists them."""
import pathlib

TOP = pathlib.Path(__file__).resolve().parent.parent


def read_crates(top: pathlib.Path = TOP) -> dict[str, list[str]]:
    """The crates, lowest first, each with the libraries that it uses."""
    lines = (top / "crates.txt").read_text(encoding="utf-8").splitlines()
    pairs = [line.partition(":") for line in lines if ":" in line and not line.startswith("#")]
    return {name.split()[0]: below.split() for name, _, below in pairs}


def edits_of(crate: str, folder: str) -> list[pathlib.Path]:
    """The edits in a folder of a crate, must-fail/ or wrong-bodies/, in the order of their names."""
    return sorted((TOP / "crates" / crate / folder).glob("*.edit"))
