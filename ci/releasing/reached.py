"""How far a release has come: the runs that worked on it, each on one machine, and the steps that were done. It is kept in the release's folder, with what was built."""
import json
import pathlib
import shutil
from collections.abc import Sequence
from typing import NamedTuple, Self

from releasing.steps import Outcome, Step

NAME = "logs/progress.json"
# The folder with what was built, for later runs. The package's own folder is made again.
BUILT, NOT_KEPT = "build", shutil.ignore_patterns("package")


class Run(NamedTuple):
    """A run that worked on the release: its day, and its machine."""
    day: str
    machine: Sequence[str]


class Reached(NamedTuple):
    """The commit and the kind of a release, its runs so far, and the outcome of each step that was done, by its name."""
    commit: str
    short: bool
    runs: list[Run]
    outcomes: dict[str, Outcome]

    @classmethod
    def read(cls, folder: pathlib.Path, steps: Sequence[Step]) -> Self:
        """Reads how far the release in a folder has come. Raises OSError or ValueError if it does not say so."""
        try:
            said = json.loads((folder / NAME).read_text(encoding="utf-8"))
            known = {it.name: it for it in steps}
            outcomes = {it["step"]: Outcome(known[it["step"]], it["status"], it["seconds"], it["last"], it["run"]) for it in said["steps"]}
            return cls(said["commit"], said["short"], [Run(it["day"], it["machine"]) for it in said["runs"]], outcomes)
        except (KeyError, TypeError) as fault:
            raise ValueError(f"{NAME} has no {fault}") from fault

    def write(self, folder: pathlib.Path) -> None:
        """Writes it to the release's folder, whole or not at all."""
        said = {
            "commit": self.commit, "short": self.short,
            "runs": [it._asdict() for it in self.runs],
            "steps": [{"step": name, "status": it.status, "seconds": round(it.seconds, 1), "last": it.last, "run": it.run} for name, it in self.outcomes.items()],
        }
        new = folder / f"{NAME}.new"
        new.write_text(json.dumps(said, indent=1) + "\n", encoding="utf-8")
        new.replace(folder / NAME)

    def to_do(self, steps: Sequence[Step]) -> list[Step]:
        """Those of these steps that have not passed. One that failed or was left out is done again."""
        return [it for it in steps if it.name not in self.outcomes or not self.outcomes[it.name].passed()]


def keep_built(clone: pathlib.Path, folder: pathlib.Path) -> None:
    """Keeps what was built in the clone, in the release's folder."""
    if (clone / BUILT).is_dir():
        shutil.copytree(clone / BUILT, folder / BUILT, ignore=NOT_KEPT, dirs_exist_ok=True)


def take_built(folder: pathlib.Path, clone: pathlib.Path) -> None:
    """Copies what an earlier run has built into a clone. `ci/check programs` fails if it was not made from the same sources with the same kit."""
    if (folder / BUILT).is_dir():
        shutil.copytree(folder / BUILT, clone / BUILT)
