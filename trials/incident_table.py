"""The table of `trials/incidents`: what an operator learned, from which source, how soon."""
import re
import time
from collections.abc import Sequence
from typing import NamedTuple

from incident_scene import TOP, Scene

RULES = TOP / "deploy" / "prometheus" / "dmr_site.rules.yml"
# Seconds that a row has, if it does not say otherwise.
SOON = 12.0
# How many columns of a cell are printed.
WIDEST = 96


class Sign(NamedTuple):
    """What an operator is to learn: from which source, by which pattern, within how many seconds,
    and which alarm comes of it."""

    source: str
    pattern: str
    seconds: float = SOON
    alarm: str = ""


class Failed(Exception):
    """The site did not come so far that the incident could be played."""


class Table:
    """The table of what was learned."""

    def __init__(self, scene: Scene) -> None:
        self.scene, self.missed = scene, 0

    def row(self, name: str, source: str, said: str, after: str) -> None:
        """Prints a row."""
        said = re.sub(r"\s+", " ", said).strip()
        if len(said) > WIDEST:
            said = said[: WIDEST - 2] + ".."
        print(f"| {name} | {source} | {said} | {after} |".replace("|  |", "| |"), flush=True)

    def learn(self, name: str, signs: Sequence[Sign], began: float) -> None:
        """Prints a row for each sign, as it is seen."""
        left = list(signs)
        while left:
            texts: dict[str, str] = {}
            for it in list(left):
                if it.source not in texts:
                    texts[it.source] = self.scene.look_since(it.source)
                after = time.monotonic() - began
                if found := re.search(it.pattern, texts[it.source], re.M):
                    left.remove(it)
                    self.row(
                        name, it.source, f"{found[0]}{alarm_words(it.alarm)}", f"{after:.1f} s"
                    )
                elif after > it.seconds:
                    left.remove(it)
                    self.missed += 1
                    self.row(
                        name, it.source, f"FAILED: no `{it.pattern}`", f"not in {it.seconds:.0f} s"
                    )
            time.sleep(0.1)


def alarm_words(alarm: str) -> str:
    """The name of an alarm, and how long its rule waits."""
    if not alarm:
        return ""
    rule = (
        RULES.read_text(encoding="utf-8")
        .partition(f"- alert: {alarm}\n")[2]
        .partition("- alert:")[0]
    )
    waits = re.search(r"^ +for: (\w+)$", rule, re.M)
    if not rule:
        raise Failed(f"there is no alarm {alarm}")
    return f"; {alarm} {'after ' + waits[1] if waits else 'at once'}"
