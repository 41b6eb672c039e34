"""Counters, gauges and histograms, and their text in the exposition format of Prometheus."""
import bisect
from collections.abc import Iterator

Labels = tuple[tuple[str, str], ...]

# Seconds. An answer takes well under a millisecond; the end of a term delays one by some 2 to 8 ms, and by more on a busy host.
ANSWER_BUCKETS = (0.0005, 0.001, 0.0025, 0.005, 0.01, 0.025, 0.05, 0.1, 0.25, 0.5, 1.0)
# Seconds: a call lasts from the hang time, some seconds, up to the maximum of the site file, some minutes. A request may wait as long.
MINUTES = (1.0, 2.0, 5.0, 10.0, 20.0, 30.0, 60.0, 120.0, 180.0, 300.0)


def number_text(value: float) -> str:
    """A number as the format has it: a whole one without a point."""
    return str(int(value)) if float(value).is_integer() and abs(value) < 1e15 else repr(float(value))


def escape_label(value: str) -> str:
    """A label's value between its quotes."""
    return value.replace("\\", "\\\\").replace('"', '\\"').replace("\n", "\\n")


def sample_line(name: str, labels: Labels, value: float) -> str:
    """A line of the format."""
    inner = ",".join(f'{label}="{escape_label(text)}"' for label, text in labels)
    return f"{name}{{{inner}}} {number_text(value)}\n" if inner else f"{name} {number_text(value)}\n"


class Series:
    """Counters or gauges of one name, by their labels. A counter's name ends with `_total`."""

    def __init__(self, name: str, about: str) -> None:
        self.name, self.about = name, about
        self.kind = "counter" if name.endswith("_total") else "gauge"
        self.values: dict[Labels, float] = {}

    def add(self, amount: float = 1, **labels: str) -> None:
        """Adds to the counter with these labels."""
        at = tuple(labels.items())
        self.values[at] = self.values.get(at, 0) + amount

    def set(self, value: float, **labels: str) -> None:
        """Sets the gauge with these labels."""
        self.values[tuple(labels.items())] = value

    def get(self, **labels: str) -> float:
        """The value with these labels; 0 if there is none."""
        return self.values.get(tuple(labels.items()), 0)

    def lines(self) -> Iterator[str]:
        """The lines of the format."""
        yield f"# HELP {self.name} {self.about}\n# TYPE {self.name} {self.kind}\n"
        for labels, value in self.values.items():
            yield sample_line(self.name, labels, value)


class Histogram:
    """How many values were at most as large as each bound, their sum and their number."""

    def __init__(self, name: str, about: str, bounds: tuple[float, ...]) -> None:
        self.name, self.about, self.bounds = name, about, bounds
        self.counts = [0] * (len(bounds) + 1)
        self.sum = 0.0

    def observe(self, value: float) -> None:
        """Counts a value."""
        self.counts[bisect.bisect_left(self.bounds, value)] += 1
        self.sum += value

    def add(self, other: "Histogram") -> None:
        """Counts the values of another histogram with the same bounds."""
        self.counts = [before + more for before, more in zip(self.counts, other.counts, strict=True)]
        self.sum += other.sum

    def lines(self) -> Iterator[str]:
        """The lines of the format."""
        yield f"# HELP {self.name} {self.about}\n# TYPE {self.name} histogram\n"
        below = 0
        for bound, count in zip((*map(number_text, self.bounds), "+Inf"), self.counts, strict=True):
            below += count
            yield sample_line(f"{self.name}_bucket", (("le", bound),), below)
        yield sample_line(f"{self.name}_sum", (), self.sum)
        yield sample_line(f"{self.name}_count", (), below)


class Counts:
    """Counters, gauges and histograms, each of them an attribute."""

    def all_series(self) -> list[Series | Histogram]:
        """Everything that is counted, in the order in which it is shown."""
        return [it for it in vars(self).values() if isinstance(it, Series | Histogram)]


class HubCounts(Counts):
    """What the hub counts of its own work."""

    def __init__(self) -> None:
        self.connects = Series("dmr_hub_console_connects_total", "Connections to the controller's console that answered.")
        self.losses = Series("dmr_hub_console_losses_total", "Connections to the controller's console that ended after they had answered.")
        self.questions = Series("dmr_hub_questions_total", "Questions that the controller answered, by who asked.")
        self.unanswered = Series("dmr_hub_unanswered_questions_total", "Questions without an answer, by who asked.")
        self.answer_times = Histogram("dmr_hub_answer_duration_seconds", "How long the controller took for an answer.", ANSWER_BUCKETS)
        self.poll_faults = Series("dmr_hub_poll_faults_total", "Pictures of the site that failed.")
        self.line_accepts = Series("dmr_hub_line_accepts_total", "Operators' connections that were served.")
        self.line_refusals = Series("dmr_hub_line_refusals_total", "Operators' connections that were refused, by the reason.")
        self.line_cuts = Series("dmr_hub_line_cuts_total", "Operators' connections that the hub ended, by the reason.")
        self.lines = Series("dmr_hub_lines_total", "Lines of operators, by what they do.")
        self.changes = Series("dmr_hub_changes_total", "Commands that change the site, by their name and how they ended.")
        self.audit_records = Series("dmr_hub_audit_records_total", "Records that were written to the audit log.")
        self.audit_faults = Series("dmr_hub_audit_faults_total", "Records that could not be written to the audit log.")
        self.http_requests = Series("dmr_hub_http_requests_total", "HTTP requests, by the status of the response.")
        self.http_refusals = Series("dmr_hub_http_refusals_total", "HTTP connections that were refused because too many were served.")
        for series in (self.http_refusals, self.connects, self.losses, self.poll_faults, self.line_accepts, self.audit_records, self.audit_faults):
            series.add(0)
