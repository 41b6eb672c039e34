"""The files of the operators' page, which the hub reads at its start and serves from memory. A path that is not one of them leads to no file."""
import pathlib

from temzaar.faults import read_octets
from temzaar.hub.web import Response, tagged_response

FOLDER = pathlib.Path(__file__).resolve().parent / "page"
START, PREFIX = "index.html", "/page/"
NAMES = (START, "colours.css", "board.css", "parts.css", "icon.svg", "theme.js", "board.js", "alarms.js", "events.js", "elements.js", "tables.js", "charts.js", "history.js")
KINDS = {".html": "text/html; charset=utf-8", ".css": "text/css; charset=utf-8", ".js": "text/javascript; charset=utf-8", ".svg": "image/svg+xml"}
# The most octets of a file.
MOST_OCTETS = 1 << 16


def path_of(name: str) -> str:
    """The HTTP path of a file."""
    return "/" if name == START else PREFIX + name


def load_page() -> dict[str, Response]:
    """The response of each path of the page. ToolFault: a file is missing, or cannot be read."""
    return {path_of(name): tagged_response(read_octets(str(FOLDER / name), MOST_OCTETS), KINDS[pathlib.PurePath(name).suffix], is_stored=True) for name in NAMES}
