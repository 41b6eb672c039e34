"""The version of this program: in a checkout that of the controller's source, in an installation that of the file next to this one."""
import pathlib
import re

HERE = pathlib.Path(__file__).resolve().parent
SOURCE = HERE.parents[1] / "crates" / "dmr_command" / "src" / "version.rt"


def read_version() -> str:
    """The version; `unknown` if neither file is there."""
    try:
        installed = HERE / "VERSION"
        if installed.is_file():
            return installed.read_text(encoding="ascii").strip()
        found = re.search(r'^pub const VERSION: &str = "(.*)";$', SOURCE.read_text(encoding="utf-8"), re.M)
        return found[1] if found else "unknown"
    except (OSError, ValueError):
        return "unknown"
