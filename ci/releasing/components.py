"""The components of a release, as an SPDX document: the programs, our crates, the toolchain with its crates, and the C library."""
import json
import pathlib
import re
import subprocess
from typing import NamedTuple

from crates import read_crates
from toolchain import ask_rt, read_kit

OUR_LICENSE = "Apache-2.0 OR MIT"
# SPDX's word for a license that nobody has stated here
NO_ASSERTION = "NOASSERTION"
# the lines of the kit's file WHAT that say which build it is, in addition to the line that `rt version` prints
IDENTITY = ("archive", "commit", "compiler")


class Component(NamedTuple):
    """A component: its name, its version, its license in SPDX's words, and what it is."""
    name: str
    version: str
    license: str
    says: str


def kit_folder() -> pathlib.Path:
    """The folder of the toolchain: that of the page which `rt doc` names. Raises Fault if there is no kit."""
    return pathlib.Path(ask_rt("doc").strip()).parent


def read_identity() -> list[str]:
    """The identity of the toolchain: the line of `rt version`, and those of its file WHAT, or why one of them is not known. Raises Fault if there is
    no kit."""
    try:
        text, why = (kit_folder() / "WHAT").read_text(encoding="utf-8"), "the toolchain's file WHAT has no such line"
    except OSError as fault:
        text, why = "", f"the toolchain's file WHAT cannot be read: {fault.strerror}"
    said = dict(re.findall(r"^(\w+) (\S+)$", text, re.M))
    return [str(read_kit()), *(f"{it} {said.get(it) or f'not known: {why}'}" for it in IDENTITY)]


def port_of(name: str, kit: pathlib.Path) -> Component:
    """A crate of the toolchain: the version of the crate that it is a port of, if its README says so."""
    try:
        text = (kit / name / "README.md").read_text(encoding="utf-8")
    except OSError:
        text = ""
    found = re.search(rf"`{name}` (\d+\.\d+(?:\.\d+)?)", text)
    return Component(name, found[1] if found else NO_ASSERTION, NO_ASSERTION, "crate of the toolchain, proved with it; the version is that of the Rust crate which it ports")


def c_library() -> Component:
    """The C library of this machine, against which the programs were linked."""
    first = subprocess.run(["ldd", "--version"], capture_output=True, text=True, check=True).stdout.splitlines()[0]
    return Component("glibc", first.rpartition(" ")[2], "LGPL-2.1-or-later", f"C library, linked when the program starts; built against: {first}")


def components_of(clone: pathlib.Path, version: str) -> list[Component]:
    """All components: our crates, then the toolchain and those of its crates that ours use, then the C library."""
    ours = read_crates(clone)
    theirs = sorted({it for below in ours.values() for it in below if it not in ours})
    kit, (version_line, *identity) = kit_folder() / "rattle", read_identity()
    return [
        *(Component(name, version, OUR_LICENSE, "crate of this repository, proved") for name in ours),
        Component("rattle", version_line, NO_ASSERTION, f"compiler, prover, and proved standard library; {'; '.join(identity)}"),
        *(port_of(name, kit) for name in theirs),
        c_library(),
    ]


def spdx_name(name: str) -> str:
    """A name as an SPDX identifier."""
    return "SPDXRef-" + re.sub(r"[^A-Za-z0-9.-]", "-", name)


def spdx_of(components: list[Component], files: dict[str, str], version: str, created: str, source: str) -> str:
    """The SPDX 2.3 document of a release, as JSON. `files` has the SHA-256 of each file of the release, by name; `source` is the commit."""
    packages = [{
        "name": it.name, "SPDXID": spdx_name(it.name), "versionInfo": it.version, "downloadLocation": NO_ASSERTION, "filesAnalyzed": False,
        "licenseConcluded": it.license, "licenseDeclared": it.license, "copyrightText": NO_ASSERTION, "comment": it.says,
    } for it in components]
    listed = [{
        "fileName": f"./{name}", "SPDXID": spdx_name(f"file-{name}"), "checksums": [{"algorithm": "SHA256", "checksumValue": digest}],
        "licenseConcluded": OUR_LICENSE, "copyrightText": "2026 Temzaar maintainers",
    } for name, digest in files.items()]
    relations = [{"spdxElementId": "SPDXRef-DOCUMENT", "relationshipType": "DESCRIBES", "relatedSpdxElement": it["SPDXID"]} for it in (*packages, *listed)]
    return json.dumps({
        "spdxVersion": "SPDX-2.3", "dataLicense": "CC0-1.0", "SPDXID": "SPDXRef-DOCUMENT", "name": f"dmr-trunk-{version}",
        "documentNamespace": f"urn:temzaar:dmr-trunk:{version}:{source}",
        "creationInfo": {"created": created, "creators": ["Organization: Temzaar maintainers", "Tool: ci/release"]},
        "packages": packages, "files": listed, "relationships": relations,
    }, indent=2) + "\n"
