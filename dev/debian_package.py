"""What the package for Debian has: where each file of a release goes, what dpkg reads, and what it runs.

  /usr/lib/thesaurus                  the program, the tools, the desk, the sample, and PROVED
  /usr/bin/thesaurus, thesaurus-..    links to the program and to the tools
  /usr/share/man/man1                 a page for each of these
  /lib/systemd/system                 the units
  /usr/share/doc/thesaurus            the documents, samples for nginx and Apache, and the sample as a web site
  /var/lib/thesaurus, /etc/thesaurus  where the units have stores and settings
"""
from __future__ import annotations

import gzip
import hashlib
import os
import re
import shutil
import subprocess
from datetime import datetime, timezone
from email.utils import format_datetime
from pathlib import Path
from typing import NamedTuple

import manual_pages
import sample_site
from thesaurus_tools.command_line import ToolError

NAME = "thesaurus"
DEPENDS = (
    "adduser",
    "python3 (>= 3.11)",
    "python3-babel",
    "python3-flask",
    "python3-odf",
    "python3-openpyxl",
    "python3-rdflib",
    "python3-waitress",
)
# (a server in front isn't among them: who only looks at the sample shouldn't find one running)
RECOMMENDS = ("python3-icu", "raptor2-utils", "serdi", "weasyprint")
SUGGESTS = ("apache2", "default-mta | mail-transport-agent", "graphviz", "libapache2-mod-auth-openidc", "nginx")
DESCRIPTION = """Description: thesauri, and catalogue records that are indexed with them
 For offices that maintain thesauri (ISO 25964-1, SKOS) in several languages,
 and index records with their concepts, in a browser. A merge or a split moves
 the records, and notes each move; what would break an integrity rule of SKOS is
 refused. {said}
"""
PROVED = "The program is proved to do this; the desk and the tools are tested."
UNPROVED = "Nothing says that this build of the program is proved."
# The parts of a release that programs need; all others are documents, but for the tool that installs an archive.
NEEDED = ("thesaurus", "tools", "desk", "examples", "PROVED")
UNITS = (".service", ".timer")
LEFT_OUT = (Path("tools/install"),)
# The steps in the comments of units that the package itself does.
STEPS = re.compile(
    r"^#   sudo (?:apt-get install python3|useradd|install -d|cp /usr/local/|systemctl daemon-reload).*\n", re.M
)
PREFIX = re.compile(r"tools/install writes its PREFIX in place of /usr/local(?:; a service can't read .*? home)?\. ?")
MAINTAINER = "the Fethlorn authors <thesaurus@fethlorn.example>"
LICENCES = """
On Debian the text of Apache-2.0 is in /usr/share/common-licenses/Apache-2.0. That of MIT:

"""
OVERRIDES = """# The program is the very file that was proved and built, so that its digest is the one in PROVED.
thesaurus: unstripped-binary-or-object
"""


class Made(NamedTuple):
    """What a package is made of: a folder with the files of a release, the version, and the seconds of their date."""

    tree: Path
    version: str
    date: int
    maintainer: str


def library_version(program: Path) -> str:
    """Returns the version of the C library that a program needs."""
    found = re.findall(rb"GLIBC_(\d+)\.(\d+)", program.read_bytes())
    return ".".join(map(str, max(((int(one), int(other)) for one, other in found), default=(2, 34))))


def tools_of(tree: Path) -> list[str]:
    """Returns the tools that have a name of their own."""
    found = (it for it in (tree / "tools").iterdir() if it.is_file() and not it.suffix)
    return sorted(it.name for it in found if Path("tools", it.name) not in LEFT_OUT)


def place_of(path: Path) -> Path | None:
    """Returns where a file of a release goes; None for one that is left out or is made anew."""
    if path in LEFT_OUT:
        return None
    if path.suffix in UNITS:
        return Path("lib/systemd/system", path.name)
    is_needed = path.parts[0] in NEEDED or path.parts[:2] == ("share", "site")
    return Path("usr/lib" if is_needed else "usr/share/doc", NAME) / path


def for_debian(path: Path, data: bytes) -> bytes:
    """Returns a file of a release as the package has it: units with its places, scripts with Debian's Python."""
    if path.parts[0] == "share":
        data = PREFIX.sub("", STEPS.sub("", data.decode())).replace("/usr/local/", "/usr/").encode()
    old = b"#!/usr/bin/env python3\n"
    return b"#!/usr/bin/python3\n" + data.removeprefix(old) if data.startswith(old) else data


def write(path: Path, data: str | bytes, mode: int = 0o644) -> None:
    """Writes a file of the package."""
    path.parent.mkdir(parents=True, exist_ok=True)
    path.write_bytes(data.encode() if isinstance(data, str) else data)
    path.chmod(mode)


def link(path: Path, target: str) -> None:
    """Makes a link of the package."""
    path.parent.mkdir(parents=True, exist_ok=True)
    path.symlink_to(target)


def write_release(made: Made, root: Path) -> None:
    """Writes the files of a release to their places."""
    for source in sorted(it for it in made.tree.rglob("*") if it.is_file()):
        path = source.relative_to(made.tree)
        if place := place_of(path):
            write(root / place, for_debian(path, source.read_bytes()), 0o755 if os.access(source, os.X_OK) else 0o644)


def write_commands(made: Made, root: Path) -> None:
    """Writes the links to the program and to the tools, and a page for each of them."""
    tools, manuals = tools_of(made.tree), root / "usr/share/man/man1"
    for it in ("", *tools):
        link(root / "usr/bin" / (f"{NAME}-{it}" if it else NAME), f"../lib/{NAME}/{f'tools/{it}' if it else NAME}")
    day = datetime.fromtimestamp(made.date, timezone.utc)
    pages = manual_pages.pages(made.tree / "tools", tools, f"{day:%B} {day.day}, {day.year}")
    for name, text in {**pages, f"{NAME}.1": (made.tree / f"{NAME}.1").read_text(encoding="utf-8")}.items():
        write(manuals / f"{name}.gz", gzip.compress(text.encode(), 9, mtime=0))


def write_documents(made: Made, root: Path) -> None:
    """Writes what Debian wants of each package, the sample as a site, and the folders of stores and settings."""
    documents, day = root / "usr/share/doc" / NAME, format_datetime(datetime.fromtimestamp(made.date, timezone.utc))
    entry = f"{NAME} ({made.version}) unstable; urgency=medium\n\n  * CHANGELOG.md says what is new.\n\n"
    write(documents / "changelog.gz", gzip.compress(f"{entry} -- {made.maintainer}  {day}\n".encode(), 9, mtime=0))
    licence = (made.tree / "LICENSE-MIT").read_text(encoding="utf-8")
    write(documents / "copyright", (made.tree / "NOTICE").read_text(encoding="utf-8") + LICENCES + licence)
    link(documents / "examples", f"../../../lib/{NAME}/examples")
    sample_site.write_site(made.tree / NAME, documents / sample_site.NAME)
    write(root / "usr/share/lintian/overrides" / NAME, OVERRIDES)
    for it in ("var/lib", "etc"):
        (root / it / NAME).mkdir(parents=True)


def control_of(made: Made, root: Path) -> str:
    """Returns what dpkg reads of the package."""
    size = sum(max(1, -(-it.stat().st_size // 1024)) for it in root.rglob("*") if it.is_file() and not it.is_symlink())
    fields = {
        "Package": NAME,
        "Version": made.version,
        "Architecture": "amd64",
        "Maintainer": made.maintainer,
        "Installed-Size": size,
        "Depends": ", ".join((f"libc6 (>= {library_version(made.tree / NAME)})", *DEPENDS)),
        "Recommends": ", ".join(RECOMMENDS),
        "Suggests": ", ".join(SUGGESTS),
        "Section": "text",
        "Priority": "optional",
    }
    said = PROVED if (made.tree / "PROVED").exists() else UNPROVED
    return "".join(f"{name}: {value}\n" for name, value in fields.items()) + DESCRIPTION.format(said=said)


def write_control(made: Made, root: Path) -> None:
    """Writes what dpkg reads and runs: the control file, the scripts, and the sums of all files."""
    files = [it for it in sorted(root.rglob("*")) if it.is_file() and not it.is_symlink()]
    sums = [f"{hashlib.md5(it.read_bytes()).hexdigest()}  {it.relative_to(root)}\n" for it in files]
    write(root / "DEBIAN" / "control", control_of(made, root))
    write(root / "DEBIAN" / "md5sums", "".join(sums))
    for it in sorted((Path(__file__).parent / "debian").iterdir()):
        write(root / "DEBIAN" / it.name, it.read_bytes(), 0o755)


def make_package(made: Made, room: Path, out: Path) -> Path:
    """Makes the package in a folder, and returns its path. Raises ToolError if dpkg-deb isn't there or fails."""
    if not shutil.which("dpkg-deb"):
        raise ToolError("dpkg-deb isn't here: a package is made on Debian, or where dpkg is installed")
    root = room / "package"
    root.mkdir(mode=0o755)
    for part in (write_release, write_commands, write_documents, write_control):
        part(made, root)
    for it in (root, *(it for it in root.rglob("*") if it.is_dir() and not it.is_symlink())):
        it.chmod(0o755)
    out.mkdir(parents=True, exist_ok=True)
    path = out / f"{NAME}_{made.version}_amd64.deb"
    words = ["dpkg-deb", "--root-owner-group", "-Zxz", "--build", str(root), str(path)]
    dated = {**os.environ, "SOURCE_DATE_EPOCH": str(made.date)}
    ran = subprocess.run(words, capture_output=True, text=True, check=False, env=dated)
    if ran.returncode:
        raise ToolError(f"dpkg-deb: {ran.stderr.strip()}")
    return path
