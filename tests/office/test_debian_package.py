"""dev/package: what is in the package, that an unpacked one answers from where it is, and what lintian says. (By hand,
`dev/package --try` installs and removes it in a bare Debian.)"""
from __future__ import annotations

import ast
import gzip
import platform
import re
import subprocess
import sys
from collections.abc import Iterator
from http.cookiejar import CookieJar
from pathlib import Path
from typing import NamedTuple
from urllib.request import HTTPCookieProcessor, build_opener

import pytest
from program import ROOT, version
from test_release import WITHOUT_RT, Repository, good

pytestmark = [
    pytest.mark.needs("dpkg-deb", "git"),
    pytest.mark.skipif(platform.machine() != "x86_64", reason="the processor isn't x86_64"),
]
TOOLS = {it.name for it in (ROOT / "tools").iterdir() if it.is_file() and not it.suffix} - {"install"}
DOCUMENTS = "usr/share/doc/thesaurus"
# The package of Debian that has a module, and those that come with another one.
PACKAGES = {
    "babel": "python3-babel",
    "flask": "python3-flask",
    "icu": "python3-icu",
    "odf": "python3-odf",
    "openpyxl": "python3-openpyxl",
    "rdflib": "python3-rdflib",
    "waitress": "python3-waitress",
}
WITH_FLASK = {"itsdangerous", "jinja2", "markupsafe", "werkzeug"}
OWN = {"thesaurus_desk", "thesaurus_tools", "_typeshed"}


class Unpacked(NamedTuple):
    """A package, and the folder with its files."""

    package: Path
    tree: Path

    def fields(self) -> dict[str, str]:
        """What dpkg reads of it."""
        said = output_of("dpkg-deb", "--field", self.package)
        return dict(re.findall(r"^([\w-]+): (.*)$", said, re.M))

    def control(self, name: str) -> str:
        """A file or a script that dpkg reads."""
        return output_of("dpkg-deb", "--info", self.package, name)


def output_of(*words: object) -> str:
    return subprocess.run(list(map(str, words)), capture_output=True, text=True, check=True).stdout


@pytest.fixture(scope="module")
def made(tmp_path_factory: pytest.TempPathFactory) -> Unpacked:
    """The package of the program that is tested."""
    room = tmp_path_factory.mktemp("package")
    (room / "program").write_bytes(good())
    (room / "program").chmod(0o755)
    output_of(sys.executable, ROOT / "dev" / "package", "--program", room / "program", "--out", room)
    (package,) = room.glob("*.deb")
    output_of("dpkg-deb", "--extract", package, room / "tree")
    return Unpacked(package, room / "tree")


# --- what it has ---


def test_files_belong_to_root_and_all_may_read_them(made: Unpacked) -> None:
    lines = [it.split() for it in output_of("dpkg-deb", "--contents", made.package).splitlines()]
    assert {it[1] for it in lines} == {"root/root"}
    assert {it[0] for it in lines} == {"drwxr-xr-x", "-rwxr-xr-x", "-rw-r--r--", "lrwxrwxrwx"}
    assert not [it[5] for it in lines if "__pycache__" in it[5] or it[5].endswith(".pyc")]
    assert {"./var/lib/thesaurus/", "./etc/thesaurus/", "./lib/systemd/system/"} <= {it[5] for it in lines}


def test_program_is_as_it_was_given(made: Unpacked) -> None:
    assert (made.tree / "usr/lib/thesaurus/thesaurus").read_bytes() == good()
    assert made.fields()["Version"] == f"{version()}~unproved"
    assert not (made.tree / "usr/lib/thesaurus/PROVED").exists()
    assert "Nothing says that this build of the program is proved" in made.control("control")


def test_each_command_has_a_page(made: Unpacked) -> None:
    commands = {it.name for it in (made.tree / "usr/bin").iterdir() if it.resolve(strict=True).is_file()}
    assert commands == {"thesaurus", *(f"thesaurus-{it}" for it in TOOLS)}
    assert {it.name for it in (made.tree / "usr/share/man/man1").iterdir()} == {f"{it}.1.gz" for it in commands}


@pytest.mark.needs("mandoc")
def test_pages_are_read_by_mandoc(made: Unpacked, tmp_path: Path) -> None:
    for it in sorted((made.tree / "usr/share/man/man1").iterdir()):
        page = tmp_path / it.stem
        page.write_bytes(gzip.decompress(it.read_bytes()))
        assert not subprocess.run(
            ["mandoc", "-T", "lint", "-W", "error", page], capture_output=True, check=False
        ).stdout
    shown = re.sub(".\b", "", output_of("mandoc", "-T", "utf8", tmp_path / "thesaurus-backup.1"))
    assert re.search(r"NAME\s+thesaurus-backup – Makes a backup of a store", shown)
    assert "--keep N" in shown and "thesaurus-backup museum.db backups --port 8080 --keep 30" in shown


def modules(folder: str) -> Iterator[str]:
    """The modules that the Python of a folder imports."""
    for path in sorted(it for it in (ROOT / folder).rglob("*") if it.is_file() and "__pycache__" not in it.parts):
        source = path.read_text(encoding="utf-8")
        if path.suffix == ".py" or source.startswith("#!/usr/bin/env python3"):
            for it in ast.walk(ast.parse(source)):
                if isinstance(it, ast.Import):
                    yield from (name.name for name in it.names)
                elif isinstance(it, ast.ImportFrom) and it.module:
                    yield it.module


def test_it_depends_on_what_is_imported(made: Unpacked) -> None:
    tops = {it.split(".")[0] for folder in ("tools", "desk") for it in modules(folder)}
    used = tops - OWN - WITH_FLASK - set(sys.stdlib_module_names)
    fields = made.fields()
    named = set(re.findall(r"python3-\w+", f"{fields['Depends']} {fields['Recommends']}"))
    assert named == {PACKAGES.get(it, it) for it in used}
    assert re.search(r"libc6 \(>= 2\.\d+\)", fields["Depends"])


@pytest.mark.parametrize("name", sorted(it.name for it in (ROOT / "share").glob("*@.*")))
def test_unit_names_what_is_installed(name: str, made: Unpacked) -> None:
    text = (made.tree / "lib/systemd/system" / name).read_text(encoding="utf-8")
    assert "/usr/local" not in text and "useradd" not in text and "/etc/systemd" not in text
    assert all((made.tree / it).exists() for it in re.findall(r"^Exec\w+=/(usr/bin/\S+)", text, re.M))


def test_documents_are_whole(made: Unpacked) -> None:
    """Each link of one leads to a file, and there are the samples for servers and the site."""
    folder = made.tree / DOCUMENTS
    lacking = [
        f"{page.relative_to(folder)}: {it}"
        for page in folder.rglob("*.md")
        for it in re.findall(r"\]\(([^)#:\s]+)(?:#[^)]*)?\)", page.read_text(encoding="utf-8"))
        if not (page.parent / it).exists()
    ]
    wanted = (
        "share/nginx-desk.conf",
        "share/Containerfile",
        "sample-site/en/5.html",
        "copyright",
        "examples/first.jsonl",
    )
    assert lacking == [] == [it for it in wanted if not (folder / it).exists()]


def test_scripts_delete_no_store_and_ask_nothing(made: Unpacked) -> None:
    for name in ("postinst", "prerm", "postrm"):
        script = made.control(name)
        assert not subprocess.run(["sh", "-n"], input=script, text=True, check=False).returncode
        assert not re.search(r"\brm -|\bread\b|db_input|deluser|userdel", script), name
    assert "rmdir --ignore-fail-on-non-empty" in made.control("postrm")


@pytest.mark.needs("lintian")
def test_lintian_finds_no_error(made: Unpacked) -> None:
    ran = subprocess.run(
        ["lintian", "--allow-root", "--fail-on", "error", made.package], capture_output=True, text=True, check=False
    )
    assert not ran.returncode, ran.stdout


# --- from where it is unpacked ---


def call(made: Unpacked, *words: str) -> subprocess.Popen[str]:
    """Starts a command of the unpacked tree, which finds others there."""
    environment = {"PATH": f"{made.tree}/usr/bin:/usr/bin:/bin", "PYTHONDONTWRITEBYTECODE": "1"}
    line = [str(made.tree / "usr/bin" / words[0]), *words[1:]]
    return subprocess.Popen(line, stdin=subprocess.PIPE, stdout=subprocess.PIPE, text=True, env=environment)


def test_first_script_is_answered(made: Unpacked) -> None:
    script = (made.tree / DOCUMENTS / "examples/first.jsonl").read_text(encoding="utf-8")
    answers, _ = call(made, "thesaurus", "script").communicate(script)
    assert answers.splitlines()[-1] == '{"accepted":1,"standing":1,"withdrawn":0}'


@pytest.mark.parametrize("name", sorted(TOOLS))
def test_tool_has_help(name: str, made: Unpacked) -> None:
    said, _ = call(made, f"thesaurus-{name}", "--help").communicate()
    assert said.startswith("usage: ")


@pytest.mark.needs("flask", "waitress", "babel")
def test_sample_is_shown(made: Unpacked) -> None:
    with call(made, "thesaurus-desk", "--sample", "--no-browser") as desk:
        assert desk.stdout
        address = desk.stdout.readline().split()[-1]
        opener = build_opener(HTTPCookieProcessor(CookieJar()))
        opener.open(address).read()
        page = opener.open(re.sub("/enter.*", "/tree", address)).read().decode()
        desk.terminate()
    assert "Keyboard instruments" in page


# --- proved ---


def test_package_of_a_commit_is_of_what_was_proved(tmp_path: Path) -> None:
    """With a stand-in for the prover; two packages of a commit have the same bytes."""
    it = Repository(tmp_path)
    it.make()
    packages = []
    for out in ("one", "other"):
        words = [str(it.clone / "dev" / "package"), "--out", str(tmp_path / out)]
        subprocess.run(words, env=it.environment, capture_output=True, text=True, check=True)
        packages.append(tmp_path / out / f"thesaurus_{version()}_amd64.deb")
    assert packages[0].read_bytes() == packages[1].read_bytes()
    output_of("dpkg-deb", "--extract", packages[0], tmp_path / "tree")
    proved = (tmp_path / "tree/usr/lib/thesaurus/PROVED").read_text(encoding="utf-8")
    assert "thes_core proved\n" in proved and "3 passed, 0 failed\n" in proved
    assert "The program is proved to do this" in output_of("dpkg-deb", "--field", packages[0], "Description")


def test_without_a_prover_there_is_no_package(tmp_path: Path) -> None:
    it = Repository(tmp_path)
    it.make()
    words = [str(it.clone / "dev" / "package"), "--out", str(tmp_path / "out")]
    environment = {**it.environment, "PATH": WITHOUT_RT}
    ran = subprocess.run(words, env=environment, capture_output=True, text=True, check=False)
    assert ran.returncode == 127 and "without rt" in ran.stderr and not (tmp_path / "out").exists()


def test_containerfile_installs_the_package_and_says_that_it_is_not_tried() -> None:
    text = (ROOT / "share" / "Containerfile").read_text(encoding="utf-8")
    assert "No container engine has built this file here" in text
    assert re.search(r"^COPY thesaurus_\*_amd64\.deb ", text, re.M)
    unit = (ROOT / "share" / "thesaurus-desk@.service").read_text(encoding="utf-8")
    options = set(re.findall(r"--[a-z-]+", re.findall(r"^CMD .*", text, re.M)[0]))
    assert options <= set(re.findall(r"--[a-z-]+", re.findall(r"^ExecStart=.*", unit, re.M)[0]))
