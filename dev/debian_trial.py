"""A package in a bare Debian: installed over an earlier version, its program and its desk asked, and removed again."""
from __future__ import annotations

import contextlib
import os
import re
import shutil
import subprocess
import time
from collections.abc import Iterator
from pathlib import Path

from thesaurus_tools.command_line import REFUSED, USAGE, ToolError

NAME = "thesaurus"
DEBIAN = "bookworm"
PORT = "8090"
HOST = "desk.example"
STORE = Path("var/lib") / NAME / "museum.db"
# Says what a command needs that runs in another root: no service is started there.
POLICY = "#!/bin/sh\nexit 101\n"
FIRST = f"{NAME} script < /usr/share/doc/{NAME}/examples/first.jsonl"
MERGED = '{"accepted":1,"standing":1,"withdrawn":0}'
# What the unit's comments have an office do, for one store and one user.
PREPARE = f"""
umask 077
openssl_free=$(od -An -N24 -tx1 /dev/urandom | tr -d ' \\n')
printf '%s' "$openssl_free" > /etc/{NAME}/desk-secret
runuser -u {NAME} -- {NAME} --db /{STORE} --base https://museum.example/id/ script \\
    < /usr/lib/{NAME}/examples/instruments.jsonl > /dev/null
echo 'correct horse battery' |
    runuser -u {NAME} -- {NAME}-desk user add anna --role head --users /var/lib/{NAME}/museum-users.json
install -m 0644 /etc/{NAME}/desk-secret /run/proxy
"""
ASK = f"""
import sys, urllib.request
headers = {{"Host": "{HOST}", "X-Desk-Proxy": open("/run/proxy").read(), "X-Real-IP": "192.0.2.1"}}
page = urllib.request.urlopen(urllib.request.Request("http://127.0.0.1:{PORT}/login", headers=headers), timeout=60)
sys.exit(b"<form" not in page.read())
"""
SAMPLE = f"""
import re, subprocess, sys, urllib.request
words = ["{NAME}-desk", "--sample", "--no-browser"]
with subprocess.Popen(words, stdout=subprocess.PIPE, text=True) as desk:
    address = desk.stdout.readline().split()[1]
    browser = urllib.request.build_opener(urllib.request.HTTPCookieProcessor())
    browser.open(address).read()
    page = browser.open(re.sub("/enter.*", "/tree", address)).read()
    desk.terminate()
sys.exit(b"Keyboard instruments" not in page)
"""


def run(*words: str | Path, given: str = "", root: Path | None = None) -> str:
    """Runs a command, in another root if there is one, and returns what it printed. Raises ToolError if it fails."""
    line = [*(["chroot", str(root)] if root else []), *map(str, words)]
    environment = {**os.environ, "LC_ALL": "C.UTF-8", "DEBIAN_FRONTEND": "noninteractive"}
    environment.pop("PYTHONPATH", None)
    ran = subprocess.run(line, input=given, capture_output=True, text=True, check=False, env=environment)
    if ran.returncode:
        said = f"{ran.stdout}{ran.stderr}".strip()[-2000:]
        raise ToolError(f"{' '.join(map(str, words))[:200]}: status {ran.returncode}: {said}", REFUSED)
    return ran.stdout


def mirror() -> list[str]:
    """Returns the address from which this machine has Debian's packages, if its apt says it."""
    words = ["apt-get", "indextargets", "--format", "$(SITE)", "Identifier: Packages", f"Codename: {DEBIAN}"]
    return subprocess.run(words, capture_output=True, text=True, check=False).stdout.split()[:1]


@contextlib.contextmanager
def bare_debian(room: Path) -> Iterator[Path]:
    """Makes a bare Debian in a folder, with what this machine's apt is told, for the time of the block."""
    root = room / "debian"
    run("debootstrap", "--variant=minbase", DEBIAN, root, *mirror())
    settings = root / "etc/apt/apt.conf.d/90of-this-machine"
    settings.write_text(run("apt-config", "dump", "Acquire"), encoding="utf-8")
    (root / "usr/sbin/policy-rc.d").write_text(POLICY, encoding="utf-8")
    (root / "usr/sbin/policy-rc.d").chmod(0o755)
    shutil.copyfile("/etc/resolv.conf", root / "etc/resolv.conf")
    run("mount", "-t", "proc", "proc", root / "proc")
    try:
        yield root
    finally:
        run("umount", "--lazy", root / "proc")


def earlier(package: Path, room: Path) -> Path:
    """Makes a package of an earlier version, with one file more."""
    tree, path = room / "earlier", room / f"{NAME}_0.1_amd64.deb"
    run("dpkg-deb", "--raw-extract", package, tree)
    control = tree / "DEBIAN" / "control"
    control.write_text(re.sub(r"(?m)^Version: .*", "Version: 0.1", control.read_text()), encoding="utf-8")
    (tree / "usr/lib" / NAME / "of-before").touch()
    run("dpkg-deb", "--root-owner-group", "-Znone", "--build", tree, path)
    return path


def install(package: Path, root: Path) -> None:
    """Installs a package as its users do."""
    shutil.copyfile(package, root / "root" / package.name)
    run("apt-get", "install", "-y", "--no-install-recommends", f"/root/{package.name}", root=root)


def command_of_unit(root: Path) -> str:
    """Returns the command line of the desk's unit, for the store and the port of the trial."""
    unit = (root / f"lib/systemd/system/{NAME}-desk@.service").read_text(encoding="utf-8")
    (line,) = re.findall(r"^ExecStart=(.*)$", unit, re.M)
    places = {"%i": "museum", "${PORT}": PORT, "${HOST}": HOST, "${CREDENTIALS_DIRECTORY}": "/run", "$OPTIONS": ""}
    for name, value in places.items():
        line = line.replace(name, value)
    return str(line)


def ask_desk(root: Path) -> None:
    """Starts the desk by its unit's command line, and fetches a page. Raises ToolError if none comes."""
    words = ["chroot", str(root), "runuser", "-u", NAME, "--", "sh", "-c", f"exec {command_of_unit(root)}"]
    with subprocess.Popen(words, stdout=subprocess.PIPE, stderr=subprocess.STDOUT, text=True) as desk:
        assert desk.stdout
        try:
            said = desk.stdout.readline()
            if not said.startswith("desk: http://"):
                raise ToolError(f"the desk says {said!r}", REFUSED)
            run("python3", "-c", ASK, root=root)
        finally:
            desk.terminate()


def assert_that(is_so: object, what: str) -> None:
    """Raises ToolError unless something is so."""
    if not is_so:
        raise ToolError(f"not so: {what}", REFUSED)


def is_answered(root: Path) -> None:
    """Has the program answer its first script."""
    assert_that(run("sh", "-c", FIRST, root=root).endswith(f"{MERGED}\n"), "first.jsonl is answered")


def is_prepared(root: Path) -> None:
    """Makes a store and a user as the unit's comments say."""
    run("sh", "-euc", PREPARE, root=root)


def is_upgraded(root: Path) -> None:
    """Checks that nothing of the version before is left, and that the store is."""
    assert_that(not (root / "usr/lib" / NAME / "of-before").exists(), "a file of the version before is gone")
    run("runuser", "-u", NAME, "--", NAME, "--db", f"/{STORE}", "--existing", "check", root=root)


def sample_is_shown(root: Path) -> None:
    """Opens the sample."""
    run("python3", "-c", SAMPLE, root=root)


def is_removed(root: Path) -> None:
    """Removes the package, and checks that its files are gone, and the store is there."""
    run("apt-get", "purge", "-y", NAME, root=root)
    places = ("usr/bin", "usr/lib", "usr/share/doc", "lib/systemd/system")
    left = [path for place in places for path in (root / place).glob(f"{NAME}*")]
    assert_that(not left, f"nothing of it is left: {left}")
    assert_that((root / STORE).stat().st_size > 0, "the store is there")


def try_package(package: Path, room: Path) -> None:
    """Tries a package in a bare Debian, and prints each step with its seconds. Raises ToolError if one fails."""
    if os.geteuid() or not shutil.which("debootstrap"):
        raise ToolError("--try needs root's rights, and debootstrap", USAGE)
    begun = time.monotonic()

    def note(what: str) -> None:
        print(f"{time.monotonic() - begun:6.0f} s  {what}", flush=True)

    before = earlier(package, room)
    with bare_debian(room) as root:
        note("a bare Debian is there")
        install(before, root)
        note("an earlier version is installed")
        is_prepared(root)
        install(package, root)
        is_upgraded(root)
        note("this version is installed over it; the store is as it was")
        is_answered(root)
        ask_desk(root)
        sample_is_shown(root)
        note("first.jsonl is answered; the desk of the unit and that of the sample have shown a page")
        is_removed(root)
        note("it is removed, and the store is still there")
