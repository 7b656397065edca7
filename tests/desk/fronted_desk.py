"""An nginx of a test in front of a desk, with the file of share/, its places changed to those of the test."""
from __future__ import annotations

import contextlib
from collections.abc import Iterator
from pathlib import Path

from fronting import HOST, Site, make_secrets, nginx_of, temporary
from ports import free_port

ROOT = Path(__file__).resolve().parents[2]
CONFIGURATION = ROOT / "share" / "nginx-desk.conf"
SECRET = "0123456789abcdef0123456789abcdef"
# Who says that this server asks who people are, in a configuration in which it does.
NOBODY = 'set              $desk_user "";              # CHANGE: $remote_user, with auth_basic'
ASKING = 'auth_basic "Desk"; auth_basic_user_file {room}/readers; set $desk_user $remote_user;'


def configuration(site: Site, asks: bool) -> str:
    """Returns the file of share/ with the places of this test, in a configuration of nginx."""
    text = CONFIGURATION.read_text(encoding="utf-8")
    places = {
        "desk.example": HOST,
        "127.0.0.1:8090": f"127.0.0.1:{site.upstream}",
        "listen 443": f"listen 127.0.0.1:{site.tls}",
        "listen 80": f"listen 127.0.0.1:{site.plain}",
        "/etc/thesaurus/": f"{site.room}/",
    }
    if asks:
        places[NOBODY] = ASKING.format(room=site.room)
    for old, new in places.items():
        assert old in text, old
        text = text.replace(old, new)
    # (without root's rights nginx ignores `user`)
    head = f"user root;\ndaemon off;\npid {site.room}/nginx.pid;\nerror_log {site.room}/error.log;\nevents {{}}\n"
    return f"{head}http {{\naccess_log off;\n{temporary(site.room)}{text}}}\n"


@contextlib.contextmanager
def fronted_desk(room: Path, upstream: int, asks: bool = False) -> Iterator[Site]:
    """Runs nginx in front of a desk; `asks` has it ask who people are."""
    make_secrets(room)
    (room / "desk-secret.conf").write_text(f"proxy_set_header X-Desk-Proxy {SECRET};\n", encoding="utf-8")
    site = Site(room, upstream, HOST)
    with nginx_of(site, configuration(site, asks)):
        yield site


def secret_file(room: Path) -> Path:
    """Writes the secret as the desk reads it."""
    path = room / "desk-secret"
    path.write_text(f"{SECRET}\n", encoding="utf-8")
    return path


__all__ = ["HOST", "Site", "free_port", "fronted_desk", "secret_file"]
