"""tools/publish behind nginx with the file of share/, for real: what it passes on, and what it bounds."""
from __future__ import annotations

import subprocess
from collections.abc import Iterator
from concurrent.futures import ThreadPoolExecutor
from pathlib import Path

import pytest
from fronted_desk import ROOT
from fronting import HOST, Site, make_secrets, nginx_of, temporary

pytestmark = [pytest.mark.needs("nginx", "openssl"), pytest.mark.timeout(900)]


def configuration(site: Site) -> str:
    """Returns the file of share/ with the places of this test, in a configuration of nginx."""
    text = (ROOT / "share" / "nginx-publish.conf").read_text(encoding="utf-8")
    places = {
        "publish.example": HOST,
        "127.0.0.1:8081": f"127.0.0.1:{site.upstream}",
        "listen 443": f"listen 127.0.0.1:{site.tls}",
        "listen 80": f"listen 127.0.0.1:{site.plain}",
        "/etc/thesaurus/": f"{site.room}/",
    }
    for old, new in places.items():
        assert old in text, old
        text = text.replace(old, new)
    head = f"user root;\ndaemon off;\npid {site.room}/nginx.pid;\nerror_log {site.room}/error.log;\nevents {{}}\n"
    return f"{head}http {{\naccess_log off;\n{temporary(site.room)}{text}}}\n"


@pytest.fixture(scope="module")
def site(program: str, instruments_store: Path, tmp_path_factory: pytest.TempPathFactory) -> Iterator[Site]:
    """nginx in front of the published export of the sample."""
    room = tmp_path_factory.mktemp("publish")
    words = [program, "--db", str(instruments_store), "export"]
    (room / "museum.nt").write_bytes(subprocess.run(words, capture_output=True, check=True).stdout)
    make_secrets(room)
    call = [str(ROOT / "tools" / "publish"), str(room / "museum.nt"), "--port", "0", "--secure"]
    with subprocess.Popen(call, stdout=subprocess.PIPE, text=True) as publish:
        try:
            assert publish.stdout
            port = int(publish.stdout.readline().rpartition(":")[2])
            found = Site(room, port, HOST)
            with nginx_of(found, configuration(found)):
                yield found
        finally:
            publish.kill()


def test_what_is_passed_on(site: Site) -> None:
    status, data, fields = site.ask("GET", "/id/5", Accept="text/turtle;charset=utf-8")
    assert status == 200 and b"Violins" in data and fields["Content-Type"].startswith("text/turtle")
    assert fields["Access-Control-Allow-Origin"] == "*" and "nginx/" not in fields.get("Server", "")
    assert f"https://{HOST}/reconcile/preview".encode() in site.ask("GET", "/reconcile")[1]
    assert site.ask("GET", "/export.nt")[0] == 200 and site.ask("GET", "/rest/v1/vocabularies")[0] == 200
    assert b"<repositoryName>" in site.ask("GET", "/oai?verb=Identify")[1]
    assert site.ask("GET", "/login")[0] == 404 and site.ask_plainly("/id/5", HOST)[0] == 301


def test_many_at_once_are_told_to_wait(site: Site) -> None:
    with ThreadPoolExecutor(24) as threads:
        statuses = set(threads.map(lambda _: site.ask("GET", "/export.nt")[0], range(240)))
    assert 429 in statuses and statuses <= {200, 429, 503}
