"""The addresses of the desk's scripts and style sheets change with what is in them."""
from __future__ import annotations

import hashlib
import re
import shutil
from pathlib import Path

import pytest
import thesaurus_desk
from clients import Site
from thesaurus_desk.web.static_files import addresses_of

FOLDER = Path(thesaurus_desk.__file__).parent / "web" / "static"
ADDRESS = re.compile(r'(?:src|href)="(/static/[^"]*)"')


@pytest.mark.parametrize("path", ["/", "/az", "/c/5", "/print/1", "/bring-in", "/login", "/nothing"])
def test_each_file_of_a_page_has_the_sum_of_its_content(site: Site, path: str) -> None:
    client = site.client("anna")
    found = ADDRESS.findall(client.get(path).text)
    assert len(found) >= 7
    for address in found:
        answer = client.get(address)
        assert answer.status_code == 200 and address.endswith(f"?v={hashlib.sha256(answer.data).hexdigest()[:8]}")


def test_a_changed_file_has_another_address(tmp_path: Path) -> None:
    before = addresses_of(FOLDER)
    assert set(before) == {it.name for it in FOLDER.iterdir()}
    changed = shutil.copytree(FOLDER, tmp_path / "static")
    (changed / "keys.js").write_text("// another script", encoding="utf-8")
    after = addresses_of(changed)
    assert {it for it in before if before[it] != after[it]} == {"keys.js"}
