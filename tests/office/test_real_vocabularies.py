"""Tests tools/from-skos and tools/load on vocabularies that others have made, also with faults put in."""
from __future__ import annotations

import re
import subprocess
from pathlib import Path

import pytest
from office import tool
from program import built
from real_vocabularies import CODES, NOUNS, VOCABULARIES, with_faults

pytestmark = pytest.mark.skipif(
    not (CODES.is_dir() and NOUNS.is_file()), reason="skipped without iso-codes and wordnet-base"
)
WORDS = ("--lang", "en", "--qualify", "parent", "--hidden-codes", "zxx", "--as-scope", "definition", "--texts", "cut")


def totals(path: Path) -> dict[str, int]:
    """Returns how much a store has."""
    said = subprocess.run([built(), "--db", str(path), "check"], capture_output=True, check=True).stdout.decode()
    return {name: int(count) for name, count in re.findall(r"(\w+)=(\d+)", said)}


def load(path: Path, script: bytes) -> None:
    """Loads a script, of which nothing may be refused."""
    words = ("--db", path, "--journal", path.with_suffix(".journal"), "--program", built(), "-")
    ended = tool("load", *words, given=script)
    assert ended.status == 0, ended.err[-500:]


@pytest.mark.parametrize("name", VOCABULARIES)
def test_a_vocabulary_of_others(name: str, tmp_path: Path) -> None:
    """What isn't reported is in the store, and what the export says of it is what was read."""
    file = tmp_path / f"{name}.nt"
    lines = VOCABULARIES[name]().lines
    file.write_text("\n".join(lines) + "\n", encoding="utf-8")
    ended = tool("from-skos", file, *WORDS, "--drop")
    assert ended.status == 0 and b"Traceback" not in ended.err, ended.err[-500:]
    load(tmp_path / "store.db", ended.out)
    concepts = sum("core#Concept>" in it for it in lines)
    left_out = tool("from-skos", file, *WORDS, "--drop", "--all").err.count(b"the concept is left out")
    assert totals(tmp_path / "store.db")["resources"] == concepts - left_out + 1
    export = tmp_path / "export.nt"
    words = [built(), "--db", str(tmp_path / "store.db"), "export"]
    export.write_bytes(subprocess.run(words, capture_output=True, check=True).stdout)
    assert tool("check-skos", export).status == 0


@pytest.mark.parametrize("name", VOCABULARIES)
def test_with_faults(name: str, tmp_path: Path) -> None:
    """Each fault is reported, and what is left loads."""
    file = tmp_path / f"{name}.nt"
    file.write_text("\n".join(with_faults(VOCABULARIES[name]())) + "\n", encoding="utf-8")
    refused = tool("from-skos", file, *WORDS)
    assert (refused.status, refused.out) == (1, b"")
    ended = tool("from-skos", file, *WORDS, "--drop", "--all")
    for rule in (b"Cycle: ", b"S14: ", b"SameResource: "):
        assert rule in ended.err, (rule, ended.err[-300:])
    load(tmp_path / "store.db", ended.out)


def test_out_and_in_again(tmp_path: Path) -> None:
    """Store, out, in, out: the same, but for the numbers, and the codes that are new."""
    first = tmp_path / "first.nt"
    first.write_text("\n".join(VOCABULARIES["currencies"]().lines) + "\n", encoding="utf-8")
    load(tmp_path / "one.db", tool("from-skos", first, "--lang", "en", "--drop").out)
    written = [tmp_path / f"{it}.ttl" for it in ("one", "two")]
    for db, path in zip(("one.db", "two.db"), written):
        if db == "two.db":
            load(tmp_path / db, tool("from-skos", written[0], "--lang", "en", "--drop").out)
        ended = tool("to-rdf", "--db", tmp_path / db, "--program", built(), "-o", path)
        assert ended.status == 0, ended.err
    texts = [sorted(re.findall(r'"[^"]*"@\w+', it.read_text(encoding="utf-8"))) for it in written]
    assert texts[0] == texts[1] and len(texts[0]) > 150
