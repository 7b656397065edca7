"""A vocabulary of another publisher: its dump, and how it is loaded beside a store."""
from __future__ import annotations

import subprocess
from pathlib import Path

from thesaurus_tools.ntriples import DCTERMS, OWL, SKOS

ROOT = Path(__file__).resolve().parents[2]
BASE = "http://vocab.example/"


def iri(name: str) -> str:
    return f"{BASE}{name}"


def triple(subject: str, predicate: str, value: str) -> str:
    """A line of N-Triples; a value in quotation marks is a literal."""
    return f"<{iri(subject)}> <{predicate}> {value if value.startswith(chr(34)) else f'<{iri(value)}>'} .\n"


def pref(name: str, text: str, tag: str = "en") -> str:
    return triple(name, f"{SKOS}prefLabel", f'"{text}"@{tag}')


def alt(name: str, text: str, tag: str = "en") -> str:
    return triple(name, f"{SKOS}altLabel", f'"{text}"@{tag}')


def broader(name: str, above: str) -> str:
    return triple(name, f"{SKOS}broader", above)


def deprecated(name: str, by: str = "") -> str:
    end = triple(name, f"{OWL}deprecated", '"true"')
    return end + (triple(name, f"{DCTERMS}isReplacedBy", by) if by else "")


def run_load(store: Path, *words: str | Path) -> subprocess.CompletedProcess[str]:
    """Runs the tool."""
    command = [ROOT / "tools" / "load-vocabulary", *words, "--db", store]
    return subprocess.run(command, capture_output=True, text=True, check=False)


def load(store: Path, text: str, name: str = "VOC", file: str = "dump.nt") -> str:
    """Loads a dump beside a store, and returns what the tool says."""
    path = store.parent / file
    path.write_text(text, encoding="utf-8")
    ran = run_load(store, path, "--name", name)
    assert ran.returncode == 0, ran.stderr
    return ran.stderr
