"""What the tests of the tools share: running a tool, scripts with names, and stores and exports made of the plain
program's state."""
from __future__ import annotations

import contextlib
import json
import os
import shutil
import sqlite3
import subprocess
import sys
import tempfile
from collections.abc import Iterable, Iterator, Mapping
from pathlib import Path
from typing import Any

from dice import Requests
from plain import BASE, BROADER, Plain
from plain_store import COLUMNS, LIMITS, rows_of
from program import ROOT, Ended, Use, built, measured

TOOLS: Any = ROOT / "tools"
Request = dict[str, Any]
SKOS = "http://www.w3.org/2004/02/skos/core#"
TYPE = "http://www.w3.org/1999/02/22-rdf-syntax-ns#type"
DEPRECATED = "http://www.w3.org/2002/07/owl#deprecated"
REPLACED = "http://purl.org/dc/terms/isReplacedBy"
TRUE = '"true"^^<http://www.w3.org/2001/XMLSchema#boolean>'
CLASSES = {"scheme": "ConceptScheme", "concept": "Concept", "collection": "Collection"}
LABELS = {"pref": "prefLabel", "alt": "altLabel", "hidden": "hiddenLabel", "scope": "scopeNote"}
BOTH_WAYS = {"related": "related", "exact": "exactMatch", "close": "closeMatch", "relMatch": "relatedMatch"}
ONE_WAY = {"broad": "broadMatch", "narrow": "narrowMatch", "member": "member"}


def tool(
    name: str, *words: object, given: bytes | None = None, program_in: Path | None = None, cwd: Path | None = None
) -> Ended:
    """Runs a tool with these words and this standard input, in a folder, and returns how it ended. It finds the program
    in a folder, if one is given."""
    environment = {**os.environ, "PATH": f"{program_in}:{os.environ['PATH']}"} if program_in else None
    call = [TOOLS / name, *map(str, words)]
    ran = subprocess.run(call, input=given, capture_output=True, check=False, env=environment, cwd=cwd)
    return Ended(ran.returncode, ran.stdout, ran.stderr)


def tool_with_use(name: str, *words: object) -> tuple[Ended, Use]:
    """Runs a tool with these words, and returns how it ended and what it took."""
    with tempfile.TemporaryFile() as out, tempfile.TemporaryFile() as err:
        call = [str(TOOLS / name), *map(str, words)]
        status, use = measured(call, stdin=subprocess.DEVNULL, stdout=out, stderr=err)
        for it in (out, err):
            it.seek(0)
        return Ended(status, out.read(), err.read()), use


def python_with_rdflib() -> str | None:
    """An interpreter that has rdflib: this one, or the system's; None if neither has it."""
    for python in (sys.executable, "/usr/bin/python3"):
        if (
            shutil.which(python)
            and subprocess.run([python, "-c", "import rdflib"], capture_output=True, check=False).returncode == 0
        ):
            return python
    return None


# --- scripts with names ---


def resolve(request: Request, names: Mapping[str, int]) -> tuple[Request, str | None]:
    """A request with the numbers of its names, and the name of what it makes."""

    def number(value: Any) -> Any:
        return names[value[1:]] if isinstance(value, str) and value.startswith("$") else value

    texts = ("text", "record", "key", "iri", "tag")
    return {
        key: value if key in texts else number(value) for key, value in request.items() if key != "as"
    }, request.get("as")


def perform(plain: Plain, script: str) -> tuple[Plain, dict[str, int], list[tuple[str, str]]]:
    """The state after the lines of a script with names, the names, and the refusals."""
    names: dict[str, int] = {}
    refused: list[tuple[str, str]] = []
    for line in script.splitlines():
        request, name = resolve(json.loads(line), names)
        plain, answer = plain.perform(request)
        if "no" in answer:
            refused.append((answer["no"], line))
        if name and "ok" in answer:
            names[name] = answer["ok"]
    return plain, names, refused


def perform_all(plain: Plain, requests: Iterable[Request]) -> Plain:
    """The state after requests, none of which may be refused."""
    for request in requests:
        plain, answer = plain.perform(request)
        assert "no" not in answer, (request, answer)
    return plain


def load(path: Path, script: str) -> list[tuple[Any, Any]]:
    """Has the program perform the lines of a script with names, and returns what it refuses, but for outside concepts
    that are known."""
    names: dict[str, Any] = {}
    refused: list[tuple[Any, Any]] = []
    status = 0
    with subprocess.Popen([built(), "--db", path, "script"], stdin=subprocess.PIPE, stdout=subprocess.PIPE) as program:
        assert program.stdin and program.stdout
        for line in script.splitlines():
            request, name = resolve(json.loads(line), names)
            program.stdin.write(json.dumps(request).encode() + b"\n")
            program.stdin.flush()
            answer = json.loads(program.stdout.readline())
            status |= "no" in answer
            answer = {"ok": answer["number"]} if answer.get("no") == "OutsideKnown" else answer
            refused += [(answer, line)] if set(answer) & {"no", "bad", "fault"} else []
            names[name or ""] = answer.get("ok")
        program.stdin.close()
        return refused + ([("status", program.returncode)] if program.wait() != status else [])


# --- the plain program's state ---


def generated(seed: int, count: int, plain: Plain | None = None) -> tuple[list[Request], Plain]:
    """The requests that a seed throws, and the state after them, from an empty one on or from another."""
    dice, state = Requests(seed), plain or Plain(LIMITS)
    requests: list[Request] = []
    while len(requests) < count:
        request = dice.request(state)
        if "do" in request:
            state, _ = state.perform(request)
            requests.append(request)
    return requests, state


def write_store(path: Path, plain: Plain, base: str = BASE) -> None:
    """Writes the tables of a store that holds this state, as SQLite itself writes them."""
    path.unlink(missing_ok=True)
    with contextlib.closing(sqlite3.connect(path)) as tables:
        for name, columns in COLUMNS.items():
            tables.execute(f"CREATE TABLE {name} ({', '.join(columns)})")
        for name, rows in rows_of(plain, base).items():
            tables.executemany(f"INSERT INTO {name} VALUES ({', '.join('?' * len(COLUMNS[name]))})", rows)
        tables.commit()


def triples_of(plain: Plain, base: str = BASE) -> Iterator[tuple[str, str, str]]:
    """The triples that a state states, each as three texts."""

    def iri(n: int) -> str:
        return f"<{plain.resources[n - 1]['iri'] or f'{base}{n}'}>"

    def skos(name: str) -> str:
        return f"<{SKOS}{name}>"

    for n, it in enumerate(plain.resources, 1):
        if it["kind"] != "outside":
            yield iri(n), f"<{TYPE}>", skos(CLASSES[it["kind"]])
        if it["scheme"]:
            yield iri(n), skos("inScheme"), iri(it["scheme"])
        if it["kind"] == "concept" and it["live"] and not any(kind in BROADER and a == n for kind, a, _ in plain.links):
            yield iri(n), skos("topConceptOf"), iri(it["scheme"])
            yield iri(it["scheme"]), skos("hasTopConcept"), iri(n)
        if not it["live"]:
            yield iri(n), f"<{DEPRECATED}>", TRUE
        if it["replaced"]:
            yield iri(n), f"<{REPLACED}>", iri(it["replaced"])
    for owner, kind, tag, text in plain.labels:
        escaped = text.replace("\\", "\\\\").replace('"', '\\"')
        yield iri(owner), skos(LABELS[kind]), f'"{escaped}"@{tag}'
    for kind, a, b in plain.links:
        if kind in BROADER:
            yield iri(a), skos("broader"), iri(b)
            yield iri(b), skos("narrower"), iri(a)
        else:
            name = BOTH_WAYS.get(kind) or ONE_WAY[kind]
            yield iri(a), skos(name), iri(b)
            if kind in BOTH_WAYS and plain.kind(b) == "concept":
                yield iri(b), skos(name), iri(a)


def export_of(plain: Plain, base: str = BASE) -> bytes:
    """The export of a state, made without the program."""
    return b"".join(sorted({f"{' '.join(it)} .\n".encode() for it in triples_of(plain, base)}))
