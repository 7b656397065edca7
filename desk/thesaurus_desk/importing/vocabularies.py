"""Vocabularies in SKOS: converted, tried on a copy of the store, and brought in."""
from __future__ import annotations

import hashlib
import json
import subprocess
import sys
import tempfile
from collections.abc import Sequence
from dataclasses import dataclass, field
from pathlib import Path
from typing import Any

from thesaurus_desk.importing.request_series import RequestSeries
from thesaurus_desk.importing.skos_reports import Findings, refused_by_rules
from thesaurus_desk.importing.tables import TableRun
from thesaurus_desk.journal import Batch
from thesaurus_desk.journal.batches import pack
from thesaurus_desk.store.plan_execution import Desk, Outcome
from thesaurus_tools.conversion import ReportRow, read_report_row
from thesaurus_tools.parse_places import place_of_text
from thesaurus_tools.rdf_files import FORMATS, PACKED, form_of
from thesaurus_tools.requests import encode
from thesaurus_tools.table_plans import TableOptions

TOOLS = Path(__file__).resolve().parents[3] / "tools"
# The seconds that a conversion may take, and the lines of its report that are shown.
LONGEST, SHOWN = 120, 200
# How the names of files end that are read, as a page lists them.
ENDS = (*FORMATS, PACKED)


class SkosError(Exception):
    """Why a file isn't read as a vocabulary: the key of its text, its values, and what the converter said, or what it
    found."""

    def __init__(self, key: str, said: str = "", report: Sequence[ReportRow] = (), **values: object) -> None:
        super().__init__(f"{key} {said}")
        # (where the file is wrong is said in the reader's language, and why in the parser's)
        self.place = place_of_text(str(values.get("name", "")), said)
        self.key, self.said, self.report, self.values = key, self.place.reason, report, values


@dataclass
class SkosOptions:
    """How a vocabulary is converted."""

    lang: str = ""
    # The name of the scheme for concepts without one.
    scheme: str = ""
    has_old_addresses: bool = False
    adopts: bool = False
    trims: bool = False
    # Whether concepts with one term get their broader terms in parentheses, and second preferred terms become others.
    qualifies: bool = False
    keeps_second: bool = False

    def words(self) -> list[str]:
        """Returns the words of the converter's command line."""
        return [
            *(["--lang", self.lang] if self.lang else []),
            *(["--scheme", self.scheme] if self.scheme else []),
            *(["--keep-iris"] if self.has_old_addresses else []),
            *(["--adopt"] if self.adopts else []),
            *(["--texts", "trim"] if self.trims else []),
            *(["--qualify", "parent"] if self.qualifies else []),
            *(["--second", "alt"] if self.keeps_second else []),
            "--own",
            "--drop",
        ]


@dataclass
class SkosRun:
    """A vocabulary: its requests, what the converter reported, and what a copy of the store refused of it."""

    name: str
    requests: list[dict[str, Any]]
    report: list[ReportRow]
    refused: list[Findings] = field(default_factory=list)
    # The number of the first scheme that it made, and whether only a part of it was done.
    scheme: int | None = None
    is_cut: bool = False
    # The digest of its bytes, and the file as the journal has it, once a part was performed.
    digest: str = ""
    batch: Batch | None = None


def read_skos(desk: Desk, name: str, data: bytes, options: SkosOptions) -> SkosRun:
    """Converts a vocabulary, and tries it on a copy. Raises SkosError, with the report of a conversion that fails, and
    StoreBusy."""
    run = convert_skos(desk, name, data, options)
    with tempfile.TemporaryDirectory() as folder:
        script = Path(folder, "script.jsonl")
        # (the copy has no values of fields: the converter has checked them)
        script.write_bytes(b"".join(encode(it) for it in run.requests if it["do"] != "set"))
        run.refused = refused_by_rules(try_on_copy(desk, Path(folder), script), str(script))
    return run


def convert_skos(desk: Desk, name: str, data: bytes, options: SkosOptions) -> SkosRun:
    """Converts a vocabulary, with values of the desk's fields. Raises SkosError, with the report of a conversion that
    fails."""
    if not form_of(name):
        raise SkosError("name", name=name, ends=", ".join(ENDS))
    with tempfile.TemporaryDirectory() as folder:
        path = Path(folder, "vocabulary" + "".join(Path(name.lower()).suffixes[-2:]))
        path.write_bytes(data)
        lines = Path(folder, "report.jsonl")
        beside = ("--journal", str(desk.journal.path), "--report", str(lines))
        ran = run_tool("from-skos", str(path), *options.words(), *beside)
        said = [it.removeprefix("from-skos: ") for it in ran.stderr.replace(str(path), name).splitlines()]
        # (a text may have characters at which splitlines() ends a line, as U+2028)
        found = lines.read_text(encoding="utf-8").split("\n") if lines.exists() else []
        report = [read_report_row(json.loads(it)) for it in found if it]
        if ran.returncode and report:
            raise SkosError("nothing_left", report=report, name=name)
        if ran.returncode or not ran.stdout:
            raise SkosError("failed", "\n".join(said[-SHOWN:]), name=name)
        requests = [json.loads(it) for it in ran.stdout.split("\n") if it]
        return SkosRun(name, requests, report, digest=hashlib.sha256(data).hexdigest())


def run_tool(tool: str, *words: str) -> subprocess.CompletedProcess[str]:
    """Runs a tool, at most for some time. Raises SkosError."""
    try:
        return subprocess.run(
            [sys.executable, TOOLS / tool, *words], capture_output=True, encoding="utf-8", timeout=LONGEST, check=False
        )
    except subprocess.TimeoutExpired:
        raise SkosError("slow", seconds=LONGEST, tool=f"tools/{tool}") from None


def try_on_copy(desk: Desk, folder: Path, script: Path) -> list[str]:
    """Returns what a copy of the store refuses of a script. Raises StoreBusy and SkosError."""
    copy = folder / "copy.db"
    desk.copies.copy_to(copy)
    words = ["--db", str(copy), "--program", desk.program.path, *desk.program.options, "--keep-going", str(script)]
    ran = run_tool("load", *words)
    said = ran.stderr.splitlines()
    lines = [it for it in said if it.startswith(str(script))] or (said[-1:] if ran.returncode else [])
    return lines[:SHOWN]


def perform_script(desk: Desk, user: str, run: SkosRun) -> Outcome:
    """Brings a vocabulary in, in plans one after another; the first that isn't done is the last."""
    run.batch = run.batch or Batch(run.name, run.digest, len(run.requests), pack(run.requests))
    names = RequestSeries(desk, user, "skos", batch=run.batch)
    done = number_done(desk, names, run.requests)
    try:
        outcome = names.perform_all(run.requests[done:])
        if outcome.is_done:
            desk.batches.end(run.batch)
    finally:
        desk.batches.left(run.batch)
    first = next((it["as"] for it in run.requests if it["do"] == "scheme"), None)
    run.scheme = names.numbers.get(first) if first else None
    return outcome


def number_done(desk: Desk, names: RequestSeries, requests: Sequence[dict[str, Any]]) -> int:
    """Returns how many requests of a vocabulary were performed before it was cut short, and notes the numbers of what
    they made."""
    steps = desk.batches.done(names.batch) if names.batch else []
    for request, step in zip(requests, steps):
        answer = step.answer or {}
        if "as" in request:
            names.numbers[request["as"]] = answer.get("ok", answer.get("again"))
    if names.batch and names.batch.plan:
        desk.batches.begin(names.batch.plan)
    return len(steps)


def update_of(run: SkosRun, scheme: int, ends_gone: bool) -> TableRun:
    """Returns a vocabulary as the rows by which a thesaurus is brought up to date, before they are looked at."""
    update = TableRun(run.name, ["term", "address"], [], [], TableOptions(scheme=scheme), digest=run.digest)
    update.vocabulary, update.ends_gone = run.requests, ends_gone
    update.report = run.report
    return update


def vocabulary_of(requests: list[dict[str, Any]], batch: Batch) -> SkosRun:
    """Returns a vocabulary that was cut short, of which the rest can be brought in."""
    return SkosRun(batch.name, requests, [], digest=batch.digest, batch=batch)
