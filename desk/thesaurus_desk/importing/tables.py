"""Tables of changes: read, and shown row by row with what each would do."""
from __future__ import annotations

import hashlib
import re
import tempfile
from collections.abc import Callable, Sequence
from dataclasses import asdict, dataclass, field
from functools import partial
from itertools import groupby
from pathlib import Path
from typing import Any

from markupsafe import Markup

from thesaurus_desk.auth.roles import Role
from thesaurus_desk.importing.replacements import REPLACE, replacing
from thesaurus_desk.importing.request_series import LONGEST_PLAN
from thesaurus_desk.importing.row_trial import try_rows
from thesaurus_desk.journal import Batch
from thesaurus_desk.journal.edit_conflicts import is_as_seen
from thesaurus_desk.journal.rights import Rights
from thesaurus_desk.journal.values import Request, Values, source_of, text_of
from thesaurus_desk.journal.values import Value as HeldValue
from thesaurus_desk.store.plan_execution import Desk, Outcome
from thesaurus_desk.store.replica import Replica
from thesaurus_desk.store.run_threads import Report
from thesaurus_desk.words import Words
from thesaurus_tools.concept_finder import RowError
from thesaurus_tools.conversion import ReportRow
from thesaurus_tools.fields import Field, table_fields
from thesaurus_tools.files import TableError
from thesaurus_tools.headings import Column, Fields, find_columns, read_choices
from thesaurus_tools.row_runner import RowPlan, with_others
from thesaurus_tools.skos_update import SkosUpdate, Value, wanted_of
from thesaurus_tools.spreadsheets import Row
from thesaurus_tools.store import Store
from thesaurus_tools.table_plans import TableOptions, plan_table
from thesaurus_tools.table_process import read_apart


@dataclass(frozen=True)
class Importer:
    """Who brings a table in: with which role, who may do what, and how refusals are put into words."""

    name: str
    role: Role
    rights: Rights
    words: Words
    tell: Callable[[Outcome], str]


@dataclass
class TableRun:
    """A table: its columns, and its rows with what they ask for, or why they can't be done."""

    name: str
    heading: list[str]
    columns: list[Column]
    rows: list[Row]
    options: TableOptions
    # The fields of the form that it came by, and its text, if that was typed.
    asked: dict[str, str] = field(default_factory=dict)
    typed: str = ""
    # The digest of its bytes; and the file as the journal has it, once a row was performed.
    digest: str = ""
    batch: Batch | None = None
    plans: list[RowPlan] = field(default_factory=list)
    is_done: bool = False
    # The last plan when the rows were shown.
    last: int = 0
    # The numbers of what rows have made, by the names that the requests give.
    numbers: dict[str, int] = field(default_factory=dict)
    # Of a vocabulary with which a thesaurus is brought up to date: the requests that would make it, whether concepts
    # end that it no longer has, and what is left out of it.
    vocabulary: list[dict[str, Any]] = field(default_factory=list)
    ends_gone: bool = False
    # Of an export: the requests that set all its values, and the fields of an office that no field is any more.
    exported: list[dict[str, Any]] = field(default_factory=list)
    lacking: list[dict[str, Any]] = field(default_factory=list)
    report: list[ReportRow] = field(default_factory=list)

    @property
    def is_exact(self) -> bool:
        """Whether cells of its rows say exactly what concepts are to have."""
        is_change = self.options.kind in ("", "change") and not self.vocabulary
        has_marks = any(it.role == "seen" for it in self.columns)
        return is_change and (has_marks if self.options.exact is None else self.options.exact)

    @property
    def made(self) -> dict[str, str]:
        """The terms and addresses of what rows make, by the references to it."""
        requests = [it for plan in self.plans for it in plan.requests if "as" in it]
        return {f"${it['as']}": str(it.get("text") or it.get("iri", "")) for it in requests}


def safe_ending(name: str) -> str:
    """Returns the ending of a file's name, if it is one of plain letters and digits: it is part of a path."""
    ending = Path(name).suffix.lower()
    return ending if re.fullmatch(r"\.[a-z0-9]{1,8}", ending) else ""


def read_sent_table(
    name: str, data: bytes, columns: str, options: TableOptions, fields: Fields, encoding: str = ""
) -> TableRun:
    """Returns a table, before its rows are looked at. Raises TableError for what is no table, and ColumnsError."""
    with tempfile.TemporaryDirectory() as folder:
        path = Path(folder, f"table{safe_ending(name)}")
        path.write_bytes(data)
        heading, *rows = read_apart(path, encoding)
    # (a text without = would be taken for a file's name)
    choices = read_choices(columns if "=" in columns else f"{columns}=", fields) if columns.strip() else {}
    found = find_columns(heading.cells, options.lang, choices, fields)
    return TableRun(name, heading.cells, found, rows, options, digest=hashlib.sha256(data).hexdigest())


# What a table has that is none, but a vocabulary or an export.
OF_FILES = ("vocabulary", "ends_gone", "exported")


def left_of(run: TableRun) -> dict[str, object]:
    """Returns a table as it is kept until all its rows are done."""
    names = ("name", "heading", "columns", "rows", "asked", "typed", "digest", *OF_FILES)
    return {**{it: getattr(run, it) for it in names}, "options": asdict(run.options)}


def table_of(left: dict[str, Any], batch: Batch) -> TableRun:
    """Returns a table that was cut short, to be looked at again."""
    texts = {it: left[it] for it in ("name", "heading", "asked", "typed", "digest")}
    columns, rows = [Column(*it) for it in left["columns"]], [Row(*it) for it in left["rows"]]
    run = TableRun(**texts, columns=columns, rows=rows, options=TableOptions(**left["options"]), batch=batch)
    for name in OF_FILES:
        setattr(run, name, left.get(name, getattr(run, name)))
    return run


def table_error_in_words(error: TableError, name: str, words: Words) -> str:
    """Returns why a file isn't read as a table in the reader's language."""
    where = words("tables.row", name=name, row=error.line) if error.line else name
    return words(f"tables.{error.key}", where=where, **error.values)


def with_values(replica: Replica, values: Values) -> Store:
    """Returns the store as it is at this moment, with the values of fields."""
    store = replica.as_store()
    store.fields, store.values_of = table_fields(values.fields()), values.by_owner()
    return store


def plan_rows(run: TableRun, replica: Replica, values: Values, bringer: Importer) -> None:
    """Notes what the rows ask for, by the store as it is now, and why some can't be done. Raises NewConceptsError."""
    if run.vocabulary:
        found = plan_update(run, replica.as_store(), values)
    elif run.exported:
        found = plan_exported(run, replica, values)
    elif run.options.kind == REPLACE:
        found = replacing(run.rows, not run.options.forget, replica, values)
    else:
        has_values = any(it.field for it in run.columns)
        store = with_values(replica, values) if has_values else replica.as_store()
        with replica.reading():
            _, found = plan_table(store, run.columns, run.rows, run.options, partial(is_as_seen, replica, values))
    plans = [it._replace(requests=bringer.rights.completed(it.requests, bringer.role)) for it in found]
    run.plans = with_reasons(plans, lambda it: reason_of(it, bringer))


def plan_update(run: TableRun, store: Store, values: Values) -> list[RowPlan]:
    """Returns the rows by which a thesaurus is brought up to date."""

    def values_of(number: int) -> list[Value]:
        return [(name, it.tag, it.member) for name, its in values.of(number).items() for it in its]

    wanted = wanted_of(run.vocabulary)
    plans = SkosUpdate(store, wanted, run.options.scheme or 0, values_of, run.ends_gone).rows()
    run.rows = [Row(it.line, it.cells) for it in plans]
    return plans


def plan_exported(run: TableRun, replica: Replica, values: Values) -> list[RowPlan]:
    """Returns the rows that set the values of an export that are lacking: a row for each resource."""
    fields, plans = values.fields(), []
    # (they are in the order of the resources)
    for line, (number, its) in enumerate(groupby(run.exported, lambda it: int(it["owner"])), 1):
        held = values.of(number)
        requests = [found for it in its if (found := lacking(it, held.get(it["field"], []), fields[it["field"]]))]
        plans.append(RowPlan(line, [str(number), replica.term(number)[1]], requests))
    run.rows = [Row(it.line, it.cells) for it in plans]
    return plans


def lacking(wanted: Request, held: Sequence[HeldValue], field: Field) -> Request | None:
    """Returns the request that sets a value, if it is lacking beside those of its field, or lacks its source alone."""
    new = wanted["tag"], text_of(wanted["new"])
    same = next((it for it in held if (it.tag, it.text) == new), None)
    if same is not None:
        source = source_of(wanted["new"])
        return {**wanted, "old": same.member} if source and not same.source else None
    return wanted if field.is_many or not held else None


def preview_rows(desk: Desk, run: TableRun, bringer: Importer, report: Report | None = None) -> None:
    """Notes what the rows ask for, and which would be refused, as it is shown before it is performed. Raises
    NewConceptsError and NoTrial."""
    run.last = desk.journal.last_plan()
    plan_rows(run, desk.replica, desk.values, bringer)
    refused = try_rows(desk, [rows[-1] for rows in with_others(run.plans) if can_be_done(rows[-1])], report)

    def reason_of_trial(row: RowPlan) -> str:
        outcome = refused.get(row.line)
        return bringer.tell(outcome) if outcome else bringer.words("bring_in.needs") if row.line in refused else ""

    run.plans = with_reasons(run.plans, lambda it: it.reason or reason_of_trial(it))


def can_be_done(row: RowPlan) -> bool:
    """Whether a row asks for something, and nothing is known why it can't be done."""
    return bool(row.requests) and not row.reason


def with_reasons(plans: list[RowPlan], reason_of_row: Callable[[RowPlan], str]) -> list[RowPlan]:
    """Returns the rows with the reasons why they can't be done or weren't: those that are done together have one."""
    found = []
    for rows in with_others(plans):
        reason = reason_of_row(rows[-1])
        found += [it._replace(reason=reason) for it in rows]
    return sorted(found, key=lambda it: it.line)


def reason_of(row: RowPlan, bringer: Importer) -> str:
    """Returns why a row can't be done, or nothing: the program isn't asked."""
    if row.error:
        return reason_in_words(row.error, bringer.words)
    if why := bringer.rights.refusal(row.requests, bringer.role):
        return bringer.words(why)
    if len(row.requests) > LONGEST_PLAN:
        return bringer.words("bring_in.long_row", n=len(row.requests), more=LONGEST_PLAN)
    return ""


def reason_in_words(error: RowError, words: Words) -> str:
    """Returns what is wrong with a row in the reader's language."""
    kinds = {name: words(f"kinds.resource.{it}") for name, it in error.values.items() if name in ("kind", "found")}
    return words(f"rows.{error.key}", **{**error.values, **kinds})


def refused_rows(run: TableRun) -> list[list[str]]:
    """Returns the rows of a table that were refused as a table again, with a column of reasons."""
    return [[*run.heading, "reason"], *([*it.cells, plain(it.reason)] for it in run.plans if it.reason)]


def plain(reason: str) -> str:
    """Returns a reason without the links in it."""
    return reason.striptags() if isinstance(reason, Markup) else reason
