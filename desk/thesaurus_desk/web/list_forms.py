"""Lists of resources in other forms than their pages: as a table, and with ticks for what is done with many at once."""
from __future__ import annotations

from collections.abc import Callable, Iterable, Sequence
from typing import Any

from flask import render_template, request

from thesaurus_desk.web.context import field_words, may_act, person, say, tags, the_fields, the_replica, the_rights
from thesaurus_desk.web.forms import FormState
from thesaurus_desk.web.list_columns import ListColumn
from thesaurus_desk.web.spreadsheets import is_table_asked, sheet
from thesaurus_desk.web.tick_lists import ranges_of, ticks_of_concepts
from thesaurus_desk.web.work_views import APPROVED
from thesaurus_tools.fields import STATUSES, Field, table_fields

FORM = "bulk"
# The terms that many concepts may get; a preferred term is one concept's.
TERMS = ("alt", "hidden")


def in_other_form(
    name: str,
    numbers: Callable[[], Iterable[int]],
    more: Sequence[str] = (),
    usual: Sequence[ListColumn] | None = None,
) -> Any | None:
    """Returns a list as the address asks for it: as a table, of which `sheet` says the columns, or with ticks for who
    may edit; None for its page."""
    if is_table_asked():
        return sheet(name, numbers(), more, usual)
    are_ticks = request.args.get("format") == "ticks" and person().may("editor")
    return ticks_page(numbers(), FormState(), 200) if are_ticks else None


def ticks_page(numbers: Iterable[int], state: FormState, status: int) -> Any:
    """Returns the concepts in use of a list with ticks, and what can be done with those that are ticked."""
    replica = the_replica()
    concepts = set(replica.numbers("concept", None, True)).intersection(numbers)
    page = render_template(
        "bulk.html",
        form=FORM,
        state=state,
        ticks=ticks_of_concepts(replica.ordered(concepts, tags())),
        listed=ranges_of(concepts),
        statuses=[(it, say(f"status.{it}")) for it in (APPROVED, *STATUSES)],
        texts=[("scope", say("kinds.label.scope")), *((it, field_words(it)) for it in fields_to_set())],
        terms=[(it, say(f"kinds.label.{it}")) for it in TERMS],
        # (where editors merge concepts without records, a row that would move some is refused by itself)
        may_merge=may_act("merge") or the_rights().without_records,
    )
    return page, status


def fields_to_set() -> dict[str, Field]:
    """Returns the fields of concepts that can be set for many at once."""
    fields = table_fields(the_fields())
    return {
        name: it for name, it in fields.items() if "concept" in it.owners and not it.is_retired and name != "status"
    }
