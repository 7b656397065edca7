"""Lists of resources as tables, for spreadsheets: each is understood when it is brought in, and does no harm."""
from __future__ import annotations

from collections.abc import Iterable, Iterator, Sequence
from itertools import chain
from urllib.parse import urlencode

from flask import Response, abort, make_response, render_template, request, stream_with_context
from markupsafe import Markup

from thesaurus_desk.journal.history import to_csv
from thesaurus_desk.store.model import Posting
from thesaurus_desk.web.context import say, tags, the_desk, the_replica
from thesaurus_desk.web.list_columns import (
    ListColumn,
    cell_of_column,
    chosen_columns,
    heading_of,
    is_seen,
    usual_columns,
)
from thesaurus_tools.workbooks import LONGEST_CELL, MEDIA, LeftOut, workbook, writable_forms

# The most cells of a file that is no CSV: the limits of tables allow to read these again.
MOST_CELLS = 100_000
Row = tuple[object, ...]


class Sheet:
    """A table of resources, with the columns that the request asks for, or else the usual ones."""

    def __init__(self, usual: Sequence[ListColumn]) -> None:
        asked = chosen_columns(request.args.getlist("column"), request.args.get("language", "").strip().lower())
        self.columns = [it for it in asked or usual if is_seen(it)]
        self.has_below = any(it.name == "narrower" for it in self.columns)
        self.last = the_desk().journal.last_plan()

    def rows(self, numbers: Iterable[int]) -> Iterator[Row]:
        """Yields the rows of a table of resources, the headings first; external concepts have nothing to be changed."""
        yield tuple(map(heading_of, self.columns))
        for number in numbers:
            view = the_replica().view(number)
            if view is not None and view.kind != "outside":
                yield tuple(cell_of_column(view, it, self.last, self.has_below) for it in self.columns)


def rows_of_postings(postings: Iterable[Posting]) -> Iterator[Row]:
    """Yields the rows of a table of postings, the headings first."""
    yield (say("edit.key"), *(say(f"lists.column.{it}") for it in ("record", "number", "term")))
    for it in postings:
        yield it.key, it.record, it.place, the_replica().term(it.place, tags())[1]


def is_table_asked() -> bool:
    """Whether the request asks for a list as a table."""
    return request.args.get("format") in writable_forms()


def sheet(
    name: str, numbers: Iterable[int], more: Sequence[str] = (), usual: Sequence[ListColumn] | None = None
) -> Response:
    """Returns a table of resources as a file; `more` names further columns, as members, or `usual` all of them."""
    return sheet_of_rows(name, Sheet(usual_columns(more) if usual is None else usual).rows(numbers))


def sheet_of_rows(name: str, rows: Iterable[Row]) -> Response:
    """Returns a table as a file, in the form that the request asks for. CSV begins with a byte order mark, by which
    spreadsheets know UTF-8."""
    form = request.args.get("format", "")
    headers = {"Content-Disposition": f'attachment; filename="{name}.{form if form in MEDIA else "csv"}"'}
    if form in ("", "csv") or form not in writable_forms():
        lines = stream_with_context(chain(("\ufeff",), map(to_csv, rows)))
        return Response(lines, content_type=MEDIA["csv"], headers=headers)
    left_out = LeftOut()
    data = workbook(form, bound_rows(rows), left_out)
    if left_out and "anyway" not in request.args:
        return make_response(left_out_page(left_out))
    return Response(data, content_type=MEDIA[form], headers=headers)


def left_out_page(left_out: LeftOut) -> str:
    """Returns a page that says what a file hasn't, before it is saved."""
    path = f"{request.path}?{urlencode([*request.args.items(multi=True), ('anyway', '1')])}"
    link = Markup('<a class="button" href="{}" download>{}</a>').format(path, say("files.anyway"))
    text = Markup("{} {}").format(tell_left_out(left_out), link)
    return render_template("message.html", title=say("lists.as_table"), text=text)


def tell_left_out(left_out: LeftOut) -> str:
    """Returns what is said of what a file of cells hasn't."""
    characters = ", ".join(f"{it} ({count})" for it, count in sorted(left_out.characters.items()))
    told = [say("files.left_out", characters=characters)] if characters else []
    told += [say("files.cut", n=left_out.cut, most=LONGEST_CELL)] if left_out.cut else []
    return " ".join(told)


def bound_rows(rows: Iterable[Row]) -> list[list[str]]:
    """Returns rows as texts, if they are few enough for a file that is no CSV."""
    found: list[list[str]] = []
    for row in rows:
        found.append(["" if it is None else str(it) for it in row])
        if len(found) * len(row) > MOST_CELLS:
            text = say("lists.too_large", n=MOST_CELLS)
            abort(make_response(render_template("message.html", title=say("lists.as_table"), text=text), 409))
    return found
