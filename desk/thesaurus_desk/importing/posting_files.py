"""Imports posting files, and brings the replica and the journal up to them."""
from __future__ import annotations

import csv
import hashlib
import io
import logging
import re
import sqlite3
from collections import Counter
from collections.abc import Sequence
from dataclasses import dataclass, field
from typing import TYPE_CHECKING, Any

from thesaurus_desk.journal import Draft, Plan, Request, Step
from thesaurus_desk.journal.schema import fault_of
from thesaurus_desk.store.changes import Change
from thesaurus_desk.store.plan_outcome import Outcome
from thesaurus_desk.store.program import NoAnswer
from thesaurus_tools.command_line import ToolError

if TYPE_CHECKING:
    from thesaurus_desk.store.open_store import OpenStore

log = logging.getLogger("desk")
HEADING = ("key", "record", "concept")
# The most bytes of a posting file, as for the program's own `import`; no cell of one is longer.
MOST_BYTES = 16_777_216
csv.field_size_limit(MOST_BYTES)
# Each key and each name of a record of this number of characters is too long.
LONGEST_CELL = 200
ROWS_AT_A_TIME = 1024
# How often the program may end in the midst of an import.
MOST_FAILURES = 3
BOM = b"\xef\xbb\xbf"
NUMERAL = re.compile("[1-9][0-9]{0,9}")
# The character that replaces a byte that isn't UTF-8.
SURROGATE = re.compile("[\ud800-\udfff]")


@dataclass(frozen=True, slots=True)
class Row:
    """A row of a posting file, and what came of it: new, again, or the name of the refusal."""

    row: int
    cells: tuple[str, ...]
    outcome: str
    number: int | None


@dataclass(slots=True)
class PostingImport:
    """What came of an import.

    `state` is done; refused (the file as a whole); fault (the rows before it are performed); or unknown (the program
    can't be started: the rows are sent again as soon as it can)."""

    state: str
    rows: list[Row] = field(default_factory=list)
    # The name of the file.
    name: str = ""
    answer: dict[str, Any] | None = None
    plan: int | None = None
    # The changes of rows that the replica hasn't yet.
    changes: list[Change] = field(default_factory=list)

    @property
    def counts(self) -> Counter[str]:
        """How many rows have each outcome."""
        return Counter(it.outcome for it in self.rows)

    @property
    def failed(self) -> list[Row]:
        """The rows that were refused."""
        return [it for it in self.rows if it.outcome not in ("new", "again")]


def cells_of(data: bytes) -> list[tuple[str, ...]]:
    """Returns the rows of a posting file, its heading among them; empty lines aren't rows. A cell that isn't UTF-8 is
    as an empty one."""
    text = data.removeprefix(BOM).decode("utf-8", errors="surrogateescape")
    rows = csv.reader(io.StringIO(text, newline=""))
    return [tuple("" if SURROGATE.search(cell) else cell for cell in it) for it in rows if it]


def post_of(cells: tuple[str, ...]) -> Request:
    """Returns the request of a row with three cells. What is too long stays too long when it is cut."""
    key, record, concept = (it[:LONGEST_CELL] for it in cells)
    # (no concept has the number 0, and the program says so after it has looked at key and record)
    return {"do": "post", "key": key, "record": record, "concept": int(concept) if NUMERAL.fullmatch(concept) else 0}


def bring_in(desk: OpenStore, user: str, data: bytes, name: str) -> PostingImport:
    """Imports a posting file, under the desk's lock."""
    cells = cells_of(data)
    request = {"do": "import", "name": name, "sha256": hashlib.sha256(data).hexdigest(), "rows": max(0, len(cells) - 1)}
    is_file = cells[:1] == [HEADING] and len(data) <= MOST_BYTES
    # (an import that is cut short is sent again: each posting has a key, so none is posted twice)
    before, rows = desk.replica.counts()["postings"], cells[1:] if is_file else []
    steps = [Step(request, kept={"before": before, "rows": rows}, facts=[])]
    try:
        desk.check_store()
        desk.write_late()
        brought = PostingImport("done", plan=desk.journal.begin(Draft(user, "import", steps)))
    except sqlite3.Error as error:
        log.error("%s: the journal can't be written: %s", desk.journal.path, error)
        return PostingImport("fault", answer={"fault": fault_of(error)})
    if is_file:
        send(desk, brought, rows)
    else:
        brought.state = "refused"
        brought.answer = {"bad": "TooLong" if len(data) > MOST_BYTES else "BadShape"}
    finish(desk, brought, steps, before)
    return brought


def resume(desk: OpenStore, plan: Plan) -> None:
    """Sends an import again that was cut short."""
    (step,) = plan.steps
    kept = step.kept or {}
    brought = PostingImport("done", plan=plan.id)
    if desk.replica.counts()["postings"] < kept["before"]:
        # (the store is an older one than that of the import)
        brought.state = "lost"
    else:
        send(desk, brought, [tuple(it) for it in kept["rows"]])
    log.warning("an import was cut short, and was sent again: plan %s is %s", plan.id, brought.state)
    finish(desk, brought, plan.steps, kept["before"])


def send(desk: OpenStore, brought: PostingImport, cells: Sequence[tuple[str, ...]]) -> None:
    """Sends the rows of a posting file, some at a time, and notes what they change."""
    failures = 0
    while len(brought.rows) < len(cells) and brought.state == "done":
        part = cells[len(brought.rows) :][:ROWS_AT_A_TIME]
        try:
            send_part(desk, brought, part)
        except NoAnswer as error:
            log.warning("no answer to an import: %s", error)
            failures += 1
            if failures > MOST_FAILURES or not open_again(desk, brought):
                brought.state = "unknown"
    if brought.state == "fault":
        open_again(desk, brought)


def send_part(desk: OpenStore, brought: PostingImport, part: Sequence[tuple[str, ...]]) -> None:
    """Sends some rows. Raises NoAnswer: they may be sent again."""
    requests = [post_of(it) for it in part if len(it) == len(HEADING)]
    try:
        answers, changes = desk.program.send_each(requests)
    finally:
        desk.note_store()
    brought.changes += changes
    posts = iter(answers)
    rows: list[Row] = []
    for cells in part:
        answer = next(posts, None) if len(cells) == len(HEADING) else {"bad": "BadShape"}
        if answer is None or "fault" in answer:
            brought.state, brought.answer = "fault", answer or answers[-1]
            break
        rows.append(row_of(len(brought.rows) + len(rows) + 1, cells, answer))
    brought.rows += rows


def row_of(row: int, cells: tuple[str, ...], answer: dict[str, Any]) -> Row:
    """Returns a row with what came of it."""
    outcome = "new" if "ok" in answer else "again" if "again" in answer else answer.get("no") or answer["bad"]
    return Row(row, cells, outcome, answer.get("ok", answer.get("again")))


def open_again(desk: OpenStore, brought: PostingImport) -> bool:
    """Opens the store again in the midst of an import, and returns whether it could be."""
    # (the replica is made to have what was performed)
    brought.changes.clear()
    own = desk.journal.plan(brought.plan or 0)
    try:
        desk.reload([own] if own else [])
    except ToolError as error:
        log.error("the store can't be opened again: %s", error)
        return False
    return True


def finish(desk: OpenStore, brought: PostingImport, steps: list[Step], before: int) -> None:
    """Writes down what came of an import: the new postings have the numbers from `first` to `last`. One of which nobody
    knows is sent again as soon as the store can be opened."""
    if brought.state == "unknown":
        desk.journal.leave_open()
        return
    made = [it for it in brought.changes if it[:2] == ["insert", "posting"]]
    now = desk.replica.counts()["postings"] + len(made)
    places = {it[6] for it in made}
    numbers = {"first": before + 1, "last": now} if now > before else {}
    steps[0].answer = {"outcomes": dict(brought.counts), **numbers, **(brought.answer or {})}
    steps[0].kept = {"places": sorted(places.union(desk.replica.postings.places_after(before)))}
    # (of an import that ended with a fault the rows before are performed)
    steps[0].state = "done" if numbers else brought.state
    desk.write(Outcome(steps[0].state, steps, brought.plan), set(), brought.changes)
