"""What the journal says of resources, users and times: for pages and for other programs."""
from __future__ import annotations

import csv
import io
import json
from collections.abc import Iterable, Iterator, Sequence
from dataclasses import dataclass

from thesaurus_desk.journal.entries import Journal, Plan, Step
from thesaurus_tools.formulas import guard
from thesaurus_tools.kinds import BROADER

# Tests of the rows of a table, with their values; one with None is left out.
Tests = dict[str, int | str | tuple[str, ...] | None]
# The requests that end a concept, with the member that names it.
ENDING = {"merge": "source", "deprecate": "concept"}
# The test whether a plan concerns a resource.
CONCERNING = "id IN (SELECT plan FROM concern WHERE number = ?)"
# The test whether a plan has changed something: what other programs did has no steps, the record of a posting may have
# been sent before, and an import may have no new row.
CHANGING = (
    "state = 'done' AND (NOT EXISTS (SELECT 1 FROM step WHERE plan = id) OR EXISTS (SELECT 1 FROM step WHERE plan = id"
    " AND step.state = 'done' AND json_extract(answer, '$.again') IS NULL"
    " AND (json_extract(request, '$.do') <> 'import' OR json_extract(answer, '$.last') IS NOT NULL)))"
)
# When a plan ended; of one that an earlier desk has written it is known only when it began.
ENDED_AT = "coalesce((SELECT ended.at FROM ended WHERE ended.plan = plan.id), plan.at)"
COLUMNS = ("plan", "step", "time", "user", "proposed by", "action", "state", "request", "answer", "takes back")


@dataclass(frozen=True, slots=True)
class Dates:
    """When a resource was made and last changed, as far as the journal knows: as 2026-11-28T10:04:00.000Z."""

    created: str | None
    modified: str | None


@dataclass(frozen=True, slots=True)
class Ending:
    """How a concept ended: by which plan, and what was broader than it until then."""

    plan: Plan
    broader: tuple[int, ...]
    # The number under which it came back, if the plan was taken back.
    returned: int | None


@dataclass(frozen=True, slots=True)
class Filter:
    """Which plans are meant: of a user, from a time on, before a time, with one of these requests. None: of any.

    Times are as the journal writes them, or beginnings of such: 2026-11 or 2026-11-28T10, in UTC."""

    user: str | None = None
    since: str | None = None
    until: str | None = None
    requests: tuple[str, ...] | None = None

    def tests(self) -> Tests:
        """Returns the tests of a plan, each with its values."""
        asked = self.requests or ()
        # (of the plans in their order, so that a page reads the steps of those alone that it looks at)
        step = f"SELECT 1 FROM step WHERE step.plan = plan.id AND json_extract(request, '$.do') IN ({marks(asked)})"
        return {
            "user = ?": self.user,
            "at >= ?": self.since,
            "at < ?": self.until,
            f"EXISTS ({step})": asked or None,
        }


EVERYTHING = Filter()


class History:
    """Looks up plans that were sent."""

    def __init__(self, journal: Journal) -> None:
        self.journal = journal

    def recent(
        self,
        *,
        number: int | None = None,
        before: int | None = None,
        states: tuple[str, ...] = (),
        which: Filter = EVERYTHING,
        part_of: int | None = None,
        is_grouped: bool = False,
        most: int = 50,
    ) -> list[Plan]:
        """Returns plans, the last first: of a resource, before a plan, in states, of a filter; the parts of one; of a
        long one, or a file, the first part alone."""
        condition, values = condition_of(
            {
                **which.tests(),
                CONCERNING: number,
                "id < ?": before,
                f"state IN ({marks(states)})": states or None,
                "coalesce(first, id) = ?": part_of,
                "first IS NULL": () if is_grouped else None,
            }
        )
        return self.journal.plans(f"SELECT * FROM plan WHERE {condition} ORDER BY id DESC LIMIT ?", *values, most)

    def changes(self, most: int) -> list[Plan]:
        """Returns the plans that have changed something, the last first; of one in parts the first part."""
        query = f"SELECT * FROM plan WHERE first IS NULL AND {CHANGING} ORDER BY id DESC LIMIT ?"
        return self.journal.plans(query, most)

    def users(self) -> list[str]:
        """Returns the users who have sent plans; "" is among them if other programs have changed something."""
        return [it["user"] for it in self.journal.all("SELECT DISTINCT user FROM plan ORDER BY user")]

    def resources_changed_by(self, plan: int) -> list[int]:
        """Returns the resources that have other labels, links or another state by a plan, in order."""
        found = self.journal.all("SELECT number FROM concern WHERE plan = ? AND changes = 1", plan)
        return sorted(abs(it["number"]) for it in found)

    def dates(self, number: int) -> Dates:
        """Returns when a resource was made and last changed. What is older than the journal has no date."""
        found = self.journal.one(
            f"SELECT min(plan) AS first, min({ENDED_AT}) AS created, max({ENDED_AT}) AS modified"
            " FROM plan JOIN concern ON plan = id WHERE number = ? AND changes = 1 AND state = 'done'",
            number,
        )
        if not found or not found["first"]:
            return Dates(None, None)
        # (of a plan with many steps only one is read as JSON)
        made = self.journal.one(
            "SELECT 1 FROM step WHERE plan = ?1 AND instr(answer, ?2) AND json_extract(answer, '$.ok') = ?3"
            " AND json_extract(request, '$.do') <> 'post'",
            found["first"],
            f'"ok":{abs(number)}',
            abs(number),
        )
        return Dates(found["created"] if made else None, found["modified"])

    def all_dates(self) -> dict[int, Dates]:
        """Returns the dates of all resources, read at once."""
        made = self.journal.all(
            "SELECT plan, json_extract(answer, '$.ok') FROM step WHERE json_extract(answer, '$.ok') IS NOT NULL"
            " AND json_extract(request, '$.do') <> 'post'"
        )
        created = {(plan, number) for plan, number in made}
        found = self.journal.all(
            f"SELECT number, min(plan), min({ENDED_AT}), max({ENDED_AT}) FROM plan JOIN concern ON plan = id"
            " WHERE changes = 1 AND state = 'done' GROUP BY number"
        )
        return {it[0]: Dates(it[2] if (it[1], it[0]) in created else None, it[3]) for it in found}

    def new_number_after(self, plan: Plan) -> int | None:
        """Returns the new number of the concept that came back when a plan was taken back."""
        back = self.journal.plan(plan.taken_back_by) if plan.taken_back_by else None
        made = [it for it in back.steps if it.request["do"] in ("split", "concept")] if back else []
        return int(made[0].answer["ok"]) if len(made) == 1 and made[0].answer else None

    def ending(self, number: int) -> Ending | None:
        """Returns how a concept ended, or None if the journal doesn't know it."""
        for plan in self.recent(number=number, states=("done",), which=Filter(requests=tuple(ENDING))):
            for step in plan.steps:
                if ended_by(step) == number:
                    links = [*(step.kept or {}).get("links", ()), *unlinked_by(plan)]
                    broader = tuple(b for kind, a, b in links if kind in BROADER and a == number)
                    return Ending(plan, broader, self.new_number_after(plan))
        return None

    def plan_that_moved(self, source: int, target: int) -> Plan | None:
        """Returns the plan that moved records from one concept to another; None if the journal has none. There is one
        at most: a merge ends its source, and a split makes its target."""
        did = "json_extract(request, '$.do')"
        found = self.journal.plans(
            "SELECT plan.* FROM plan JOIN step ON step.plan = plan.id WHERE plan.state = 'done' AND step.state = 'done'"
            " AND plan.id IN (SELECT plan FROM concern WHERE number = ?1)"
            " AND plan.id IN (SELECT plan FROM concern WHERE number = ?2) AND json_extract(request, '$.source') = ?1"
            f" AND ({did} = 'merge' AND json_extract(request, '$.target') = ?2"
            f" OR {did} = 'split' AND json_extract(answer, '$.ok') = ?2) LIMIT 1",
            source,
            target,
        )
        return next(iter(found), None)

    def changed_since(self, time: str) -> list[tuple[int, str]]:
        """Returns the resources that were changed at a time or later, with the time of their last change, the last
        first. A plan has changed them when it ended: one that is slow is in no list before."""
        return self.changed_by("SELECT id FROM plan WHERE at >= ?1 UNION SELECT plan FROM ended WHERE at >= ?1", time)

    def changes_of(self, numbers: Iterable[int], time: str, most: int) -> dict[int, list[Plan]]:
        """Returns the plans that changed each of some resources at a time or later, the last first. One that changed
        many of them is read once."""
        query = (
            "SELECT plan.id FROM plan JOIN concern ON plan = id WHERE number = ? AND changes = 1 AND state = 'done'"
            f" AND {ENDED_AT} >= ? ORDER BY id DESC LIMIT ?"
        )
        found = {it: [row["id"] for row in self.journal.all(query, it, time, most)] for it in numbers}
        ids = tuple({it for its in found.values() for it in its})
        plans = {it.id: it for it in self.journal.plans(f"SELECT * FROM plan WHERE id IN ({marks(ids)})", *ids)}
        return {number: [plans[it] for it in its] for number, its in found.items()}

    def changed_after(self, plan: int) -> list[tuple[int, str]]:
        """Returns the resources that were changed by plans after one, with the time of their last change, the last
        first."""
        return self.changed_by("SELECT id FROM plan WHERE id > ?1", plan)

    def changed_by(self, plans: str, value: int | str) -> list[tuple[int, str]]:
        """Returns the resources that the plans of a query have changed, with the time of their last change, the last
        first."""
        found = self.journal.all(
            f"SELECT number, max({ENDED_AT}) AS last FROM plan JOIN concern ON plan = id WHERE id IN ({plans})"
            " AND state = 'done' AND changes = 1 AND number > 0 GROUP BY number ORDER BY last DESC, number",
            value,
        )
        return [(it["number"], it["last"]) for it in found]

    def last_settled(self) -> int:
        """Returns the last plan before which none is under way any more, or 0."""
        found = self.journal.one("SELECT min(id) - 1 AS before FROM plan WHERE state = 'sent'")
        before = found["before"] if found else None
        return self.journal.last_plan() if before is None else int(before)

    def ended_elsewhere(self) -> list[int]:
        """Returns the concepts with values of fields that another program has ended: no plan of the journal did."""
        ends = "json_extract(request, '$.do') IN ('merge', 'deprecate') AND coalesce(json_extract(request, '$.source'),"
        found = self.journal.all(
            "SELECT num FROM resource WHERE live = 0 AND num IN (SELECT owner FROM value) AND NOT EXISTS (SELECT 1 FROM"
            " concern JOIN step ON step.plan = concern.plan WHERE concern.number = num AND state = 'done'"
            f" AND {ends} json_extract(request, '$.concept')) = num) ORDER BY num"
        )
        return [it["num"] for it in found]

    def taken_numbers(self) -> dict[int, str]:
        """Returns the resources with values that other programs have left with other terms alone, with the term that
        each had: it may be another one, with a number that was free after a restore."""
        found = self.journal.all(
            "SELECT number, name FROM taken WHERE number IN (SELECT owner FROM value) ORDER BY number"
        )
        return {it["number"]: it["name"] for it in found}

    def csv(self, number: int | None = None, which: Filter = EVERYTHING) -> Iterator[str]:
        """Yields the plans of a resource and a filter as CSV, the earliest first: a line for each request, and one for
        what others changed."""
        yield to_csv(COLUMNS)
        tests: Tests = {CONCERNING: number, **which.tests()}
        condition, values = condition_of(tests)
        while plans := self.journal.plans(f"SELECT * FROM plan WHERE {condition} ORDER BY id LIMIT 500", *values):
            for plan in plans:
                for place, it in enumerate(plan.steps or [Step({}, plan.state)], 1):
                    about = (plan.id, place, plan.at, plan.user, plan.proposer or "", plan.action, it.state)
                    texts = (json.dumps(it.request, ensure_ascii=False), json.dumps(it.answer) if it.answer else "")
                    yield to_csv((*about, *texts, plan.takes_back or ""))
            condition, values = condition_of({**tests, "id > ?": plans[-1].id})


def marks(values: Sequence[object]) -> str:
    """Returns the marks that stand for some values."""
    return ", ".join("?" * len(values))


def condition_of(tests: Tests) -> tuple[str, list[int | str]]:
    """Returns the condition that all tests hold, and the values of its marks."""
    values: list[int | str] = []
    for value in tests.values():
        values += value if isinstance(value, tuple) else [] if value is None else [value]
    return " AND ".join(["true", *(test for test, value in tests.items() if value is not None)]), values


def unlinked_by(plan: Plan) -> list[tuple[str, int, int]]:
    """Returns the links that a plan removes one by one: kind and ends."""
    asked = (it.request for it in plan.steps if it.request["do"] == "unlink")
    return [(it["kind"], it["a"], it["b"]) for it in asked]


def ended_by(step: Step) -> int | None:
    """Returns the concept that a step ends, or None."""
    member = ENDING.get(step.request["do"])
    return step.request[member] if member else None


def to_csv(cells: tuple[object, ...]) -> str:
    """Returns a line of CSV. What a spreadsheet would take for a formula has an apostrophe before it, which goes when
    the table is brought in."""
    out = io.StringIO()
    csv.writer(out).writerow([guard(it) if isinstance(it, str) else it for it in cells])
    return out.getvalue()
