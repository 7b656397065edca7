"""What the program says of the rows of a table before any is done: it tries them as one plan; or, if they have more
requests than a plan, does them on a copy of the store."""
from __future__ import annotations

import contextlib
import tempfile
from collections import ChainMap
from collections.abc import Iterator, MutableMapping, Sequence
from dataclasses import dataclass
from pathlib import Path
from typing import TYPE_CHECKING, Any

from thesaurus_desk.importing.row_checks import RowChecks
from thesaurus_desk.journal import Answer, Request, Step
from thesaurus_desk.journal.references import resolve
from thesaurus_desk.journal.value_rules import ValueRules
from thesaurus_desk.store.copies import StoreBusy
from thesaurus_desk.store.plan_outcome import Outcome
from thesaurus_desk.store.program import LONGEST_PLAN, NoAnswer, Program, TooLong
from thesaurus_desk.store.replica import Replica
from thesaurus_desk.store.run_threads import Report
from thesaurus_desk.store.trial import number_of_outside
from thesaurus_tools.command_line import ToolError
from thesaurus_tools.one_plan import resolve_names
from thesaurus_tools.row_runner import RowPlan

if TYPE_CHECKING:
    from thesaurus_desk.store.plan_execution import Desk

# The numbers of names and of the addresses of outside concepts, or references to earlier requests of the line.
Meanings = MutableMapping[Any, Any]


class NoTrial(Exception):
    """The program can't say now what rows would do: the name of the fault."""

    def __init__(self, fault: str) -> None:
        super().__init__(fault)
        self.fault = fault


class UnclearAnswer(Exception):
    """It isn't known which of several rows is meant by an answer, or their line is too long: fewer are to be sent."""


def try_rows(desk: Desk, rows: Sequence[RowPlan], report: Report | None = None) -> dict[int, Outcome | None]:
    """Returns which rows would be refused if all were done in their order, by their lines: with what comes of each; or
    with None, if it needs what another row would have made. Raises NoTrial."""
    count = sum(it["do"] != "set" for row in rows for it in row.requests)
    checks = RowChecks(ValueRules(desk.replica, desk.values))
    try:
        if count <= LONGEST_PLAN:
            with contextlib.suppress(UnclearAnswer):
                return RowTrial(desk.program, desk.replica, checks).refusals(rows, report)
        with program_on_copy(desk) as program:
            return CopyTrial(program, desk.replica, checks).refusals(rows, report)
    except (NoAnswer, ToolError) as error:
        raise NoTrial("Closed") from error
    except StoreBusy:
        raise NoTrial("Busy") from None


@contextlib.contextmanager
def program_on_copy(desk: Desk) -> Iterator[Program]:
    """Yields a program of its own on a copy of the store. Raises StoreBusy and ToolError."""
    with tempfile.TemporaryDirectory(prefix="desk-") as folder:
        copy = Path(folder, "copy.db")
        desk.copies.copy_to(copy)
        program = Program(desk.program.path, copy, desk.program.options, desk.program.patience)
        # (by this thread, which stays until the program is stopped)
        if said := program.launch():
            raise ToolError(said)
        try:
            yield program
        finally:
            program.stop()


@dataclass(frozen=True)
class SentRow:
    """A row as it is sent: the requests that the program sees of it, with their places in the row, from 1; and what the
    names stand for that it gives."""

    row: RowPlan
    places: list[int]
    requests: list[Request]
    named: dict[Any, Any]

    def refusal(self, place: int, answer: Answer) -> Outcome:
        """Returns the refusal of its request at a place."""
        steps, own = [], NameOrSelf()
        for at, it in enumerate(self.row.requests, 1):
            steps.append(Step(resolve_names(it, own)))
            own.update({it["as"]: f"${at}"} if "as" in it else {})
        return Outcome("refused", steps, at=place, answer=answer)


class NameOrSelf(dict[str, Any]):
    """What names stand for: those that aren't known, for themselves."""

    def __missing__(self, name: str) -> str:
        return f"${name}"


def requests_of(group: Sequence[SentRow]) -> list[Request]:
    """Returns the requests of rows."""
    return [it for row in group for it in row.requests]


class RowTrial:
    """Tries rows as one plan, from which those are left out that are refused."""

    def __init__(self, program: Program, replica: Replica, checks: RowChecks) -> None:
        self.program, self.replica, self.checks = program, replica, checks
        # The requests of the rows so far that the plan has, and what the names stand for that these give.
        self.before: list[Request] = []
        self.named: dict[Any, Any] = {}

    def refusals(self, rows: Sequence[RowPlan], report: Report | None = None) -> dict[int, Outcome | None]:
        """Returns which rows are refused. Raises NoAnswer, and UnclearAnswer."""
        found: dict[int, Outcome | None] = {}
        at, most = 0, LONGEST_PLAN
        while at < len(rows):
            group = self.laid_out(rows[at : at + most])
            done, refusal = self.try_group(group) if group else (0, None)
            at += done
            is_refused = refusal is not None or not group
            if is_refused:
                found[rows[at].line] = refusal
                at += 1
            if report:
                report(at, None, len(rows))
            # (behind a refused row there are often more, and what is sent with one is sent again)
            most = 1 if is_refused else min(2 * most, LONGEST_PLAN)
        return found

    def laid_out(self, rows: Sequence[RowPlan]) -> list[SentRow]:
        """Returns rows as they are sent together: as many as a plan takes, up to one that needs what none has made."""
        group: list[SentRow] = []
        count, named = len(self.before), ChainMap[Any, Any]({}, self.named)
        for row in rows:
            try:
                sent = self.sent(row, count, named)
            except KeyError:
                break
            count += len(sent.requests)
            if count > LONGEST_PLAN:
                break
            named.update(sent.named)
            group.append(sent)
        return group

    def sent(self, row: RowPlan, count: int, named: Meanings) -> SentRow:
        """Returns a row as it is sent behind some requests. Raises KeyError for a name that nothing has."""
        own: dict[Any, Any] = {}
        its, sent = ChainMap(own, named), SentRow(row, [], [], own)
        for place, request in enumerate(row.requests, 1):
            if request["do"] == "set":
                continue
            key = ("outside", request.get("iri"))
            known = number_of_outside(self.replica, request["iri"]) or its.get(key) if key[1] else None
            if not known:
                sent.requests.append(resolve_names(request, its))
                sent.places.append(place)
            its[request.get("as")] = its[key] = known or f"${count + len(sent.requests)}"
        return sent

    def try_group(self, group: Sequence[SentRow]) -> tuple[int, Outcome | None]:
        """Returns how many of some rows are done, and the refusal of the next. Raises NoAnswer and UnclearAnswer."""
        requests, refusal = requests_of(group), None
        answer = self.asked({"try": [*self.before, *requests]}) if requests else {"done": []}
        if "done" not in answer:
            before, refusal = self.parted(group, answer)
            # (what has no form is refused before anything is tried)
            if "bad" in answer and before:
                return self.try_group(before)
            group = before
        for at, it in enumerate(group):
            if refused := self.checks.refusal(it.row.requests):
                group, refusal = group[:at], it.refusal(refused[0], {"no": refused[1]})
                break
        self.take(group)
        return len(group), refusal

    def asked(self, plan: Request) -> Answer:
        """Returns what the program says of a plan. Raises NoAnswer and UnclearAnswer."""
        try:
            answer = self.program.ask(plan)
        except TooLong:
            raise UnclearAnswer from None
        if "fault" in answer:
            raise NoAnswer(answer["fault"])
        return answer

    def parted(self, group: Sequence[SentRow], answer: Answer) -> tuple[Sequence[SentRow], Outcome]:
        """Returns the rows before the one that is refused, and its refusal. Raises NoAnswer and UnclearAnswer."""
        if "at" not in answer and len(group) > 1:
            raise UnclearAnswer
        at = answer.pop("at", len(self.before) + 1) - len(self.before)
        if at < 1:
            raise NoAnswer("the store has changed meanwhile")
        before = 0
        while at > len(group[before].requests):
            at -= len(group[before].requests)
            before += 1
        return group[:before], group[before].refusal(group[before].places[at - 1], answer)

    def take(self, group: Sequence[SentRow]) -> None:
        """Notes rows that are done."""
        self.before += requests_of(group)
        for it in group:
            self.named.update(it.named)


class CopyTrial(RowTrial):
    """Performs rows on a copy of the store, some at a time."""

    def try_group(self, group: Sequence[SentRow]) -> tuple[int, Outcome | None]:
        try:
            return super().try_group(group)
        except UnclearAnswer:
            if len(group) > 1:
                return self.try_group(group[: len(group) // 2])
            return 0, group[0].refusal(1, {"bad": "TooLong"})

    def take(self, group: Sequence[SentRow]) -> None:
        requests = requests_of(group)
        answer = self.asked({"perform": requests}) if requests else {"done": []}
        if "done" not in answer:
            raise NoAnswer("the copy answers otherwise than before")
        numbers = [it.get("ok", it.get("again")) for it in answer["done"]]
        for it in group:
            self.named.update({name: resolve(value, numbers) for name, value in it.named.items()})
