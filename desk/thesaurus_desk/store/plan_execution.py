"""Performs what editors ask for: one plan at a time, atomically, written to the journal before it is sent and after."""
from __future__ import annotations

import contextlib
import logging
import sqlite3
from collections.abc import Iterable, Iterator, Sequence

from thesaurus_desk.importing.posting_files import PostingImport, bring_in
from thesaurus_desk.journal import Acceptance, Answer, Batch, Draft, Plan, Request, Step
from thesaurus_desk.journal.recovery import changed_by, mark_steps
from thesaurus_desk.journal.references import resolve_request
from thesaurus_desk.journal.schema import fault_of
from thesaurus_desk.journal.term_sources import TermSources
from thesaurus_desk.journal.value_rules import ValueRules
from thesaurus_desk.store.changes import Change
from thesaurus_desk.store.open_store import OpenStore
from thesaurus_desk.store.outcome import look_for
from thesaurus_desk.store.plan_outcome import Outcome, refuse, send
from thesaurus_desk.store.program import LONGEST_PLAN, MOST_LINES, NoAnswer, NotSent, TooLong, line_of
from thesaurus_desk.store.trial import note_destroyed, try_steps
from thesaurus_tools.command_line import ToolError

log = logging.getLogger("desk")
# The action of a plan that imports a vocabulary: it says itself what becomes of the sources of terms.
WHOLE = "skos"


def unsent(requests: Sequence[Request], fault: str | None) -> Outcome:
    """Returns what came of a plan that can't be sent now."""
    return Outcome("fault", [Step(dict(it)) for it in requests], at=1, answer={"fault": fault})


class Desk(OpenStore):
    """What pages use: they look at `replica` alone, and changes go through `perform`."""

    def renew(self) -> None:
        """Starts the program anew if it has ended, or has had nearly as many lines as it takes; not while a plan is
        under way."""
        if not self.program.has_ended() and self.program.lines < MOST_LINES:
            return
        if self.lock.acquire(blocking=False):
            try:
                if not self.program.has_ended():
                    self.end_program()
                self.reopen()
            finally:
                self.lock.release()

    # --- changes ---

    def perform(
        self,
        user: str,
        action: str,
        requests: Sequence[Request],
        *,
        seen: Iterable[str] = (),
        accepted: Acceptance | None = None,
        takes_back: int | None = None,
        may_cut: bool = False,
        batch: Batch | None = None,
    ) -> Outcome:
        """Performs requests as one: all of them, or none.

        `action` names what was asked for ("move"). `seen` are the marks that the form carries, from
        `desk.seen.mark(number, part)`. In place of a number a request may have `"$k"`: the number that the k-th request
        of the plan made. More than 128 requests are performed in parts only if `may_cut` is given; each part is
        performed atomically, and the first that isn't done is the last. `batch` is the file of which they are a part.
        """
        if not requests or len(requests) > LONGEST_PLAN and not may_cut:
            raise ValueError(f"a plan has 1 to {LONGEST_PLAN} requests, not {len(requests)}")
        with self.alone() as is_free:
            if fault := self.fault_of_now(is_free):
                return unsent(requests, fault)
            for mark in seen:
                if conflict := self.seen.conflict(mark):
                    return Outcome("conflict", conflict=conflict)
            whole = Outcome("done")
            for first in range(0, len(requests), LONGEST_PLAN):
                # (what an earlier part made has its number by now)
                names = [*whole.numbers(), *(f"${place}" for place in range(1, LONGEST_PLAN + 1))]
                steps = [Step(resolve_request(it, names)) for it in requests[first : first + LONGEST_PLAN]]
                count, before = len(steps), whole.plan or (batch.plan if batch else None)
                is_first = batch if batch and not batch.plan else None
                lines = batch.lines if batch else ()
                part = self.perform_part(
                    Draft(user, action, steps, accepted, takes_back, before, is_first, None, lines)
                )
                if is_first and part.plan:
                    self.batches.begun(is_first, part.plan, part.is_done)
                # (references count what was asked for, without what the desk has added)
                whole.steps += part.steps[:count]
                whole.plan = whole.plan or part.plan
                whole.state, whole.answer, whole.at = part.state, part.answer, part.at and first + part.at
                if not part.is_done:
                    break
            return whole

    def fault_of_now(self, has_lock: bool) -> str | None:
        """Returns the name of the fault for which nothing can be sent now, or None."""
        if not has_lock:
            return "Closed" if self.is_opening else "Busy"
        return self.reopen()

    def perform_part(self, draft: Draft) -> Outcome:
        """Performs a plan that the program takes as one."""
        try:
            line_of({"perform": [it.request for it in draft.steps if it.request["do"] != "set"]})
        except TooLong:
            return Outcome("refused", draft.steps, at=1, answer={"bad": "TooLong"})
        outcome = Outcome("sent", draft.steps)
        try:
            self.check_store()
            self.journal.check_file()
            self.write_late()
            failed, answer = self.try_draft(draft)
            outcome.plan = self.journal.begin(draft)
        except sqlite3.Error as error:
            log.error("%s: no plan can be written: %s", self.journal.path, error)
            return Outcome("fault", draft.steps, at=1, answer={"fault": fault_of(error)})
        if failed is not None:
            outcome.state = "lost"
            if answer is not None:
                refuse(outcome, draft.steps, failed, answer)
            self.finish(outcome, ())
        else:
            with self.compared_if_broken_off():
                self.send(outcome, list(draft.changes or ()))
        return outcome

    @contextlib.contextmanager
    def compared_if_broken_off(self) -> Iterator[None]:
        """Has the store be compared before the next plan if an error breaks off what may have changed it."""
        try:
            yield
        except BaseException:
            self.program.kill()
            raise

    def try_draft(self, draft: Draft) -> tuple[Step | None, Answer | None]:
        """Notes in a plan what it will make, destroy and change. Returns the step that is refused, and the answer to
        it; no answer if the program gives none."""
        try:
            trial = try_steps(self.program, self.replica, draft.steps)
        except NoAnswer as error:
            log.warning("the program doesn't say what a plan would do: %s", error)
            return draft.steps[0], None
        if trial.failed is not None:
            return trial.failed, trial.answer
        draft.changes = trial.changes
        with self.journal.lock:
            note_destroyed(self.journal.rows, self.journal.path, draft.steps, trial)
        rules = ValueRules(self.replica, self.values)
        refused = rules.refusal_of_plan(trial.requests, [it.foreseen or {} for it in draft.steps])
        sources = TermSources(rules, draft.steps, trial.requests, trial.changes)
        if refused is None and draft.takes_back is None and draft.action != WHOLE and (place := sources.unknown()):
            refused = place, "UnknownTerm"
        if refused:
            return draft.steps[refused[0] - 1], {"no": refused[1]}
        draft.steps += sources.following() if draft.action != WHOLE else []
        return None, None

    def send(self, outcome: Outcome, changes: Sequence[Change]) -> None:
        """Has the program perform a plan that was tried."""
        try:
            made = send(self.program, outcome)
        except NotSent as error:
            log.warning("the program isn't reached: %s", error)
            outcome.state = "lost"
            self.finish(outcome, ())
        except NoAnswer as error:
            log.warning("no answer to plan %s: %s", outcome.plan, error)
            self.note_store()
            self.look(outcome, changes)
        else:
            self.note_store()
            # (after a fault of the disk the program may not know it)
            if outcome.state == "fault" and outcome.answer != {"fault": "OutOfMemory"}:
                self.look(outcome, changes)
            elif outcome.is_done and made != changes:
                log.error("plan %s was performed otherwise than it was tried: the store is read again", outcome.plan)
                self.look(outcome, changes)
            else:
                self.finish(outcome, made)

    def finish(self, outcome: Outcome, changes: Sequence[Change]) -> None:
        """Brings the replica and the journal up to a plan of which it is known what came of it."""
        numbers = outcome.numbers()
        changed: set[int] = set()
        for step in outcome.steps:
            if step.state == "done":
                step.request = resolve_request(step.request, numbers)
                changed |= self.values.changed_by(step.request, self.without_rows(step.request))
            elif outcome.state == "lost":
                step.state = "lost"
        self.write(outcome, changed, changes)

    def without_rows(self, request: Request) -> set[int]:
        """Returns the resources that a request changes beside its changes of rows: the concept from which another one
        is split off; and the owner of a value. By its status a concept may come to those that are linked with it, or
        go."""
        if request["do"] == "split":
            return {request["source"]}
        if request["do"] != "set":
            return set()
        it = self.replica.get(request["owner"]) if request["field"] == "status" else None
        return {request["owner"]}.union(*(link[1:] for link in (it.links() if it else ())))

    def look(self, outcome: Outcome, changes: Sequence[Change]) -> None:
        """Reads the store again, and settles by it a plan whose answer isn't known."""
        self.end_program()
        try:
            differing = self.take_up()
        except ToolError as error:
            log.error("the store can't be read again: %s", error)
            outcome.state = "unknown"
            # (as soon as the store can be opened, it is settled)
            self.journal.leave_open()
            return
        if not outcome.is_done:
            self.settle_outcome(outcome, changes)
        numbers = outcome.numbers()
        for step in outcome.steps:
            step.request = resolve_request(step.request, numbers)
        self.note_differences(differing, [Plan(outcome.plan or 0, "", "", "", outcome.state, outcome.steps)])
        # (the replica has its changes)
        self.write(outcome, changed_by(outcome.steps, self.values), ())
        try:
            self.open_program()
        except ToolError as error:
            log.error("the store can't be opened again: %s", error)

    def settle_outcome(self, outcome: Outcome, changes: Sequence[Change]) -> None:
        """Settles a plan whose answer isn't known by the replica, which is that of the store again."""
        state = look_for(self.replica, changes)
        log.warning("plan %s: a look at the store shows: %s", outcome.plan, state)
        mark_steps(outcome.steps, state)
        if state == "lost" and outcome.answer and "fault" in outcome.answer:
            outcome.state = "fault"
        else:
            outcome.state, outcome.at, outcome.answer = state, None, None

    # --- more than requests ---

    def tried(self, requests: Sequence[Request]) -> Answer:
        """Returns what the program says that a plan would do now: its changes and answers, or the refusal; nothing if
        the program can't be asked."""
        if self.is_opening:
            return {}
        try:
            return self.program.ask({"try": list(requests)})
        except (NoAnswer, TooLong):
            return {}

    def bring_in(self, user: str, rows: bytes, name: str) -> PostingImport:
        """Imports a posting file. Pages are there meanwhile; other changes wait."""
        with self.alone() as is_free:
            if fault := self.fault_of_now(is_free):
                return PostingImport("fault", answer={"fault": fault})
            with self.compared_if_broken_off():
                return bring_in(self, user, rows, name)


__all__ = ["PostingImport", "Desk", "Outcome"]
