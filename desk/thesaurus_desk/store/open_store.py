"""The store that a desk has open: its program, its replica and its journal, from the start to the end."""
from __future__ import annotations

import contextlib
import logging
import os
import sqlite3
import threading
import time
from collections.abc import Iterable, Iterator, Mapping, Sequence
from concurrent.futures import Future
from pathlib import Path

from thesaurus_desk.importing.posting_files import resume
from thesaurus_desk.journal import Journal, journal_of
from thesaurus_desk.journal.entries import Plan, write_digest
from thesaurus_desk.journal.recovery import StartReport, explained_by, note_changes, start
from thesaurus_desk.journal.schema import FileReplaced
from thesaurus_desk.journal.values import owners_of_statuses
from thesaurus_desk.store.changes import Change, WrongChange
from thesaurus_desk.store.copies import Copies
from thesaurus_desk.store.desk_reader import DeskReader
from thesaurus_desk.store.difference import mark_of, mark_of_log
from thesaurus_desk.store.digest import read_digest
from thesaurus_desk.store.plan_outcome import Outcome
from thesaurus_desk.store.program import LAST_LINE, PATIENCE, Program
from thesaurus_desk.store.public_view import update_public_view
from thesaurus_desk.store.resources import counts_of
from thesaurus_desk.store.run_threads import RunThreads
from thesaurus_desk.store.upkeep import Upkeep
from thesaurus_tools.command_line import ToolError
from thesaurus_tools.limits import most_resources
from thesaurus_tools.program import is_in_use

log = logging.getLogger("desk")
# Seconds before a store that couldn't be opened is tried again.
PAUSE = 5.0
# How many seconds to wait for the end of a program that has the store; and a plan for another one, or for an import.
WAIT, WAIT_FOR_PLAN, WAIT_FOR_LONG = 5.0, 0.5, 9.5
# How many may wait for what takes longer than a plan.
MOST_WAITING = 2
# The bytes from which on a store is a large one, and how many seconds are waited for the program to open it before
# pages are served.
LARGE, SOON = 4_000_000, 0.2
# The most bytes of a store whose making was cut short, beside which its mark is still there.
BLANK = 4096


def has_store(path: Path) -> bool:
    """Whether a file has a store, and not only one whose making was cut short."""
    size = path.stat().st_size if path.exists() else 0
    return size > (BLANK if Path(f"{path}-making").exists() else 0)


def is_large(path: Path) -> bool:
    """Whether the program takes a while to open a store."""
    return path.exists() and path.stat().st_size > LARGE


def wait_until_free(store: Path) -> None:
    """Waits for some time while another program has the store open, as the program of a killed desk may, until it has
    finished its last plan."""
    end = time.monotonic() + WAIT
    while is_in_use(store) and time.monotonic() < end:
        time.sleep(0.05)


class OpenStore(DeskReader):
    """The store, its program and its journal."""

    def __init__(
        self,
        db: Path,
        program: str,
        *,
        base: str | None = None,
        options: tuple[str, ...] = (),
        patience: float = PATIENCE,
    ) -> None:
        super().__init__(db, Journal(journal_of(db)))
        # What the IRIs of the store begin with, if it is to be made.
        self.base = base
        self.program = Program(program, db, options, patience)
        self.upkeep = Upkeep(self.journal.path, db)
        self.most_resources = most_resources(options)
        # Held for a whole plan.
        self.lock = threading.RLock()
        # For those who wait for more than a plan; and how many wait at all.
        self.places = threading.Semaphore(MOST_WAITING)
        self.waiting: set[int] = set()
        # Tables that are tried or performed beside the pages.
        self.threads = RunThreads(self.runs)
        # What came of plans while the journal couldn't be written, with the changes of rows that they have made.
        self.unwritten: list[tuple[Outcome, set[int], Sequence[Change]]] = []
        # The log of the store, and the marks of both files, and of the log, as the program left them.
        self.log = Path(f"{db}-wal")
        self.store_mark, self.log_mark = "", mark_of_log(self.log)
        # What was found at the start, and each time when the store was opened again.
        self.found = StartReport()
        self.copies = Copies(self)
        # Whether the store is being opened, and not before when that is tried again.
        self.is_opening, self.not_before = False, 0.0

    # --- its life ---

    def start(self, patience: float | None = None) -> None:
        """Opens the journal, brings the replica up to the store, settles what an earlier desk left open, and starts the
        program. Raises ToolError.

        After some seconds, if they are given, a program that still opens a large store isn't waited for: pages are
        there, and changes are refused meanwhile."""
        try:
            self.journal.open()
            if self.base and not has_store(self.db):
                self.program.make_store(self.base)
            self.found = self.settle(self.take_up())
            self.begin_opening(patience)
        except sqlite3.Error as error:
            self.program.stop()
            self.journal.close()
            raise ToolError(f"{self.journal.path}: the journal can't be written: {error}") from None
        except BaseException:
            self.program.stop()
            self.journal.close()
            raise

    def begin_opening(self, patience: float | None) -> None:
        """Starts the program, and waits some seconds for it, or as long as it takes. Raises ToolError."""
        opened: Future[None] = Future()
        self.is_opening = True
        threading.Thread(target=self.open_apart, args=(opened,), name="opening", daemon=True).start()
        try:
            opened.result(patience)
        except TimeoutError:
            opened.add_done_callback(self.note_opening)

    def open_apart(self, opened: Future[None]) -> None:
        """Starts the program in a thread of its own."""
        try:
            with self.lock:
                self.open_program()
        except BaseException as error:
            opened.set_exception(error)
        else:
            opened.set_result(None)

    def note_opening(self, opened: Future[None]) -> None:
        """Notes that the program, which nobody waited for, couldn't be started."""
        if error := opened.exception():
            self.not_before = time.monotonic() + PAUSE
            log.error("the store can't be opened: %s", error)

    def stop(self) -> None:
        """Ends the program, notes the digest of the store, and closes the journal."""
        self.threads.stop()
        if self.is_opening:
            self.program.kill()
        with self.lock:
            if self.journal.lock_file < 0:
                return
            is_known = not self.program.has_ended() and not self.has_lost_file()
            self.end_program()
            self.copies.close()
            try:
                self.write_late()
                if is_known:
                    self.journal.note_stop(self.replica.digest())
                    self.note_mark()
            except sqlite3.Error as error:
                log.error("%s: the journal can't be written: %s", self.journal.path, error)
            self.replica.close()
            self.public.close()
            self.journal.close()

    def take_up(self) -> frozenset[int] | None:
        """Brings the replica up to the store, which no program has open: a store that isn't there isn't made. Returns
        the resources of which it had others; None if it was made anew. Raises ToolError."""
        self.is_opening = True
        try:
            wait_until_free(self.db)
            differing = self.upkeep.take_up()
            self.replica.renew()
            self.note_store()
            return differing
        finally:
            self.is_opening = False

    def note_store(self) -> None:
        """Notes the marks of the store's files as the program has left them; not those of others in their place."""
        with contextlib.suppress(OSError):
            if os.stat(self.db).st_ino == self.upkeep.inode:
                self.store_mark, self.log_mark = mark_of(self.db), mark_of_log(self.log)

    def end_program(self) -> None:
        """Ends the program: at once if its store was overwritten, since at its end it would write its log into what is
        there now. The log, which belongs to what was there, is kept under another name."""
        if self.is_overwritten():
            log.error("%s was overwritten while the desk ran; its log is now %s-old", self.db, self.log)
            self.program.kill()
            if mark_of_log(self.log) == self.log_mark:
                with contextlib.suppress(FileNotFoundError):
                    self.log.rename(f"{self.log}-old")
        self.program.stop()

    def is_overwritten(self) -> bool:
        """Whether another program has written to the store that the program has open."""
        try:
            self.check_store()
        except FileReplaced:
            return self.db.exists() and os.stat(self.db).st_ino == self.upkeep.inode
        return False

    def open_program(self) -> None:
        """Starts the program, and sends again what was cut short. Raises ToolError."""
        self.is_opening = True
        try:
            self.program.start()
            # (opening alone changes the store's log)
            self.note_mark()
            self.note_store()
        finally:
            self.is_opening = False
        for plan in self.journal.cut_imports():
            resume(self, plan)

    def reload(self, explained: Iterable[Plan] = ()) -> None:
        """Reads the store again; the program ends for it, and another one begins. What no plan explains is noted as
        changed by other means. Raises ToolError."""
        with self.lock:
            self.end_program()
            differing = self.take_up()
            self.note_differences(differing, explained)
            self.open_program()

    def has_lost_file(self) -> bool:
        """Whether the store or the journal isn't at its path any more, or another program has written to the store."""
        if self.journal.is_lost():
            return True
        # (while a plan is under way, the program writes to the store)
        if not self.lock.acquire(blocking=False):
            return False
        try:
            self.check_store()
        except FileReplaced:
            return True
        finally:
            self.lock.release()
        return False

    def check_store(self) -> None:
        """Raises FileReplaced if the program has a store open that isn't at its path any more, or to which another
        program has written, as one does that copies a backup over it."""
        if self.program.has_ended():
            return
        try:
            is_same = mark_of(self.db) == self.store_mark
        except OSError:
            is_same = False
        if not is_same:
            raise FileReplaced(self.db, "StoreReplaced")

    def settle(self, differing: frozenset[int] | None) -> StartReport:
        """Settles what the journal has open by looking at the replica, and notes what no plan explains."""
        found = start(self.journal, self.replica, differing)
        with self.journal.writing() as rows:
            update_public_view(rows, ())
        self.replica.renew()
        return found

    def note_differences(self, differing: frozenset[int] | None, plans: Iterable[Plan]) -> None:
        """Notes what the store has otherwise than the journal knows, and what no plan explains."""
        try:
            explained = explained_by(self.journal, self.replica, plans)
            found = note_changes(self.journal, self.replica, differing, explained)
        except sqlite3.Error as error:
            log.error("%s: the journal can't be written: %s", self.journal.path, error)
            return
        if found.is_changed:
            self.found = found

    def reopen(self) -> str | None:
        """Starts the program again, if it has ended or has had as many lines as it takes, and compares the store with
        what the desk knows. Returns the name of the fault for which a plan isn't sent now: Closed (it can't be started
        now), or Replaced (the store isn't what the plan's author has seen)."""
        with self.lock:
            if not self.program.has_ended() and self.program.lines < LAST_LINE:
                return None
            if self.program.has_ended():
                log.warning("the program had ended, and is started again: %s", self.program.said() or "it said nothing")
            if time.monotonic() < self.not_before:
                return "Closed"
            try:
                self.end_program()
                found = self.settle(self.take_up())
                self.open_program()
            except ToolError as error:
                # (but not again and again)
                self.not_before = time.monotonic() + PAUSE
                log.error("the store can't be opened again: %s", error)
                return "Closed"
            except sqlite3.Error as error:
                # (nothing is sent until the store has been compared)
                self.program.stop()
                log.error("%s: the journal can't be written: %s", self.journal.path, error)
                return "Journal"
            if found.is_changed or found.settled:
                self.found = found
            return "Replaced" if found.is_changed else None

    def room(self) -> int:
        """Returns how many more resources the store may have: concepts, and concepts elsewhere, also ended ones."""
        return max(0, self.most_resources - self.replica.counts()["resources"])

    # --- its lock, and copies ---

    @contextlib.contextmanager
    def alone(self) -> Iterator[bool]:
        """Holds the lock for a plan; reports whether it was free in time. While the store is being opened nobody waits.

        Who waits holds the thread of a reader: all may wait for other plans, and few for what takes longer, as an
        import does."""
        self.waiting.add(threading.get_ident())
        try:
            is_free = self.lock.acquire(timeout=0 if self.is_opening else WAIT_FOR_PLAN)
            if not is_free and not self.is_opening and self.places.acquire(blocking=False):
                try:
                    is_free = self.lock.acquire(timeout=WAIT_FOR_LONG)
                finally:
                    self.places.release()
        finally:
            self.waiting.discard(threading.get_ident())
        # (what others have changed since the page began to be made is seen)
        self.replica.renew()
        try:
            yield is_free
        finally:
            if is_free:
                self.lock.release()

    def let_others(self) -> None:
        """Waits until those who wait for the lock have it, for one who takes it again and again."""
        end = time.monotonic() + WAIT_FOR_PLAN
        while self.waiting and time.monotonic() < end:
            time.sleep(0.001)

    def note_mark(self) -> None:
        """Notes that the replica is that of the store as it is now."""
        with self.journal.writing() as rows:
            self.upkeep.note_mark(rows)

    # --- what came of plans ---

    def write(self, outcome: Outcome, changed: set[int], changes: Sequence[Change]) -> None:
        """Writes down what came of a plan, and makes its changes in the replica; if the file can't be written, later.
        `changed` are resources that have changed without a change of rows."""
        try:
            if outcome.plan:
                self.write_one(outcome, changed, changes)
        except sqlite3.Error as error:
            log.error("%s: the journal can't be written: %s", self.journal.path, error)
            self.unwritten.append((outcome, changed, changes))
        # (who has changed something sees it)
        self.replica.renew()

    def write_one(self, outcome: Outcome, changed: set[int], changes: Sequence[Change]) -> None:
        """Writes down what came of a plan, and makes its changes in the replica. Raises sqlite3.Error."""
        changed, linked = set(changed), set[int]()
        done = [it.request for it in outcome.steps if it.state == "done"]
        owners = owners_of_statuses(done)

        def perform(rows: sqlite3.Connection) -> Mapping[str, int]:
            made = self.upkeep.perform(rows, changes)
            changed.update(made.changed)
            linked.update(made.linked)
            write_digest(rows, read_digest(rows))
            return counts_of(rows)

        def show(rows: sqlite3.Connection) -> None:
            update_public_view(rows, linked, owners)
            self.decisions.note_names(rows, [it["iri"] for it in done if it["do"] == "outside"])

        plan = outcome.plan or 0
        try:
            self.journal.finish(plan, outcome.state, outcome.steps, changed=changed, perform=perform, also=show)
        except WrongChange as error:
            log.error("the replica was wrong about %s", error)
            self.journal.finish(plan, outcome.state, outcome.steps, changed=changed)
            self.reload([Plan(plan, "", "", "", outcome.state, outcome.steps)])

    def write_late(self) -> None:
        """Writes down what came of plans while the journal couldn't be written.

        Raises sqlite3.Error if it still can't."""
        while self.unwritten:
            self.write_one(*self.unwritten[0])
            del self.unwritten[0]
