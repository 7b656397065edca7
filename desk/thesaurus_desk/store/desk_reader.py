"""What pages read of a desk: its replica and its journal, in whichever process they are made."""
from __future__ import annotations

from pathlib import Path
from typing import NoReturn

from thesaurus_desk.journal import History, Journal, Plan, journal_of
from thesaurus_desk.journal.batches import Batches
from thesaurus_desk.journal.daily_counts import DailyCounts
from thesaurus_desk.journal.edit_conflicts import FormMarks
from thesaurus_desk.journal.proposals import Proposals
from thesaurus_desk.journal.queue import Queue
from thesaurus_desk.journal.record_texts import RecordTexts
from thesaurus_desk.journal.releases import Releases
from thesaurus_desk.journal.rights import Rights, read_rights
from thesaurus_desk.journal.runs import Runs
from thesaurus_desk.journal.schema import OfficeNeeded
from thesaurus_desk.journal.undo import TakeBack, take_back
from thesaurus_desk.journal.values import Values
from thesaurus_desk.journal.visitor_proposals import VisitorProposals
from thesaurus_desk.journal.watches import Watches
from thesaurus_desk.mapping.decisions import Decisions
from thesaurus_desk.mapping.vocabularies import Vocabularies
from thesaurus_desk.store.arrays import Arrays
from thesaurus_desk.store.below_counts import BelowCounts
from thesaurus_desk.store.record_suggestions import Suggester
from thesaurus_desk.store.replica import PublicReplica, Replica
from thesaurus_desk.store.worklists import count_quality
from thesaurus_tools.vocabulary_tables import vocabularies_of


class DeskReader:
    """The replica and the journal of a desk, with their look-ups."""

    def __init__(self, db: Path, journal: Journal) -> None:
        self.db, self.journal = db, journal
        self.history = History(journal)
        self.batches = Batches(journal)
        self.runs = Runs(journal)
        self.values = Values(journal)
        self.arrays = Arrays(journal, self.values)
        self.releases = Releases(journal)
        self.proposals = Proposals(journal)
        self.visitor_proposals = VisitorProposals(journal, self.proposals)
        self.watches = Watches(journal)
        self.queue = Queue(journal)
        self.record_texts = RecordTexts(journal)
        self.replica = Replica(journal.path)
        self.public = PublicReplica(journal.path)
        self.daily_counts = DailyCounts(journal, lambda: count_quality(self.replica))
        self.suggester = Suggester(self.replica)
        self.seen = FormMarks(self.replica, journal)
        self.vocabularies = Vocabularies(vocabularies_of(db))
        self.decisions = Decisions(journal, self.vocabularies)
        self.replica.names = self.public.names = self.decisions.names
        self.below = BelowCounts(self.replica, journal)

    def rights(self, name: str = "") -> Rights:
        """Returns what the head has settled of who may do what, for someone."""
        return read_rights(self.journal, name, self.replica)

    def public_view(self) -> Replica:
        """Returns what the public sees of the store; in a thread that reads it already the same."""
        return self.public if self.public.is_reading or self.replica.hides else self.replica

    def take_back(self, plan: Plan, label: tuple[str, str] | None = None) -> TakeBack:
        """Returns what would take a plan back now, with the other parts of a long one; `undo_run` performs it."""
        return take_back(self.journal, self.replica, self.journal.parts(plan), label)


class ReadJournal(Journal):
    """The journal of a desk that another process has open, for reading."""

    def transaction(self) -> NoReturn:
        """Raises OfficeNeeded."""
        raise OfficeNeeded(f"{self.path} is written")

    def close(self) -> None:
        """Closes the file."""
        self.reader.close()


class ReadDesk(DeskReader):
    """A desk in a process that reads: what only the office has can't be asked for."""

    def __init__(self, db: Path) -> None:
        journal = ReadJournal(journal_of(db))
        journal.open_reader()
        super().__init__(db, journal)

    def __getattr__(self, name: str) -> NoReturn:
        """Raises OfficeNeeded: the program, the lock, and what goes through them."""
        raise OfficeNeeded(name)

    def close(self) -> None:
        """Closes the file."""
        self.replica.close()
        self.public.close()
        self.journal.close()
