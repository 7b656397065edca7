"""What people watch: concepts, branches and proposals; what has happened to these; and where that is sent."""
from __future__ import annotations

import json
import secrets
from collections.abc import Iterable
from dataclasses import dataclass
from typing import Protocol

from thesaurus_desk.journal.entries import Journal, Plan
from thesaurus_desk.journal.history import ENDED_AT
from thesaurus_desk.journal.proposals import Comment, Proposal, proposal_of
from thesaurus_desk.journal.schema import now

KINDS = ("concept", "branch", "proposal")
# The most concepts of which news are shown at once, and the most changes of each.
MOST_NEWS, MOST_CHANGES = 200, 20
# The bytes of chance in a secret address.
SECRET = 24


# The changes of resources by others than someone, the last first; a plan has changed them when it ended.
CHANGES = f"""
SELECT concern.number, plan.id FROM plan JOIN concern ON concern.plan = plan.id
WHERE plan.id IN (SELECT id FROM plan WHERE at >= ?2 UNION SELECT plan FROM ended WHERE at >= ?2)
AND user <> ?1 AND state = 'done' AND changes = 1 AND {ENDED_AT} > ?2 AND {ENDED_AT} <= ?3
ORDER BY plan.id DESC
"""
# Of whom the news are, after which time, and until when.
Span = tuple[str, str, str]


class Branches(Protocol):
    """What is asked of a store."""

    def below(self, number: int) -> frozenset[int]:
        """Returns a concept and those below it."""


@dataclass(frozen=True, slots=True)
class Watch:
    """Something that is watched: a concept, with those below it if it is a branch, or a proposal."""

    kind: str
    number: int


@dataclass(frozen=True, slots=True)
class Watcher:
    """Someone who watches: the secret of the address of a feed; until when the news are read, and until when they were
    sent; where they are sent to, if anywhere, and in which language."""

    user: str
    secret: str
    seen: str
    mailed: str
    mail: str = ""
    language: str = "en"


@dataclass(frozen=True, slots=True)
class News:
    """What others have done since a time: changes of concepts, decisions on proposals, and comments, the last first."""

    changes: dict[int, list[Plan]]
    proposals: list[Proposal]
    comments: list[Comment]

    def __bool__(self) -> bool:
        return bool(self.changes or self.proposals or self.comments)


class Watches:
    """Keeps in the journal what people watch."""

    def __init__(self, journal: Journal) -> None:
        self.journal = journal
        # Why no mail could be sent since the last one that was; nothing if all is well.
        self.failure = ""

    def of(self, user: str) -> list[Watch]:
        """Returns what someone watches."""
        rows = self.journal.all("SELECT kind, number FROM watch WHERE user = ? ORDER BY kind, number", user)
        return [Watch(*it) for it in rows]

    def watch(self, user: str, watch: Watch, language: str) -> None:
        """Has someone watch something. Who didn't watch anything begins with what happens from now on."""
        at = now()
        with self.journal.writing() as rows:
            rows.execute("INSERT OR IGNORE INTO watch VALUES (?, ?, ?)", (user, watch.kind, watch.number))
            rows.execute(
                "INSERT INTO watcher (user, secret, seen, mailed, language) VALUES (?, ?, ?, ?, ?)"
                " ON CONFLICT DO UPDATE SET language = excluded.language",
                (user, secrets.token_urlsafe(SECRET), at, at, language),
            )

    def leave(self, user: str, watch: Watch) -> None:
        """Has someone watch something no more."""
        with self.journal.writing() as rows:
            rows.execute(
                "DELETE FROM watch WHERE user = ? AND kind = ? AND number = ?", (user, watch.kind, watch.number)
            )

    def watcher(self, user: str) -> Watcher | None:
        """Returns someone who watches, or has watched."""
        return self.one("user", user)

    def by_secret(self, secret: str) -> Watcher | None:
        """Returns who has the secret of an address."""
        return self.one("secret", secret)

    def one(self, column: str, value: str) -> Watcher | None:
        found = self.journal.one(
            f"SELECT user, secret, seen, mailed, mail, language FROM watcher WHERE {column} = ?", value
        )
        return Watcher(*found) if found else None

    def with_mail(self) -> list[Watcher]:
        """Returns those to whom news are sent."""
        rows = self.journal.all("SELECT user, secret, seen, mailed, mail, language FROM watcher WHERE mail <> ''")
        return [Watcher(*it) for it in rows]

    def note(self, user: str, column: str, value: str) -> None:
        """Writes down something of someone who watches."""
        with self.journal.writing() as rows:
            rows.execute(f"UPDATE watcher SET {column} = ? WHERE user = ?", (value, user))

    def note_seen(self, user: str, at: str) -> None:
        """Notes until when someone has read what has happened."""
        self.note(user, "seen", at)

    def note_mailed(self, user: str, at: str) -> None:
        """Notes until when someone was sent what has happened."""
        self.note(user, "mailed", at)

    def renew_secret(self, user: str) -> None:
        """Gives a feed another address; the one before leads nowhere."""
        self.note(user, "secret", secrets.token_urlsafe(SECRET))

    def set_mail(self, user: str, address: str, language: str) -> None:
        """Says where someone's news are sent from now on; nowhere, if there is no address."""
        at = now()
        known = self.watcher(user)
        with self.journal.writing() as rows:
            rows.execute(
                "INSERT OR IGNORE INTO watcher (user, secret, seen, mailed, language) VALUES (?, ?, ?, ?, ?)",
                (user, secrets.token_urlsafe(SECRET), at, at, language),
            )
            # (what happened before there was an address isn't sent)
            rows.execute(
                "UPDATE watcher SET mail = ?, mailed = ? WHERE user = ?",
                (address, known.mailed if known and known.mail else at, user),
            )

    def forget(self, user: str) -> None:
        """Forgets someone who is no user any more."""
        with self.journal.writing() as rows:
            rows.execute("DELETE FROM watch WHERE user = ?", (user,))
            rows.execute("DELETE FROM watcher WHERE user = ?", (user,))

    # --- news ---

    def news(self, user: str, since: str, branches: Branches, until: str = "") -> News:
        """Returns what others have done to what someone watches, after a time, until another one or now."""
        watched, span = self.of(user), (user, since, until or now())
        concepts = {it.number for it in watched if it.kind == "concept"}
        concepts.update(*(branches.below(it.number) for it in watched if it.kind == "branch"))
        proposals = [it.number for it in watched if it.kind == "proposal"]
        return News(self.changes(span, concepts), self.decided(span, proposals), self.comments(span, concepts))

    def changes(self, span: Span, concepts: set[int]) -> dict[int, list[Plan]]:
        """Returns the changes of concepts, those changed last first."""
        found: dict[int, list[int]] = {}
        for it in self.journal.all(CHANGES, *span):
            if it["number"] in concepts and (it["number"] in found or len(found) < MOST_NEWS):
                found.setdefault(it["number"], []).append(it["id"])
        ids = sorted({it for them in found.values() for it in them[:MOST_CHANGES]})
        query = "SELECT * FROM plan WHERE id IN (SELECT value FROM json_each(?))"
        plans = {it.id: it for it in self.journal.plans(query, json.dumps(ids))}
        return {number: [plans[it] for it in them[:MOST_CHANGES]] for number, them in found.items()}

    def decided(self, span: Span, proposals: Iterable[int]) -> list[Proposal]:
        """Returns the proposals that others have decided, the last first."""
        query = "SELECT * FROM proposal WHERE decided_by <> ? AND decided_at > ? AND decided_at <= ? AND id = ?"
        found = [row for it in proposals for row in self.journal.all(query, *span, it)]
        return sorted(map(proposal_of, found), key=lambda it: it.decided_at or "", reverse=True)

    def comments(self, span: Span, concepts: set[int]) -> list[Comment]:
        """Returns the comments at concepts that others have made, the last first."""
        query = "SELECT * FROM comment WHERE user <> ? AND at > ? AND at <= ? AND removed_at IS NULL ORDER BY id DESC"
        return [Comment(**dict(it)) for it in self.journal.all(query, *span) if it["number"] in concepts]
