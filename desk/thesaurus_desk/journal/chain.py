"""A chain of digests over the plans, by which a change of the journal by other means than a desk is found.

Each plan that ends gets an entry: a digest of what it asked for and what came of it, one of who asked for it, and one
of both with the entry before. A plan that is settled later gets another entry. Who asked is hashed with a salt, so that
a name can be forgotten with its salt, and the chain still holds."""
from __future__ import annotations

import hashlib
import json
import re
import secrets
import sqlite3
from collections.abc import Iterator

from thesaurus_desk.journal.schema import Database

CONTENT = "SELECT id, at, action, state, takes_back, first FROM plan WHERE id = ?"
STEPS = "SELECT place, state, request, answer, kept FROM step WHERE plan = ? ORDER BY place"
ENTRIES = "SELECT chain.*, plan.id, user, proposer FROM chain LEFT JOIN plan ON plan.id = chain.plan ORDER BY number"
# What is there in place of a name that was forgotten.
FORGOTTEN = re.compile("#[1-9][0-9]*")


def digest_of(*parts: object) -> str:
    """Returns a digest of texts, numbers and lists of these."""
    return hashlib.sha256(json.dumps(parts, ensure_ascii=False, separators=(",", ":")).encode()).hexdigest()


def digest_of_plan(rows: sqlite3.Connection, plan: int) -> str:
    """Returns the digest of what a plan asked for, and what came of it."""
    return digest_of(*(tuple(it) for query in (CONTENT, STEPS) for it in rows.execute(query, (plan,))))


def append(rows: sqlite3.Connection, plan: int) -> None:
    """Gives a plan that has ended its entry."""
    last = rows.execute("SELECT digest FROM chain ORDER BY number DESC LIMIT 1").fetchone()
    names = rows.execute("SELECT user, proposer FROM plan WHERE id = ?", (plan,)).fetchone()
    salt = secrets.token_hex(16)
    who, content = digest_of(salt, *names), digest_of_plan(rows, plan)
    values = (plan, salt, who, content, digest_of(last and last[0], plan, who, content))
    rows.execute("INSERT INTO chain (plan, salt, who, content, digest) VALUES (?, ?, ?, ?, ?)", values)


def is_by(entry: sqlite3.Row) -> bool:
    """Whether the names of an entry's plan are those that it had, or were forgotten."""
    names = (entry["user"], entry["proposer"])
    if not entry["salt"]:
        return any(FORGOTTEN.fullmatch(it or "") for it in names)
    return bool(entry["who"] == digest_of(entry["salt"], *names))


def breaks(journal: Database) -> Iterator[str]:
    """Yields where the chain doesn't hold, or isn't that of the plans."""
    before, last = None, {}
    for it in journal.all(ENTRIES):
        plan = it["plan"]
        if it["digest"] != digest_of(before, plan, it["who"], it["content"]):
            yield f"the digest of plan {plan} doesn't follow from the one before: one was changed or removed"
        if it["id"] is not None and not is_by(it):
            yield f"plan {plan} has another user or proposer than when it ended"
        before, last[plan] = it["digest"], it["content"]
    for plan, content in last.items():
        if not journal.one(CONTENT, plan):
            yield f"plan {plan} isn't in the journal any more"
        elif content != digest_of_plan(journal.reader, plan):
            yield f"plan {plan} isn't as it was when it ended"
    without = "SELECT id FROM plan WHERE state <> 'sent' AND id > ? AND id NOT IN (SELECT plan FROM chain) ORDER BY id"
    for it in journal.all(without, min(last)) if last else ():
        yield f"plan {it['id']} has no digest: no desk of this version has written it"


def has_digest(journal: Database, digest: str) -> bool:
    """Whether a digest that was noted before is one of the chain."""
    return journal.one("SELECT 1 FROM chain WHERE digest = ?", digest) is not None


def last_entry(journal: Database) -> tuple[int, str] | None:
    """Returns the last plan of the chain with its digest, if there is one."""
    found = journal.one("SELECT plan, digest FROM chain ORDER BY number DESC LIMIT 1")
    return (found["plan"], found["digest"]) if found else None
