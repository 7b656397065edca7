"""Takes a user's name out of the journal: a number takes its place."""
from __future__ import annotations

import sqlite3
from dataclasses import replace

from thesaurus_desk.journal.chain import FORGOTTEN
from thesaurus_desk.journal.entries import LOOKED_AT, Journal
from thesaurus_desk.journal.rights import read_rights, write_rights

# The columns that have names of users.
NAMES = {
    "plan": ("user", "proposer"),
    "proposal": ("user", "decided_by"),
    "comment": ("user", "removed_by"),
    "release": ("user",),
    "mapping_decision": ("user",),
    "queue": ("user",),
    "visitor_proposal": ("settled_by",),
}
# Rows that go with the name: what someone watches, and what is kept for some time only.
ROWS = {
    **dict.fromkeys(("watch", "watcher", "upload", "run"), "user = ?"),
    **dict.fromkeys(("sign_in", "failure"), "name = ?"),
    "error": "instr(text, ?)",
}


def forget(journal: Journal, name: str) -> tuple[str, int]:
    """Replaces a name wherever the journal has it as that of a user, and returns what takes its place, and in how many
    rows. Texts that people wrote stay as they are."""
    leave_schemes(journal, name)
    with journal.writing() as rows:
        number = next_number(rows)
        rows.execute(
            "UPDATE chain SET salt = '' WHERE plan IN (SELECT id FROM plan WHERE user = ?1 OR proposer = ?1)", (name,)
        )
        count = sum(
            rows.execute(f"UPDATE {table} SET {column} = ? WHERE {column} = ?", (number, name)).rowcount
            for table, columns in NAMES.items()
            for column in columns
        )
        for table, test in ROWS.items():
            rows.execute(f"DELETE FROM {table} WHERE {test}", (name,))
        looked = f"{LOOKED_AT} {{}}".format
        count += rows.execute("UPDATE plan SET note = ? WHERE note = ?", (looked(number), looked(name))).rowcount
    # (what the file had where it is free now, and its log, go as well)
    journal.rows.execute("VACUUM")
    journal.rows.execute("PRAGMA wal_checkpoint(TRUNCATE)")
    return number, count


def leave_schemes(journal: Journal, name: str) -> None:
    """Takes a user out of those who alone change a scheme; if nobody is left, heads alone do."""
    rights = read_rights(journal)
    if any(name in them for them in rights.people.values()):
        write_rights(journal, replace(rights, people={it: them - {name} for it, them in rights.people.items()}))


def has_name(journal: Journal, name: str) -> bool:
    """Whether the journal has a name as that of a user."""
    return name in names_in(journal.rows)


def names_in(rows: sqlite3.Connection) -> set[str]:
    """Returns the names of users in the journal."""
    query = " UNION ".join(f"SELECT {column} FROM {table}" for table, its in NAMES.items() for column in its)
    return {name for (name,) in rows.execute(query) if name is not None}


def next_number(rows: sqlite3.Connection) -> str:
    """Returns a number that stands for no other user."""
    numbers = [int(it[1:]) for it in names_in(rows) if FORGOTTEN.fullmatch(it)]
    return f"#{max(numbers, default=0) + 1}"
