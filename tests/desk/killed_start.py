"""A desk that kills itself as it starts over an earlier desk's journal: `killed_start.py STORE PROGRAM POINT`.

POINT is `copied` (the copy is made, and nothing else), `tables` (in the midst of the new tables), `replica` (in the
midst of the store's tables), `settled` (all is done, and not committed) or `begun` (all is done)."""
from __future__ import annotations

import os
import signal
import sqlite3
import sys
from pathlib import Path
from typing import Any

from thesaurus_desk.journal import schema
from thesaurus_desk.store import build
from thesaurus_desk.store.plan_execution import Desk


def kill(*words: object, **named: object) -> None:
    """Ends this process as a power cut would."""
    os.kill(os.getpid(), signal.SIGKILL)


def kill_within_tables() -> None:
    """Has the statements that make the new tables end this process."""
    connect = sqlite3.connect

    def connect_with_kill(*words: Any, **named: Any) -> sqlite3.Connection:
        made: sqlite3.Connection = connect(*words, **named)
        made.create_function("kill", 0, kill)
        return made

    schema.sqlite3.connect = connect_with_kill  # type: ignore[assignment, attr-defined]
    schema.VALUES += "SELECT kill();"


def main() -> None:
    store, program, point = sys.argv[1:]
    if point == "copied":
        schema.Database.make_tables = kill  # type: ignore[method-assign, assignment]
    elif point == "tables":
        kill_within_tables()
    elif point == "replica":
        build.fill_words = kill
    elif point == "settled":
        schema.Database.note_version = staticmethod(kill)  # type: ignore[method-assign, assignment]
    else:
        Desk.begin_opening = kill  # type: ignore[method-assign, assignment]
    Desk(Path(store), program).start()


if __name__ == "__main__":
    main()
