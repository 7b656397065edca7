"""Replicas of what requests make, for tests of what only reads."""
from __future__ import annotations

import json
import subprocess
from pathlib import Path
from typing import Any

from program import built
from thesaurus_desk.store.export_replica import ExportReplica
from thesaurus_tools.table_store import TABLES_VERSION

BASE = "https://thesaurus.example/id/"


class MadeReplica(ExportReplica):
    """A replica of a store that the program makes by requests, all of which it accepts."""

    def __init__(self, *requests: dict[str, Any], base: str = BASE) -> None:
        super().__init__({"meta": [(1, TABLES_VERSION, base)]})
        self.store, self.base_of_store = Path(self.folder.name, "made.db"), base
        self.perform(*requests)

    def perform(self, *requests: dict[str, Any]) -> None:
        """Performs more requests."""
        lines = "".join(json.dumps(it) + "\n" for it in requests)
        words = [built(), "--db", str(self.store), "--base", self.base_of_store, "script"]
        ran = subprocess.run(words, input=lines.encode(), capture_output=True, check=False)
        assert ran.returncode == 0, ran.stdout
        self.take(self.store)
