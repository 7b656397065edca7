"""Loads a dump that was sent to the desk, or removes a vocabulary: by the tool, in a process of its own, while pages
are there."""
from __future__ import annotations

import subprocess
import sys
import tempfile
import threading
from dataclasses import dataclass, field
from pathlib import Path

from thesaurus_desk.mapping.decisions import Decisions
from thesaurus_tools.parse_places import ParsePlace, place_of_text

TOOL = Path(__file__).resolve().parents[3] / "tools" / "load-vocabulary"
# The seconds that a load may take, and those that its sender waits for it.
LONGEST, PATIENCE = 1800, 2.0
# How many of the lines that the tool prints are shown.
SHOWN = 12


@dataclass
class Load:
    """A dump that is being loaded, or was: what the tool said, and whether it was done. Without a file, a vocabulary
    that is removed."""

    name: str
    file: str
    said: list[str] = field(default_factory=list)
    # Where the dump is wrong, if that is known.
    place: ParsePlace = ParsePlace(0, 0, "")
    is_done: bool = False
    is_over: bool = False


class Loads:
    """Loads one dump at a time, or removes a vocabulary."""

    def __init__(self, store: Path, decisions: Decisions) -> None:
        self.store, self.decisions = store, decisions
        self.lock = threading.Lock()
        # The last one.
        self.last: Load | None = None

    def start(self, name: str, file: str, data: bytes) -> bool:
        """Begins to load a dump, and waits a little for it. Reports False, and does nothing, while one is loaded."""
        return self.begin(Load(name, file), data)

    def remove(self, name: str) -> bool:
        """Begins to remove a vocabulary, as `start` loads one."""
        return self.begin(Load(name, ""), b"")

    def begin(self, load: Load, data: bytes) -> bool:
        """Begins with a load, unless one is under way."""
        with self.lock:
            if self.last and not self.last.is_over:
                return False
            self.last = load
        thread = threading.Thread(target=self.run, args=(load, data), name="load", daemon=True)
        thread.start()
        thread.join(PATIENCE)
        return True

    def run(self, load: Load, data: bytes) -> None:
        """Loads a dump, or removes a vocabulary, and notes what came of it."""
        try:
            with tempfile.TemporaryDirectory() as folder:
                path = Path(folder, "dump" + "".join(Path(load.file.lower()).suffixes[-2:]).replace("/", ""))
                path.write_bytes(data)
                words = (
                    [str(path), "--name", load.name, "--called", load.file] if load.file else ["--remove", load.name]
                )
                command = [sys.executable, str(TOOL), "--db", str(self.store), *words]
                ran = subprocess.run(command, capture_output=True, text=True, timeout=LONGEST, check=False)
            lines = ran.stderr.replace(str(path), load.file).splitlines()
            load.said = [it.removeprefix("load-vocabulary: ") for it in lines[-SHOWN:]]
            load.is_done = ran.returncode == 0
            load.place = place_of_text(load.file, load.said[-1]) if load.said and load.file else load.place
            if load.place.line:
                load.said = [load.place.reason]
            self.decisions.note_lacking()
        except (OSError, subprocess.TimeoutExpired) as error:
            load.said = [str(error)]
        finally:
            load.is_over = True
