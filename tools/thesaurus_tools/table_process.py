"""Reads a table in a process of its own, within limits of time and memory: a small file may ask for much of both."""
from __future__ import annotations

import json
import os
import subprocess
import sys
from pathlib import Path

from thesaurus_tools.catalogue_records import ENDING, read_records
from thesaurus_tools.command_line import REFUSED, ToolError
from thesaurus_tools.files import TableError
from thesaurus_tools.parser_bounds import BoundReached, limit_run
from thesaurus_tools.spreadsheets import Row, read_table

# The time of a processor and the memory that a table may take: these, and as much again for its size.
SECONDS, SECONDS_FOR_MEGABYTE = 15, 10
MEMORY, MEMORY_FOR_BYTE = 256 << 20, 60
# How many times its time of a processor the process may take by the clock.
PATIENCE = 6


def limits_of(path: Path) -> tuple[float, int]:
    """Returns the seconds of a processor and the bytes of memory that a table may take."""
    size = path.stat().st_size
    return SECONDS + SECONDS_FOR_MEGABYTE * size / 1e6, MEMORY + MEMORY_FOR_BYTE * size


def read_apart(path: Path, encoding: str = "", sheet: str = "") -> list[Row]:
    """Returns the rows of a table that aren't blank, the heading first. Raises TableError, also for a table that takes
    more than its limits."""
    seconds, memory = limits_of(path)
    words = [sys.executable, "-P", "-m", __name__, str(path), encoding, sheet]
    places = [str(Path(__file__).parents[1]), os.environ.get("PYTHONPATH", "")]
    environment = {**os.environ, "PYTHONPATH": os.pathsep.join(filter(None, places))}
    costly = TableError("costly", path, seconds=round(seconds), megabytes=memory >> 20)
    try:
        ran = subprocess.run(words, capture_output=True, timeout=PATIENCE * seconds, check=False, env=environment)
        said = json.loads(ran.stdout)
    except (subprocess.TimeoutExpired, ValueError):
        # (without an answer it was stopped, or had no memory for one)
        raise costly from None
    if "key" in said:
        raise TableError(said["key"], path, said["line"], said["status"], **said["values"])
    if "said" in said:
        raise ToolError(said["said"], said["status"])
    if "rows" not in said:
        raise costly
    return [Row(line, cells) for line, cells in said["rows"]]


def answer(path: Path, encoding: str, sheet: str) -> dict[str, object]:
    """Returns the rows of a table, or why it isn't read."""
    try:
        with limit_run(*limits_of(path)):
            is_table = path.suffix != ENDING
            return {"rows": read_table(path, encoding, sheet) if is_table else read_records(path)}
    except TableError as error:
        values = {name: it if isinstance(it, int) else str(it) for name, it in error.values.items()}
        return {"key": error.key, "line": error.line, "status": error.status, "values": values}
    except ToolError as error:
        return {"said": str(error), "status": error.status}
    except (BoundReached, MemoryError):
        return {"status": REFUSED}
    except Exception as error:  # (whatever the readers of other forms don't foresee)
        values = {"form": path.suffix.removeprefix(".").upper(), "error": f"{type(error).__name__}: {error}"}
        return {"key": "damaged", "line": 0, "status": REFUSED, "values": values}


if __name__ == "__main__":
    json.dump(answer(Path(sys.argv[1]), *sys.argv[2:4]), sys.stdout)
