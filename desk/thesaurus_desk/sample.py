"""A sample that anyone can look at: thirty instruments with records, mappings, definitions and an array."""
from __future__ import annotations

import json
import subprocess
from pathlib import Path

from thesaurus_desk.store.plan_execution import Desk
from thesaurus_tools.command_line import ToolError

EXAMPLES = Path(__file__).resolve().parents[2] / "examples"
BASE = "https://museum.example/id/"
# Who looks at it, unless --alone names somebody.
GUEST = "guest"


def run_program(program: str, store: Path, *words: str | Path, given: Path | None = None) -> None:
    """Runs the program over the sample's store. Raises ToolError if it fails."""
    script = given.read_bytes() if given else None
    ran = subprocess.run([program, "--db", store, *words], input=script, capture_output=True, check=False)
    if ran.returncode:
        raise ToolError(f"the sample can't be made: {ran.stderr.decode(errors='replace').strip() or ran.returncode}")


def set_values(program: str, store: Path, user: str) -> None:
    """Sets what a desk keeps beside the store: a plan for each line. Raises ToolError if one isn't performed."""
    desk = Desk(store, program)
    desk.start()
    try:
        for line in (EXAMPLES / "definitions.jsonl").read_text(encoding="utf-8").splitlines():
            requests = [{"old": None, **it} if it["do"] == "set" else it for it in json.loads(line)]
            outcome = desk.perform(user, "values", requests)
            if not outcome.is_done:
                raise ToolError(f"the sample can't be made: {outcome.answer} at {outcome.at} of {line}")
    finally:
        desk.stop()


def make_sample(program: str, folder: Path, user: str = GUEST) -> Path:
    """Makes the sample in a folder, and returns its store, with the journal beside it."""
    store = folder / "sample.db"
    run_program(program, store, "--base", BASE, "script", given=EXAMPLES / "instruments.jsonl")
    run_program(program, store, "--existing", "import", EXAMPLES / "postings.csv")
    set_values(program, store, user)
    return store
