"""A desk that kills itself: `killed_desk.py STORE PROGRAM PLAN POINT`. PLAN is JSON: the requests of a plan, or the
text of a posting file.

POINT is `before` or `after` (the first line that changes something), or `finish` (before the outcome is written)."""
from __future__ import annotations

import json
import os
import signal
import sys
from pathlib import Path
from typing import Any

from thesaurus_desk.store.plan_execution import Desk


def kill(*words: object, **named: object) -> None:
    """Ends this process as a power cut would."""
    os.kill(os.getpid(), signal.SIGKILL)


def main() -> None:
    store, program, text, point = sys.argv[1:]
    desk, plan = Desk(Path(store), program), json.loads(text)
    desk.start()
    ask = desk.program.ask

    def killed_around(request: Any) -> dict[str, Any]:
        is_change = "perform" in request or "each" in request
        if point == "before" and is_change:
            kill()
        answer = ask(request)
        if point == "after" and is_change:
            kill()
        return answer

    desk.program.ask = killed_around  # type: ignore[assignment]
    if point == "finish":
        desk.journal.finish = kill  # type: ignore[assignment]
    if isinstance(plan, str):
        desk.bring_in("anna", plan.encode(), "rows.csv")
    else:
        desk.perform("anna", "test", plan)
    desk.stop()


if __name__ == "__main__":
    main()
