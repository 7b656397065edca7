"""Reads pages of a desk of some sources in a process of its own, for bench/fields.

Its arguments are a tree of sources, a store, the program, WHAT and COUNT. WHAT is `without`, the list of concepts
without a definition: it prints the median of the milliseconds of CPU. Or it is `turns`: for each path that it reads it
prints the milliseconds of CPU. Or it is `read`: until its input ends it reads pages of concepts as a process does that
only reads, and prints how many, and the milliseconds by the clock of the slowest."""
from __future__ import annotations

import random
import select
import statistics
import sys
import tempfile
import time
from collections.abc import Callable
from functools import partial
from pathlib import Path
from typing import Any

CONCEPTS, WARM = 20_000, 20


def opened(store: Path, program: str, reads: bool) -> Any:
    """A desk; that of older sources is elsewhere in them."""
    if reads:
        from thesaurus_desk.store.desk_reader import ReadDesk

        return ReadDesk(store)
    try:
        from thesaurus_desk.store.plan_execution import Desk
    except ImportError:
        from thesaurus_desk.performing import Desk  # type: ignore
    desk = Desk(store, program)
    desk.start()
    return desk


def client_of(desk: Any, folder: str) -> Any:
    """A head who has come in."""
    from clients import site_of, write_users  # type: ignore

    return site_of(desk, write_users(Path(folder, "users.json"))).client("anna")


def taken(work: Callable[[], Any], clock: Callable[[], float]) -> float:
    """The milliseconds that a page takes."""
    began = clock()
    answer = work()
    if answer.status_code != 200:
        sys.exit(f"a page was answered with {answer.status_code}")
    return 1000 * (clock() - began)


def main() -> None:
    tree, store, program, what, count = sys.argv[1:]
    sys.path[:0] = [f"{tree}/{it}" for it in ("desk", "tools", "tests/desk", "tests/program")]
    chance = random.Random(3)
    desk = opened(Path(store), program, what == "read")
    with tempfile.TemporaryDirectory() as folder:
        client = client_of(desk, folder)

        def page() -> Any:
            number = 2 + chance.randrange(CONCEPTS)
            return client.get("/lists/field/definition" if what == "without" else f"/c/{number}")

        if what == "read":
            found = [taken(page, time.monotonic) for _ in range(WARM)]
            print("ready", flush=True)
            found = []
            while not select.select([sys.stdin], [], [], 0)[0]:
                found.append(taken(page, time.monotonic))
            print(len(found), max(found, default=0))
        elif what == "turns":
            for line in sys.stdin:
                print(taken(partial(client.get, line.strip()), time.process_time), flush=True)
        else:
            found = [taken(page, time.process_time) for _ in range(int(count) + WARM)]
            print(statistics.median(found[WARM:]))
    (desk.close if what == "read" else desk.stop)()


if __name__ == "__main__":
    main()
