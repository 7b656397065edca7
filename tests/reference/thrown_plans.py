"""Throws plans, which are the same in each run, and has scripts of them."""
from __future__ import annotations

from dataclasses import dataclass, field
from typing import Any

from dice import Requests
from mangling import mangled
from plain import Plain
from plain_plans import ASKS, MAKES, MOST_REQUESTS, perform_line
from program import Ended, lines_of, text_of

Request = dict[str, Any]
# One script in this number has limits that its plans reach.
SMALL = {"resources": 60, "labels": 90, "links": 40, "postings": 90, "moves": 60}


class Plans(Requests):
    """Throws plans that are likely to be done, or to be refused for some reason."""

    def length(self) -> int:
        """How many requests a plan has: mostly a few."""
        return self.pick((1, 2, 2, 3, 3, 4, 5, 6, 8, self.between(1, 20), self.between(1, 20)))

    def plan(self, plain: Plain, length: int) -> list[Any]:
        """A plan of up to so many requests, thrown in the state after those before them; most of those that are
        refused are thrown anew."""
        plan: list[Any] = []
        made: dict[tuple[str, int], int] = {}
        for _ in range(40):
            if len(plan) >= length:
                break
            request = self.request(plain)
            if "get" in request:
                continue
            after, answer = plain.perform(request)
            if "no" in answer and not self.one_in(30):
                continue
            plain = after
            plan.append(self.referring(request, made))
            number = answer.get("ok", answer.get("again"))
            if number:
                made[MAKES[request["do"]], number] = len(plan)
        return plan or [self.making(plain)]

    def referring(self, request: Request, made: dict[tuple[str, int], int]) -> Request:
        """A request with references in place of most numbers that the plan made."""

        def one(kind: str, number: Any) -> Any:
            place = made.get((kind, number))
            if self.one_in(300):
                return f"${self.pick((0, 1, 2, MOST_REQUESTS, 2**32 + 1))}"
            return number if place is None or self.one_in(8) else f"${place}"

        return {
            name: it
            if name not in ASKS
            else [one(ASKS[name], n) for n in it]
            if isinstance(it, list)
            else one(ASKS[name], it)
            for name, it in request.items()
        }

    def thrown(self, plain: Plain) -> bytes:
        """The text of a plan; now and then a damaged one."""
        text = text_of(self.plan(plain, self.length()))
        return mangled(self, text).replace(b"\n", b" ") if self.one_in(12) else text


@dataclass
class Script:
    """Lines of requests and plans, with their answers, and the state after them, by the plain program."""

    limits: dict[str, int]
    lines: list[bytes] = field(default_factory=list)
    answers: list[Request] = field(default_factory=list)
    plain: Plain = field(init=False)

    def __post_init__(self) -> None:
        self.plain = Plain(self.limits)

    def add(self, line: bytes) -> None:
        if line.strip(b" \t\r"):
            self.plain, answer = perform_line(self.plain, line.removesuffix(b"\r"))
            self.lines.append(line)
            self.answers.append(answer)

    def options(self) -> list[str]:
        return [it for name, limit in self.limits.items() for it in (f"--max-{name}", str(limit))]

    def wanted(self) -> Ended:
        is_refused = any("no" in it or "bad" in it for it in self.answers)
        return Ended(int(is_refused), lines_of(self.answers), b"")
