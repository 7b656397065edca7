"""Loads a script with names: sends its lines, in plans where the program has them, and takes note of the answers."""
from __future__ import annotations

import argparse
import itertools
import json
import sys
from collections import Counter, deque

from thesaurus_tools.command_line import DONE, FAULT, REFUSED, ToolError
from thesaurus_tools.journal import Journal, match
from thesaurus_tools.load_scripts import Block, Line
from thesaurus_tools.one_plan import MOST_BYTES, MOST_REQUESTS, encode_plan
from thesaurus_tools.program import Performer, count_resources
from thesaurus_tools.progress import Progress
from thesaurus_tools.recovery import CLASSES, recover
from thesaurus_tools.requests import parse_json
from thesaurus_tools.shapes import shape_fault

# Requests that only add, so that what each of them did can be seen later, also if nobody saw the answer to their plan.
ADDITIONS = {"concept", "outside", "addLabel", "link", "post"}
# What a request is answered that is sent a second time, since nobody saw its first answer.
AGAIN = {
    "addLabel": "LabelThere",
    "dropLabel": "NoSuchLabel",
    "relabel": "S13",
    "link": "LinkThere",
    "unlink": "NoSuchLink",
    "deprecate": "NotLive",
    "merge": "NotLive",
    "withdraw": "Withdrawn",
}
# How many lines are sent one by one behind the first refused plan, and at most behind one; each refused plan doubles
# the number, and each that is done halves it.
CAUTION, MOST_CAUTION = 8, 4096
# The parts of a plan under way, each with the number of its first entry in the journal.
Sent = list[tuple[Line | Block, int]]


class Loader:
    """Sends the lines of a script, and takes note of their answers."""

    def __init__(self, target: Performer, journal: Journal, parts: list[Line | Block], given: argparse.Namespace):
        self.target, self.journal, self.given = target, journal, given
        self.numbers: dict[str, int] = {}
        self.counts: Counter[str] = Counter()
        self.status, self.is_stopped = DONE, False
        # The lines of a refused plan before the refused one, which are the next plan; how many lines are sent one by
        # one behind it; and how many will be behind the next one.
        self.before, self.singly, self.caution = 0, 0, CAUTION
        self.pending = deque(self.take_up(parts))
        self.left = sum(it.count for it in self.pending)
        self.progress = Progress(sum(it.count for it in parts))

    def take_up(self, parts: list[Line | Block]) -> list[Line | Block]:
        """Takes over what earlier runs did, and returns what is left."""
        answered, others = match(parts, self.journal, self.given.journal)
        for line, answer in answered:
            self.learn(line, answer)
        count = count_resources(self.target)
        if count < self.journal.resources:
            raise ToolError(
                (
                    f"{self.given.journal}: the store has {count} resources, and had "
                    f"{self.journal.resources}: it is another one"
                ),
                REFUSED,
            )
        found: set[Line | Block] = set()
        unseen = [it for it in others if isinstance(it, Line) and it.entry is not None and it.kind in CLASSES]
        for line, answer in recover(self.target, self.journal, unseen, self.numbers, count):
            self.learn(line, answer)
            found.add(line)
        self.counts["before"] = len(answered) + len(found)
        self.journal.note_run(count)
        return [it for it in others if it not in found]

    def learn(self, line: Line, answer: dict) -> None:
        """Counts a final answer, and learns the number that it gives to a name."""
        if "no" not in answer:
            self.counts["done"] += 1
            if line.name:
                self.numbers[line.name] = answer.get("ok") or answer["posting"]
        elif answer["no"] in self.given.ok:
            self.counts["refused as expected"] += 1
        else:
            self.counts["refused"] += 1
            self.status = max(self.status, REFUSED)

    def run(self) -> int:
        """Sends all lines, or those up to the first unexpected refusal, and returns the exit status."""
        number: int | str = "end"
        try:
            while self.pending and not self.is_stopped:
                number = self.pending[0].number
                if self.target.is_worn():
                    self.target.reopen()
                parts = self.next_parts()
                self.progress.show(self.left)
                if isinstance(parts[0], Line) and len(parts) == 1:
                    self.send_line(parts[0])
                else:
                    self.send_plan(parts)
        except ToolError as error:
            raise ToolError(f"{self.given.script}:{number}: {error}") from None
        finally:
            self.progress.end()
            self.journal.write()
        return self.status

    # --- Sending ---

    def goes_singly(self) -> bool:
        """Whether lines are sent one by one now."""
        return self.singly > 0 and not self.before or not self.target.takes_plans()

    def is_single(self, line: Line) -> bool:
        """Whether a line is never in a plan: a query; one that an earlier run sent; and, if there is a journal, what
        can't be seen later, since a later run may have to find out whether it was performed."""
        is_kept = self.journal.file is not None
        return "do" not in line.request or line.entry is not None or is_kept and line.kind not in ADDITIONS

    def next_parts(self) -> list[Line | Block]:
        """Takes what is sent next: the parts of a plan, or one line."""
        parts: list[Line | Block] = []
        names: set[str] = set()
        count, size, most, is_singly = 0, 0, self.before or MOST_REQUESTS, self.goes_singly()
        while self.pending and not (parts and is_singly):
            part = self.pending[0]
            lacks_number = not part.uses <= self.numbers.keys() and not part.uses <= self.numbers.keys() | names
            if isinstance(part, Block) and (is_singly or lacks_number and not parts):
                self.pending.popleft()
                self.pending.extendleft(reversed(part.lines()))
                continue
            is_single = isinstance(part, Line) and self.is_single(part)
            # (a character has at most four bytes)
            size += 4 * len(part.text)
            if parts and (is_single or lacks_number or count + part.count > most or size > MOST_BYTES):
                break
            self.pending.popleft()
            parts.append(part)
            names.update(part.names)
            count += part.count
            if is_single or lacks_number:
                break
        self.left -= count
        return parts

    def send_line(self, line: Line) -> None:
        """Sends one line, unless a name in it has no number."""
        if not self.before:
            self.singly = max(0, self.singly - 1)
        self.before = 0
        number = self.journal.note_sent(line)
        if not line.uses <= self.numbers.keys():
            self.refuse(line, number, {"no": "NoNumber"})
            return
        self.journal.write()
        self.receive(line, number, self.target.perform(line.encoded(self.numbers)))

    def send_plan(self, parts: list[Line | Block]) -> None:
        """Sends lines as one plan. If it is refused, those before the refused one are the next plan."""
        self.before = 0
        sent = [(it, self.journal.note_sent(it)) for it in parts]
        self.journal.write()
        names: dict[str, int | str] = {}
        places, texts = itertools.count(1), []
        for part in parts:
            used = part.uses
            texts.append(part.encoded({it: names.get(it) or self.numbers[it] for it in used} if used else {}))
            names.update((name, f"${place}") for name, place in zip(part.names or [""] * part.count, places))
        answer = json.loads(self.target.perform_plan(encode_plan(texts)))
        if "done" in answer:
            self.caution = max(CAUTION, self.caution // 2)
            self.note_done(sent, answer["done"])
        elif "fault" in answer:
            # (the next run finds out whether it was performed)
            self.stop(parts[0].lines()[0], answer)
        else:
            self.take_back(sent, answer.get("at", 1))

    def take_back(self, sent: Sent, place: int) -> None:
        """Takes the lines of a refused plan up again."""
        lines = [it for part, _ in sent for it in part.lines()]
        for part, number in sent:
            for entry in range(number, number + part.count):
                self.journal.note_refusal(entry)
        self.pending.extendleft(reversed(lines))
        self.left += len(lines)
        self.before, self.singly, self.caution = place - 1, self.caution, min(2 * self.caution, MOST_CAUTION)

    # --- Receiving ---

    def note_done(self, sent: Sent, answers: list[dict]) -> None:
        """Takes note of the answers to a plan that was done."""
        left = iter(answers)
        for part, number in sent:
            its = list(itertools.islice(left, part.count))
            if isinstance(part, Line):
                self.note_final(part, number, final_of(part, its[0]))
                continue
            made = [it["ok"] for it in its] if part.names else [0]
            self.numbers.update(zip(part.names, made))
            self.counts["done"] += part.count
            if part.names and made[-1] - made[0] + 1 != part.count:
                for entry, it in enumerate(its, number):
                    self.journal.note_answer(entry, it)
            else:
                self.journal.note_done(number, part.count, made[0])

    def receive(self, line: Line, number: int, data: bytes) -> None:
        """Takes note of the answer to a line."""
        answer = parse_json(data.decode())
        final = self.final_answer(line, answer)
        if final is None:
            self.refuse(line, number, answer)
            return
        if "get" in line.request:
            print(data.decode())
        self.note_final(line, number, final)

    def note_final(self, line: Line, number: int, final: dict) -> None:
        self.journal.note_answer(number, final)
        self.learn(line, final)

    def final_answer(self, line: Line, answer: dict) -> dict | None:
        """Returns what the journal keeps of an answer, or None for a refusal or a fault."""
        if answer.get("no") == "OutsideKnown":
            return {"ok": answer["number"]}
        if line.entry is not None and "no" in answer and answer["no"] == AGAIN.get(line.kind) and self.was_done(line):
            return {"done": True}
        return None if {"no", "bad", "fault"} & answer.keys() else final_of(line, answer)

    def was_done(self, line: Line) -> bool:
        """Whether a request that is refused the second time was performed the first time."""
        request = line.resolved(self.numbers)
        if line.kind == "relabel":
            # The owner has a preferred label in the tag, so this is refused in any case.
            probe = {
                "do": "addLabel",
                "owner": request["owner"],
                "kind": "pref",
                "tag": request["tag"],
                "text": request["text"],
            }
            return self.target.ask(probe).get("no") == "LabelThere"
        if line.kind in ("merge", "deprecate"):
            view = self.target.ask({"get": "concept", "number": request.get("source") or request["concept"]})
            return view.get("live") is False and view["replaced"] == request.get("target")
        return True

    def refuse(self, line: Line, number: int, answer: dict) -> None:
        """Takes note of a refusal or a fault, and stops the run unless it may go on."""
        why = reason_of(answer)
        if "fault" not in answer and (why in self.given.ok or self.given.keep_going):
            self.journal.note_answer(number, {"no": why})
            self.learn(line, {"no": why})
        else:
            self.journal.note_refusal(number)
        if why not in self.given.ok:
            self.stop(line, answer)

    def stop(self, line: Line, answer: dict) -> None:
        """Reports a refusal or a fault, and stops the run unless it goes on."""
        is_fault = "fault" in answer
        self.is_stopped = is_fault or not self.given.keep_going
        if self.is_stopped:
            self.status = max(self.status, FAULT if is_fault else REFUSED)
            self.counts["refused"] += 1
        self.progress.end()
        say_refused(self.given.script, line, answer)


def say_refused(script: str, line: Line, answer: dict) -> None:
    """Reports a line that is refused, and which member of it has a wrong shape."""
    why = reason_of(answer)
    shape = shape_fault(line.request) if why == "BadShape" else ""
    print(f"{script}:{line.number}: {why}{f' ({shape})' if shape else ''}: {line.text}", file=sys.stderr)


def reason_of(answer: dict) -> str:
    """Returns the name of a refusal or a fault."""
    return next(answer[it] for it in ("no", "bad", "fault") if it in answer)


def final_of(line: Line, answer: dict) -> dict:
    """Returns what the journal keeps of an answer to a line that was done."""
    if line.kind == "post":
        return {"posting": answer.get("ok") or answer["again"]}
    return {"ok": answer["ok"]} if "ok" in answer else {"done": True}
