"""The journal of a script: what was sent of it and what was answered, so that a later run can go on."""
from __future__ import annotations

import os
from collections import defaultdict, deque
from pathlib import Path

from thesaurus_tools.command_line import REFUSED, ToolError
from thesaurus_tools.files import synchronize
from thesaurus_tools.load_scripts import Block, Line
from thesaurus_tools.requests import parse_json, to_json

# What records of a journal begin with.
RECORD_SIGNS = (b"#", b">", b"=", b"+", b"!")
DONE = {"done": True}


class Entry:
    """A line that an earlier run sent."""

    __slots__ = ("digest", "line", "resources", "answer", "is_closed")

    def __init__(self, digest: str, line: int, resources: int):
        # The number of resources is the least that there can have been when the line was sent.
        self.digest, self.line, self.resources = digest, line, resources
        self.answer: dict | None = None
        self.is_closed = False  # it has its answer, was refused, or was sent again


class Journal:
    """A file of records, each a line:

    `# N`: a run began, with N resources in the store;  `> DIGEST LINE`: a line is sent, and is entry 0, 1, .. ; `>
    DIGEST LINE ENTRY`: so it is, in place of that entry;  `= ENTRY ANSWER`: its final answer; `+ ENTRY COUNT NUMBER`:
    so many entries from that one on were done; unless NUMBER is 0, they made the resources from it on; `! ENTRY`: it
    wasn't performed, and may be sent again. All this is on the disk before a request is sent."""

    def __init__(self, file: int | None = None):
        # The entries of earlier runs, and how many there are with those of this run.
        self.entries: list[Entry] = []
        self.count, self.resources = 0, 0
        self.records: list[str] = []
        # Without a file nothing is kept.
        self.file = file

    def read(self, path: Path, file: int) -> None:
        """Reads the records, and cuts off one that a crash left unfinished."""
        data = path.read_bytes()
        whole = data.rfind(b"\n") + 1
        for number, record in enumerate(data[:whole].split(b"\n")[:-1], 1):
            try:
                self.read_record(*record.decode().split(" ", 2))
            except (ValueError, TypeError, IndexError, KeyError):
                raise ToolError(f"{path}:{number}: no record of a journal", REFUSED) from None
        if data[whole : whole + 1] not in (*RECORD_SIGNS, b""):
            raise ToolError(f"{path}: no journal", REFUSED)
        self.count = len(self.entries)
        os.ftruncate(file, whole)
        os.lseek(file, 0, os.SEEK_END)

    def read_record(self, sign: str, first: str, rest: str = "") -> None:
        if sign == "#":
            self.resources = int(first)
        elif sign == ">":
            line, *replaced = map(int, rest.split())
            for it in replaced:
                self.entries[it].is_closed = True
            self.entries.append(Entry(first, line, self.resources))
        elif sign == "=":
            self.settle(int(first), parse_json(rest))
        elif sign == "+":
            count, made = map(int, rest.split())
            for place in range(count):
                self.settle(int(first) + place, {"ok": made + place} if made else DONE)
        elif sign == "!":
            self.entries[int(first)].is_closed = True
        else:
            raise ValueError(sign)

    def settle(self, number: int, answer: dict) -> None:
        entry = self.entries[number]
        entry.answer, entry.is_closed = answer, True
        self.resources = max(self.resources, answer.get("ok", 0))

    def note_run(self, resources: int) -> None:
        self.resources = resources
        self.records.append(f"# {resources}\n")

    def note_sent(self, part: Line | Block) -> int:
        """Notes that a line or a block is about to be sent, and returns the number of its first entry."""
        first, end = self.count, "\n" if part.entry is None else f" {part.entry}\n"
        self.count += part.count
        if self.file is not None:
            self.records += [f"> {digest} {number}{end}" for number, digest in enumerate(part.digests(), part.number)]
        return first

    def note_answer(self, number: int, answer: dict) -> None:
        self.resources = max(self.resources, answer.get("ok", 0))
        self.records.append(f"= {number} {to_json(answer)}\n")

    def note_done(self, number: int, count: int, made: int) -> None:
        """Notes that all lines of a block were done. If they made resources, the number of the first is `made`, else
        that is 0."""
        self.resources = max(self.resources, made + count - 1) if made else self.resources
        self.records.append(f"+ {number} {count} {made}\n")

    def note_refusal(self, number: int) -> None:
        """Notes that the line of an entry wasn't performed, and is to be sent again by the next run."""
        self.records.append(f"! {number}\n")

    def write(self) -> None:
        """Has the disk confirm all records."""
        if self.records and self.file is not None:
            data = "".join(self.records).encode()
            while data:
                data = data[os.write(self.file, data) :]
            os.fdatasync(self.file)
        self.records.clear()


def open_journal(path: Path) -> Journal:
    """Opens a journal, which is made if there is none, and reads it. Raises ToolError if another load uses it."""
    try:
        import fcntl  # (Windows has none)
    except ImportError:
        raise ToolError(f"{path}: a journal needs locks, which this system lacks: leave out --journal") from None
    file = os.open(path, os.O_RDWR | os.O_CREAT | os.O_CLOEXEC, 0o644)
    try:
        fcntl.flock(file, fcntl.LOCK_EX | fcntl.LOCK_NB)
    except BlockingIOError:
        raise ToolError(f"{path}: another load uses this journal") from None
    journal = Journal(file)
    journal.read(path, file)
    if not os.fstat(file).st_size:
        # A power cut may take a new file's name, and with it all records.
        synchronize(path.resolve().parent)
    return journal


def match(
    parts: list[Line | Block], journal: Journal, path: Path | None
) -> tuple[list[tuple[Line, dict]], list[Line | Block]]:
    """Returns the lines that have their answer, and the other lines and blocks; of these the lines get the entry that
    has no answer yet. Raises ToolError if a line that was performed, or may have been, is no longer in the script."""
    known: dict[str, deque[int]] = defaultdict(deque)
    answered: list[tuple[Line, dict]] = []
    others: list[Line | Block] = []
    for number, entry in enumerate(journal.entries):
        if entry.answer is not None or not entry.is_closed:
            known[entry.digest].append(number)
    for part in parts:
        if not known or known.keys().isdisjoint(part.digests()):
            others.append(part)
            continue
        for line in part.lines() if isinstance(part, Block) else [part]:
            sent = known[line.digest].popleft() if known.get(line.digest) else None
            answer = journal.entries[sent].answer if sent is not None else None
            if answer is not None:
                answered.append((line, answer))
            else:
                line.entry = sent
                others.append(line)
    left = [journal.entries[number] for numbers in known.values() for number in numbers]
    lost = sorted(it.line for it in left if not it.answer or "no" not in it.answer)
    if lost:
        raise ToolError(
            (
                f"{path}: line {lost[0]} of an earlier run was sent and is no longer in the script "
                f"({len(lost)} such lines in all)"
            ),
            REFUSED,
        )
    return answered, others
