"""Files of a thesaurus in the forms of other programs: made one at a time by a process, and kept for a while."""
from __future__ import annotations

import json
import logging
import os
import queue
import secrets
import signal
import subprocess
import sys
import tempfile
import threading
from collections import Counter, OrderedDict
from collections.abc import Iterable, Iterator
from dataclasses import asdict, dataclass, field, replace
from functools import partial
from pathlib import Path
from typing import Any

from thesaurus_desk.interfaces.source import Source
from thesaurus_desk.interfaces.whole_thesaurus import PIECE, Answer
from thesaurus_desk.journal.releases import Release
from thesaurus_desk.store.plan_execution import Desk
from thesaurus_desk.store.release_export import frozen_source, release_lines
from thesaurus_tools import file_forms
from thesaurus_tools.fields import in_rdf, node_of
from thesaurus_tools.ntriples import Iri, Triple
from thesaurus_tools.rdf_writer import ntriple
from thesaurus_tools.term_dates import term_dates, to_json
from thesaurus_tools.workbooks import LeftOut

# How many files are kept, how many requests may wait for theirs, and the seconds that a process may take.
MOST_KEPT, MOST_WAITING, LONGEST = 24, 6, 600
# The property of values whose field has none: for the forms that aren't RDF.
OWN = "urn:field:"
LOG = logging.getLogger("desk")


class Busy(Exception):
    """Too many files are asked for at once."""


@dataclass(frozen=True)
class FileOrder:
    """What is saved, and as what: a release, or the present."""

    form: str
    choice: file_forms.Choice
    release: Release | None = None


@dataclass
class SavedFile:
    """A file that is being made, or is there. `needs` names a package that is lacking, `too_long` has the concepts
    whose records its form can't hold, `fault` says what else failed."""

    ticket: str
    wish: FileOrder
    name: str
    answer: Answer
    needs: str = ""
    fault: str = ""
    too_long: tuple[int, ...] = ()
    # What it hasn't: characters by how often there are some, and how many texts are cut.
    left_out: LeftOut = field(default_factory=LeftOut)

    def is_there(self, seconds: float) -> bool:
        """Whether it is made, or has failed, within some seconds."""
        return self.answer.is_made.wait(seconds)


class SavedFiles:
    """The files that were asked for."""

    def __init__(self, desk: Desk, source: Source) -> None:
        self.desk, self.source = desk, source
        self.lock = threading.Lock()
        self.files: OrderedDict[str, SavedFile] = OrderedDict()
        self.tickets: dict[tuple[object, FileOrder], str] = {}
        self.waiting: queue.Queue[SavedFile] = queue.Queue(MOST_WAITING)
        self.worker: threading.Thread | None = None
        # What the last file was made of: it serves for the next one of the same state.
        self.state: object = None
        self.folder: tempfile.TemporaryDirectory[str] | None = None

    def ask(self, wish: FileOrder, name: str) -> SavedFile:
        """Returns the file that somebody wishes, which may be yet to be made. Raises Busy."""
        key = (self.state_of(wish), wish)
        with self.lock:
            found = self.files.get(self.tickets.get(key, ""))
            if found is not None and not (found.needs or found.fault):
                self.files.move_to_end(found.ticket)
                return found
            # (a file without a name goes when nothing has it open)
            made = SavedFile(secrets.token_hex(12), wish, name, Answer(tempfile.TemporaryFile()))
            try:
                self.waiting.put_nowait(made)
            except queue.Full:
                raise Busy from None
            self.files[made.ticket], self.tickets[key] = made, made.ticket
            self.forget()
            self.begin()
        return made

    def find(self, ticket: str) -> SavedFile | None:
        """Returns the file of a ticket, if it is still kept."""
        with self.lock:
            return self.files.get(ticket)

    def state_of(self, wish: FileOrder) -> object:
        """Returns what is another value if the file would be another one."""
        return wish.release.digest if wish.release else self.source.version()

    def forget(self) -> None:
        """Forgets the files that were asked for longest ago."""
        while len(self.files) > MOST_KEPT:
            self.files.popitem(last=False)
        self.tickets = {key: it for key, it in self.tickets.items() if it in self.files}

    def begin(self) -> None:
        """Begins the thread that makes files, once."""
        if self.worker is None:
            self.worker = threading.Thread(target=self.work, name="files", daemon=True)
            self.worker.start()

    def work(self) -> None:
        """Makes one file after another."""
        while True:
            it = self.waiting.get()
            try:
                self.make(it)
            except Exception as error:
                LOG.exception("a file isn't made: %s", it.name)
                it.fault = type(error).__name__
            finally:
                it.answer.is_made.set()

    def make(self, it: SavedFile) -> None:
        """Makes a file."""
        folder = self.input_of(it.wish)
        outcome = run_form(it.wish, folder)
        it.needs, it.fault = outcome.get("needs", ""), outcome.get("said", "")
        it.too_long = tuple(outcome.get("too_long", ()))
        if left_out := outcome.pop("left_out", None):
            it.left_out = LeftOut(Counter(left_out["characters"]), left_out["cut"])
        made = folder / file_forms.MADE
        if not outcome:
            with made.open("rb") as file:
                it.answer.write(iter(lambda: file.read(PIECE), b""))
        made.unlink(missing_ok=True)

    def input_of(self, wish: FileOrder) -> Path:
        """Returns a folder with what a file is made of: the last one, if nothing has changed since."""
        state = self.state_of(wish)
        if self.folder is None or state != self.state:
            self.folder, self.state = tempfile.TemporaryDirectory(prefix="thesaurus-files-"), None
            write_input(Path(self.folder.name), self.desk, self.source, wish.release)
            self.state = state
        return Path(self.folder.name)


def write_input(folder: Path, desk: Desk, source: Source, release: Release | None) -> None:
    """Writes what everybody sees, now or in a release, for the process that makes files of it."""
    whole = [replace(it, property=it.property or OWN + name) for name, it in in_rdf(desk.values.fields()).items()]
    (folder / file_forms.FIELDS).write_text(json.dumps([asdict(it) for it in whole]), encoding="utf-8")
    dates = partial(term_dates, desk.journal.all)
    if release is not None:
        (folder / file_forms.TERMS).write_text(to_json(dates(release.plan)), encoding="utf-8")
        (folder / file_forms.EXPORT).write_bytes(desk.releases.text(release))
        (folder / file_forms.MORE).touch()
        return
    replica = source.replica()
    with replica.reading():
        (folder / file_forms.TERMS).write_text(to_json(dates()), encoding="utf-8")
        frozen = frozen_source(replica, *source.edition()).source
        write_lines(folder / file_forms.EXPORT, release_lines(frozen))
        write_lines(folder / file_forms.MORE, (f"{ntriple(it)}\n" for it in more_triples(frozen)))


def write_lines(path: Path, lines: Iterable[str]) -> None:
    """Writes lines to a file."""
    with path.open("w", encoding="utf-8") as file:
        file.writelines(lines)


def more_triples(source: Source) -> Iterator[Triple]:
    """Yields what RDF doesn't have of concepts: values without a property."""
    replica = source.replica()
    for number in replica.numbers("concept"):
        subject = Iri(replica.iri(number))
        for it in source.values(number):
            if not it.field.property:
                yield Triple(subject, Iri(OWN + it.field.name), node_of(it.field, it.tag, it.text, replica.base))


def run_form(wish: FileOrder, folder: Path) -> dict[str, Any]:
    """Has a process make a file of what a folder has, and returns what it says of that."""
    choice = wish.choice
    words = [sys.executable, "-P", "-m", file_forms.__name__, wish.form, str(folder), "--lang", choice.lang]
    words += ["--scheme", str(choice.scheme)] if choice.scheme else []
    words += ["--below", str(choice.top)] if choice.top else []
    places = [str(Path(file_forms.__file__).parents[1]), os.environ.get("PYTHONPATH", "")]
    environment = {**os.environ, "PYTHONPATH": os.pathsep.join(filter(None, places))}
    with subprocess.Popen(
        words, stdout=subprocess.PIPE, stderr=subprocess.PIPE, env=environment, start_new_session=True
    ) as process:
        try:
            said, errors = process.communicate(timeout=LONGEST)
        except subprocess.TimeoutExpired:
            os.killpg(process.pid, signal.SIGKILL)
            return {"said": f"{LONGEST} s"}
    try:
        found: dict[str, Any] = json.loads(said)
    except ValueError:
        LOG.error("a file isn't made: %s: %s", wish.form, errors.decode(errors="replace")[-2000:])
        return {"said": wish.form}
    return found
