"""Reads large files of RDF as N-Triples by another program, which holds none of the file in memory: RDF/XML by rapper,
Turtle by serdi."""
from __future__ import annotations

import contextlib
import gzip
import re
import shutil
import subprocess
import tempfile
import threading
import zlib
from collections.abc import Iterator
from pathlib import Path
from typing import IO, BinaryIO, NamedTuple, cast

from thesaurus_tools.command_line import REFUSED, USAGE, ToolError
from thesaurus_tools.ntriples import BOM

# The most bytes of a dump, unpacked; and how many are given to a program at a time.
MOST_BYTES, BLOCK = 2 << 30, 1 << 20
# The most memory of a program, and how much of what it says is kept.
MEMORY, LONGEST_ERROR = 1 << 30, 300
TOO_LARGE = f"more than {MOST_BYTES >> 30} gigabytes"
CUT_SHORT = "it is cut short, or damaged: it can't be unpacked"


class Streamer(NamedTuple):
    """A program that reads a form of RDF from its input: its name, Debian's package, its words, and the beginning of
    the line in which it says why it stops."""

    program: str
    package: str
    words: tuple[str, ...]
    error: re.Pattern[str]


# By rdflib's names of the forms.
STREAMERS = {
    "xml": Streamer(
        "rapper",
        "raptor2-utils",
        ("-q", "-f", "noNet", "-f", "noFile", "-i", "rdfxml", "-o", "ntriples", "-"),
        re.compile(r"rapper: Error - (?:URI \S*?(?P<place>:[0-9]+)?)? *- (?P<reason>.*)"),
    ),
    # (by -l it would read on after an error; at the end of a damaged file it then never ends)
    "turtle": Streamer(
        "serdi",
        "serdi",
        ("-i", "turtle", "-o", "ntriples", "-"),
        re.compile(r"error: (?:\(stdin\))?(?P<place>:[0-9]+:[0-9]+)?: (?P<reason>.*)"),
    ),
}


def streamer_of(form: str) -> Streamer | None:
    """Returns the program for a form, if it is installed."""
    found = STREAMERS.get(form)
    return found if found and shutil.which(found.program) else None


@contextlib.contextmanager
def open_dump(path: Path) -> Iterator[BinaryIO]:
    """Opens a file, unpacked if it is in gzip. Raises ToolError for one that can't be read or unpacked."""
    try:
        with open(path, "rb") as file:
            is_packed = file.read(2) == b"\x1f\x8b"
        with cast(BinaryIO, gzip.open(path)) if is_packed else open(path, "rb") as opened:
            yield opened
    except (EOFError, gzip.BadGzipFile, zlib.error):
        raise ToolError(f"{path}: {CUT_SHORT}", REFUSED) from None
    except OSError as error:
        raise ToolError(f"{path}: {error.strerror or error}") from None


class Feeder(threading.Thread):
    """Writes a file to the input of a program, unpacked, and keeps the error that ends it."""

    def __init__(self, path: Path, pipe: IO[bytes]) -> None:
        super().__init__(daemon=True)
        self.path, self.pipe = path, pipe
        self.error: ToolError | None = None

    def run(self) -> None:
        """Writes it all. A program that has stopped takes no more, and says why itself."""
        try:
            with contextlib.suppress(BrokenPipeError), self.pipe:
                self.write()
        except ToolError as error:
            self.error = error

    def write(self) -> None:
        """Writes the file block by block. Raises ToolError."""
        size = 0
        with open_dump(self.path) as file:
            while block := file.read(BLOCK):
                if size + len(block) > MOST_BYTES:
                    raise ToolError(f"{self.path}: {TOO_LARGE}", USAGE)
                self.pipe.write(block if size else block.removeprefix(BOM))
                size += len(block)


@contextlib.contextmanager
def open_as_ntriples(path: Path, streamer: Streamer) -> Iterator[BinaryIO]:
    """Yields a pipe with the triples of a file. Raises ToolError at the end of the block if the file wasn't read to its
    end: what came of it until then isn't all."""
    with tempfile.TemporaryFile() as said:
        words = [streamer.program, *streamer.words, path.absolute().as_uri()]
        with subprocess.Popen(words, BLOCK, stdin=subprocess.PIPE, stdout=subprocess.PIPE, stderr=said) as ran:
            assert ran.stdin and ran.stdout
            limit_memory(ran.pid)
            feeder = Feeder(path, ran.stdin)
            feeder.start()
            try:
                yield cast(BinaryIO, ran.stdout)
            except BaseException:
                ran.kill()
                raise
            finally:
                feeder.join()
        if feeder.error:
            raise feeder.error
        if ran.returncode:
            said.seek(0)
            raise ToolError(f"{path}{reason_of(said.read(1 << 16).decode(errors='replace'), streamer)}", REFUSED)


def limit_memory(process: int) -> None:
    """Bounds the memory of a process, where the system can."""
    with contextlib.suppress(ImportError, AttributeError, OSError):
        import resource

        resource.prlimit(process, resource.RLIMIT_AS, (MEMORY, MEMORY))


def reason_of(said: str, streamer: Streamer) -> str:
    """Returns where a program stopped, if it says so, and why."""
    found = next(filter(None, map(streamer.error.match, said.splitlines())), None)
    if not found:
        return f": {streamer.program} stopped: {' '.join(said.split())[:LONGEST_ERROR]}"
    return f"{found['place'] or ''}: {found['reason'][:LONGEST_ERROR]}"
