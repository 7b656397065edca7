"""Answers what other programs ask of a thesaurus, from an export: linked data, Skosmos' REST interface, reconciliation.

  thesaurus --db museum.db --existing export > museum.nt
  tools/publish museum.nt --port 8081

  /id/N        a resource as Turtle, JSON-LD, RDF/XML or N-Triples, by the header Accept or ?format=ttl
  /rest/v1/..  what Skosmos answers: vocabularies, N/search?query=harp*, N/broader?uri=.., and others
  /reconcile   the Reconciliation Service API 0.2, for OpenRefine
  /oai         OAI-PMH 2.0, for portals and catalogues

It reads the export once; --watch reads it again when the file has changed. It listens on this machine alone: put nginx
in front of it for others, which sends the field Host on, and give --secure if they come over TLS. tools/desk answers
the same of a store that is being edited. Needs Debian's python3-flask, python3-waitress and python3-babel.

Exit status: 0 ended, 1 the export is refused, 2 usage, 3 a fault."""
from __future__ import annotations

import argparse
import threading
import time
from collections.abc import Callable
from pathlib import Path
from typing import TYPE_CHECKING


from thesaurus_tools.command_line import DONE, USAGE, ToolError, parser_of, run, say
from thesaurus_tools.system_python import run_by_system_python

if TYPE_CHECKING:
    from thesaurus_desk.store.export_replica import ExportReplica

TOOL = "publish"
NEEDED = ("flask", "waitress", "babel")
# How often --watch looks at the file, in seconds.
WATCH = 2.0


class ExportOfFile:
    """The replica of an export, made anew when its file has changed."""

    def __init__(self, path: Path, read: Callable[[Path], ExportReplica]):
        self.path, self.read = path, read
        # What the file had when it was last read.
        self.stamp = (0, 0)
        self.replica: ExportReplica | None = None

    def load(self) -> ExportReplica:
        """Reads the export, unless it was read since it changed, and returns its replica."""
        stamp = self.stamp_of()
        if self.replica is None or stamp != self.stamp:
            self.stamp = stamp
            self.replica = self.read(self.path)
        return self.replica

    def current(self) -> ExportReplica:
        """Returns the replica as it was last made."""
        return self.replica or self.load()

    def stamp_of(self) -> tuple[int, int]:
        """Returns what shows that the file has changed."""
        status = self.path.stat()
        return status.st_mtime_ns, status.st_size

    def watch(self) -> None:
        """Reads the export again whenever it has changed; one that can't be read is left, and reported."""
        while True:
            time.sleep(WATCH)
            try:
                before = self.replica
                if self.load() is not before:
                    say(TOOL, f"{self.path}: read again")
            except Exception as error:  # (what is half written may fail anywhere; it is read again once it is whole)
                say(TOOL, f"{self.path}: not read again: {error}")


def arguments() -> argparse.Namespace:
    parser = parser_of(TOOL, __doc__)
    add = parser.add_argument
    add("export", type=Path, metavar="EXPORT", help="an export of the program (N-Triples)")
    add("--port", type=int, default=8081, help="the port on this machine (8081; 0 for a free one)")
    add("--title", default="", help="the name of the thesaurus, in place of the terms of its schemes")
    add("--secure", action="store_true", help="others come over TLS: addresses of this service begin with https")
    add("--watch", action="store_true", help="read the export again when the file has changed")
    return parser.parse_args()


def main() -> int:
    given = arguments()
    try:
        import babel  # noqa: F401
        import flask
        import waitress  # type: ignore[import]
    except ImportError as error:
        run_by_system_python(*NEEDED)
        packages = " and ".join(f"python3-{it}" for it in NEEDED)
        raise ToolError(f"{error.name} is needed: Debian's {packages}", USAGE) from None
    from thesaurus_desk.interfaces import interfaces_of
    from thesaurus_desk.store.export_replica import export_source, read_export

    published = ExportOfFile(given.export, read_export)
    published.load()
    app = flask.Flask(TOOL)
    app.register_blueprint(interfaces_of(export_source(published.current, given.title)))
    server = waitress.create_server(
        app,
        host="127.0.0.1",
        port=given.port,
        ident=None,
        max_request_body_size=1 << 20,
        url_scheme="https" if given.secure else "http",
    )
    if given.watch:
        threading.Thread(target=published.watch, daemon=True).start()
    print(f"listening on 127.0.0.1:{server.effective_port}", flush=True)
    server.run()
    return DONE


def command() -> None:
    """Runs it, and ends with its exit status."""
    run(TOOL, main)
