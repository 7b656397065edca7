"""A process that makes pages: it reads the desk's file, and passes on to the office what changes something.

The office starts it: `python3 -m thesaurus_desk.page_process SOCKET OPTIONS..`, with the number of the listening
socket, and the options of the desk. It waits for a line that says that the desk is open, and prints a line once it
listens, and each error as a line of JSON."""
from __future__ import annotations

import contextlib
import json
import logging
import signal
import socket
import sys
from typing import cast

from thesaurus_desk.command_line import serving_arguments
from thesaurus_desk.journal.schema import now
from thesaurus_desk.page_processes import READY
from thesaurus_desk.server import end, entry_of, log_to_stderr, server_of, settings_of
from thesaurus_desk.store.desk_reader import ReadDesk
from thesaurus_desk.store.plan_execution import Desk
from thesaurus_desk.web.app import create_app
from thesaurus_desk.web.office_link import Forwarder
from thesaurus_tools.desk_socket import folder_of


class OfficeLogHandler(logging.Handler):
    """Tells the office each error of the log, which keeps it."""

    def emit(self, record: logging.LogRecord) -> None:
        """Prints an error with its time."""
        with contextlib.suppress(OSError):
            print(json.dumps([now(), record.getMessage()]), flush=True)


def main(words: list[str]) -> None:
    """Serves pages until it is ended by a signal."""
    number, *options = words
    log_to_stderr()
    logging.getLogger().addHandler(OfficeLogHandler(logging.ERROR))
    given = serving_arguments(options)
    signal.signal(signal.SIGTERM, end)
    if not sys.stdin.readline():
        return
    bound = socket.socket(fileno=int(number))
    desk = ReadDesk(given.db)
    # (to pages it is a desk, of which they can't have all)
    app = create_app(cast(Desk, desk), entry_of(given), settings_of(given, bound.getsockname()[1]), None)
    server = server_of(Forwarder(app, folder_of(given.db)), given, bound)
    with contextlib.suppress(KeyboardInterrupt, SystemExit):
        print(READY, flush=True)
        server.run()
    server.close()
    desk.close()


if __name__ == "__main__":
    main(sys.argv[1:])
