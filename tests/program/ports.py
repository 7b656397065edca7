"""Free ports of this machine."""
from __future__ import annotations

import contextlib
import itertools
import os
import socket
from pathlib import Path

# Connections take the ports of their own end from this range: a port below it stays free until somebody listens there.
FIRST_OF_CLIENTS = int(Path("/proc/sys/net/ipv4/ip_local_port_range").read_text(encoding="ascii").split()[0])
FIRST = min(10_000, FIRST_OF_CLIENTS // 2)
# Each of the processes in which pytest-xdist runs tests has ports of its own, and takes one after another. So nobody
# takes a port between the search for it and the start of a server.
PROCESSES = int(os.environ.get("PYTEST_XDIST_WORKER_COUNT", "1"))
PROCESS = int(os.environ.get("PYTEST_XDIST_WORKER", "gw0").removeprefix("gw")) % PROCESSES
PORTS = range(FIRST + PROCESS, FIRST_OF_CLIENTS, PROCESSES)
# (another run of the tests on this machine most likely begins elsewhere)
TURNS = itertools.count(os.getpid())


def free_port() -> int:
    """A port on which nobody listens, another one at each call.

    It is bound, since a connection to it would be counted by a server of another program that listens there."""
    for turn in itertools.islice(TURNS, len(PORTS)):
        port = PORTS[turn % len(PORTS)]
        with contextlib.suppress(OSError), socket.socket() as probe:
            probe.setsockopt(socket.SOL_SOCKET, socket.SO_REUSEADDR, 1)
            probe.bind(("127.0.0.1", port))
            return port
    raise OSError("no port is free")
