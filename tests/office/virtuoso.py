"""Runs a Virtuoso on this machine, a triple store that knows SPARQL."""
from __future__ import annotations

import os
import subprocess
import time
from dataclasses import dataclass
from pathlib import Path

from thesaurus_tools.triple_store import TripleStore

PASSWORD = "dba"
SETTINGS = """
[Database]
DatabaseFile = {folder}/virtuoso.db
ErrorLogFile = {folder}/virtuoso.log
LockFile = {folder}/virtuoso.lck
TransactionFile = {folder}/virtuoso.trx
xa_persistent_file = {folder}/virtuoso.pxa
[TempDatabase]
DatabaseFile = {folder}/temp.db
TransactionFile = {folder}/temp.trx
[Parameters]
ServerPort = {sql}
NumberOfBuffers = 4000
MaxDirtyBuffers = 3000
DirsAllowed = {folder}
[HTTPServer]
ServerPort = 127.0.0.1:{http}
ServerThreads = 4
"""


@dataclass
class Virtuoso:
    """A Virtuoso on this machine."""

    folder: Path
    sql: int
    http: int
    graph: str = "https://museum.example/id/"
    process: subprocess.Popen[bytes] | None = None

    def start(self) -> None:
        (self.folder / "virtuoso.ini").write_text(
            SETTINGS.format(folder=self.folder, sql=f"127.0.0.1:{self.sql}", http=self.http), encoding="utf-8"
        )
        words = ["virtuoso-t", "+foreground", "+configfile", str(self.folder / "virtuoso.ini")]
        self.process = subprocess.Popen(words, cwd=self.folder, stdout=subprocess.DEVNULL, stderr=subprocess.DEVNULL)
        end = time.monotonic() + 300
        while self.sql_says("SELECT 1;").returncode:
            assert time.monotonic() < end and self.process.poll() is None, "Virtuoso didn't start"
            time.sleep(0.5)

    def sql_says(self, text: str) -> subprocess.CompletedProcess[bytes]:
        words = ["isql-vt", f"127.0.0.1:{self.sql}", "dba", PASSWORD, "VERBOSE=OFF", "ERRORS=STDOUT", f"EXEC={text}"]
        return subprocess.run(words, capture_output=True, check=False, timeout=60)

    def stop(self) -> None:
        if self.process:
            self.process.terminate()
            self.process.wait(60)
            self.process = None

    def spent(self) -> float:
        """Returns the seconds of CPU that it has spent."""
        assert self.process
        text = Path(f"/proc/{self.process.pid}/stat").read_text(encoding="ascii").rpartition(")")[2]
        return sum(map(int, text.split()[11:13])) / os.sysconf("SC_CLK_TCK")

    def url(self, path: str) -> str:
        return f"http://127.0.0.1:{self.http}{path}"

    def store(self) -> TripleStore:
        return TripleStore(self.url("/sparql"), self.url("/sparql-auth"), self.graph, user="dba", password=PASSWORD)
