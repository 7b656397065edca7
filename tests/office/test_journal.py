"""The journal of tools/load: a new one is on the disk, and its name in its folder, before the first request is sent."""
from __future__ import annotations

import os
from collections.abc import Callable
from pathlib import Path

import pytest

from thesaurus_tools.journal import Journal, open_journal
from thesaurus_tools.load_scripts import parse_script


@pytest.fixture()
def synchronized(monkeypatch: pytest.MonkeyPatch) -> list[str]:
    """The paths of what the disk was asked to confirm, in this order."""
    found: list[str] = []

    def note(call: Callable[[int], None]) -> Callable[[int], None]:
        def noting(file: int) -> None:
            found.append(os.readlink(f"/proc/self/fd/{file}"))
            call(file)

        return noting

    for name in ("fsync", "fdatasync"):
        monkeypatch.setattr(os, name, note(getattr(os, name)))
    return found


def send_first(journal: Journal) -> None:
    """Notes a first request, as a loader does before it sends it."""
    (part,) = parse_script(b'{"do":"scheme","tag":"en","text":"A"}\n', "a.jsonl", False)
    journal.note_run(0)
    journal.note_sent(part)
    journal.write()


def test_a_new_journal_is_in_its_folder(tmp_path: Path, synchronized: list[str]) -> None:
    path = tmp_path / "a.journal"
    send_first(open_journal(path))
    assert synchronized == [str(tmp_path), str(path)]


def test_a_journal_behind_a_link_is_in_its_folder(tmp_path: Path, synchronized: list[str]) -> None:
    (tmp_path / "other").mkdir()
    (tmp_path / "link").symlink_to("other/a.journal")
    send_first(open_journal(tmp_path / "link"))
    assert synchronized == [str(tmp_path / "other"), str(tmp_path / "other" / "a.journal")]


def test_an_old_journal_is_only_written(tmp_path: Path, synchronized: list[str]) -> None:
    path = tmp_path / "a.journal"
    path.write_text("# 0\n", encoding="ascii")
    send_first(open_journal(path))
    assert synchronized == [str(path)]
